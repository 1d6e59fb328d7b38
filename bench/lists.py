#!/usr/bin/env python3
"""Long lists of events, most of them of honest members, for what measures the program.

    bench/lists.py rounds MEMBERS EVENTS      members finalize view after view, and nothing is lost
    bench/lists.py abreast MEMBERS EVENTS     the same, and each member takes a step before any takes the next
    bench/lists.py ticks MEMBERS EVENTS       each member takes eight steps between two ticks, abreast of the others, in one view
    bench/lists.py shown MEMBERS EVENTS       members give up view after view, and each verifies the certificate that one makes of it
    bench/lists.py doubted MEMBERS EVENTS     each faulty member shows all honest ones a certificate whose last signature is wrong
    bench/lists.py behind VIEWS               three members give up so many views and one more, and a fourth catches up
    bench/lists.py given_up VIEWS             the same without the fourth
"""
import hashlib
import json
import sys

SETUP = {
    "epoch": 0, "key_base": 1, "members": [], "term": 1, "lookahead": 0,
    "leader_timeout": 1000, "certification_timeout": 2000, "retry": 500, "stall": None, "retention": 10,
    "skip": None, "forward": "disabled", "mailbox": 16, "track": False, "handoff": False,
    "fetch_timeout": 1000, "fetch_retry": 100, "scenario": [],
}


class Events:
    """The events so far. A member's steps follow one upon the other, so that each mailbox is emptied before others are heard."""

    def __init__(self, members, **others):
        self.setup = SETUP | {"members": ["honest"] * members} | others
        self.members = range(members)
        self.events = []

    def add(self, do, member, **others):
        """Adds an event of the member's node, and names what stands first in its entry, be it a packet or a request."""
        self.events.append({"do": do, "node": [member, 0], **others})
        return [len(self.events), 0]

    def start(self, member):
        self.add("start", member, floor=None, stop=None)
        self.steps(member, "resolver", "batcher")

    def step(self, member, source):
        return self.add("step", member, source=source, stop=None)

    def steps(self, member, *sources):
        for source in sources:
            self.step(member, source)

    def answer(self, member, request, answer):
        self.add("answer", member, request=request, answer=answer)

    def deliver(self, member, packet):
        self.add("deliver", member, packet=packet)

    def deliver_all(self, packets, members=None):
        """Delivers what each member sent to all others, or to these."""
        for sender, packet in packets:
            for member in self.members if members is None else members:
                if member != sender:
                    self.deliver(member, packet)

    def input(self):
        return {"setup": self.setup, "events": self.events}


class Rounds(Events):
    """Members finalize view after view. Nothing is lost: each packet reaches each member once."""

    def __init__(self, members):
        super().__init__(members)
        for member in self.members:
            self.add("start", member, floor=None, stop=None)
        for member in self.members:
            self.steps(member, "resolver", "batcher")
        # The leader of view 1 was asked for a proposal as it started.
        self.view, self.leader = 1, 1 % members
        self.asked = [self.leader + 1, 0]

    # What a member does on its own, with a stop behind each of its events but the last. What it sends is told at the end.

    def notarize(self, member, request):
        """The member finds the proposal valid, and votes for it: its vote."""
        self.answer(member, request, {"verdict": True})
        yield
        vote = self.step(member, "verify")
        yield
        self.step(member, "batcher")
        return vote

    def finalize(self, member, request):
        """The member certifies the view, and votes to finalize it: its vote."""
        self.answer(member, request, {"verdict": True})
        yield
        vote = self.step(member, "certify")
        for source in ["resolver", "batcher", "batcher"]:
            yield
            self.step(member, source)
        return vote

    def take_certificate(self, member):
        """The member's voter takes the certificate that its batcher made of the votes, and sends it."""
        sent = self.step(member, "voter")
        yield
        self.step(member, "resolver")
        return sent

    def all_do(self, doings):
        """Each member does all of its own before the next one does: what each sent."""
        return [(member, to_its_end(doing)) for member, doing in doings]

    def add_view(self):
        """One view, from the proposal to its finalization."""
        self.answer(self.leader, self.asked, {"payload": f"{self.view:064x}"})
        proposal = self.step(self.leader, "propose")
        self.step(self.leader, "batcher")
        self.deliver_all([(self.leader, proposal)])
        requests = [(it, self.step(it, "voter")) for it in self.members if it != self.leader]
        self.deliver_all(self.all_do([(it, self.notarize(it, request)) for it, request in requests]))
        notarizations = self.all_do([(it, self.take_certificate(it)) for it in self.members])
        self.deliver_all(notarizations)
        # A request to certify stands first in the entry in which the notarization was sent; and in the entry in which a
        # member votes to finalize stands the next leader's request for a proposal.
        votes = self.all_do([(it, self.finalize(it, request)) for it, request in notarizations])
        self.view, self.leader = self.view + 1, (self.view + 1) % len(self.members)
        self.asked = votes[self.leader][1]
        self.deliver_all(votes)
        self.deliver_all(self.all_do([(it, self.take_certificate(it)) for it in self.members]))


class Abreast(Rounds):
    """The same views, in which members do the same abreast: each does one thing before any does the next. So the events of
    a node are the same, and as many different nodes stand side by side as there are members."""

    def all_do(self, doings):
        told = {}
        left = dict(doings)
        while left:
            for member, doing in list(left.items()):
                try:
                    next(doing)
                except StopIteration as end:
                    told[member] = end.value
                    del left[member]
        return [(member, told[member]) for member, _ in doings]


def to_its_end(doing):
    """What is told at the end."""
    while True:
        try:
            next(doing)
        except StopIteration as end:
            return end.value


class Ticks(Events):
    """Members that stay in view 1: each gives it up, and goes on to send its vote, but hears the votes of four others alone."""

    HEARD = 4

    def __init__(self, members):
        super().__init__(members)
        for member in self.members:
            self.add("start", member, floor=None, stop=None)
        self.ms = 1000

    def tick(self):
        """A tick, and eight events of each member, abreast of the others."""
        self.events.append({"do": "tick", "ms": self.ms})
        self.ms = 500
        votes = [self.step(it, "timer") for it in self.members]
        for source in ["batcher", "voter", "resolver"]:
            for member in self.members:
                self.step(member, source)
        for behind in range(1, self.HEARD + 1):
            for member in self.members:
                self.deliver(member, votes[(member + behind) % len(self.members)])


class Shown(Events):
    """Members give up view after view, and one of them hears the votes. It shows the certificate that it makes to all others, of
    which each verifies it, abreast of the others: some 0.7 microseconds for each signature of a quorum."""

    def __init__(self, members):
        super().__init__(members)
        for member in self.members:
            self.add("start", member, floor=None, stop=None)
        self.abreast(self.members, "resolver", "batcher")
        self.quorum = members - (members - 1) // 3

    def abreast(self, members, *sources):
        for source in sources:
            for member in members:
                self.step(member, source)

    def give_up_view(self):
        """Each member's time runs out, the first hears a quorum, and all others are shown the certificate."""
        self.events.append({"do": "tick", "ms": 1000})
        votes = [(it, self.step(it, "timer")) for it in self.members]
        self.deliver_all(votes[: self.quorum], [0])
        self.step(0, "batcher")
        self.deliver_all([(0, self.step(0, "voter"))])
        self.abreast(self.members[1:], "voter")
        self.abreast(self.members, "resolver", "batcher")


def first_events(made, add, count):
    """The first `count` events of the list that grows by this."""
    while len(made.events) < count:
        add()
    del made.events[count:]
    return made.input()


def rounds(members, count):
    made = Rounds(members)
    return first_events(made, made.add_view, count)


def abreast(members, count):
    made = Abreast(members)
    return first_events(made, made.add_view, count)


def ticks(members, count):
    made = Ticks(members)
    return first_events(made, made.tick, count)


def shown(members, count):
    made = Shown(members)
    return first_events(made, made.give_up_view, count)


def number(value):
    """A number as packets spell it: base 128, the least part first."""
    return bytes([value % 128 + 128]) + number(value // 128) if value > 127 else bytes([value])


class Doubted(Events):
    """A third of the members is faulty. The others give up view 1, and then each faulty member shows all of them a nullification of
    it that they signed, but that the last signature is wrong: each verifies it, abreast of the others, some 0.7 microseconds for
    each signature of a quorum, and hears that member no more."""

    NULLIFY = bytes([1, 0, 1])  # of epoch 0 and view 1

    def __init__(self, members):
        faulty = (members - 1) // 3
        super().__init__(members - faulty)
        self.setup["members"] = self.setup["members"] + ["silent"] * faulty
        self.faulty = range(members - faulty, members)
        for member in self.members:
            self.add("start", member, floor=None, stop=None)
        self.events.append({"do": "tick", "ms": 1000})
        for source in ["resolver", "batcher", "timer"]:
            for member in self.members:
                self.step(member, source)

    def signature(self, member):
        key = hashlib.sha256(b"key" + self.setup["key_base"].to_bytes(8, "big") + member.to_bytes(4, "big")).digest()
        return hashlib.sha256(key + b"simplex" + self.NULLIFY).digest()

    def show(self, sender):
        """The certificate goes to all honest members, and each hears it."""
        signed = [number(it) + self.signature(it) for it in self.members]
        wrong = self.NULLIFY + number(len(signed)) + b"".join(signed)[:-1] + b"."
        to = [[it, 0] for it in self.members]
        self.events.append({"do": "inject", "member": sender, "channel": "certificate", "to": to, "bytes": wrong.hex()})
        self.deliver_all([(sender, [len(self.events), 0])])


def doubted(members, count):
    made = Doubted(members)
    for sender in made.faulty:
        made.show(sender)
    del made.events[count:]
    return made.input()


class Behind(Events):
    """Four members, of which three give up view after view, while the fourth does not run."""

    LATE = 3

    def __init__(self):
        super().__init__(4, fetch_timeout=100_000)
        self.awake = range(self.LATE)
        for member in self.awake:
            self.start(member)

    def give_up_view(self):
        """Each member's time runs out, and each hears the others: a nullification."""
        self.events.append({"do": "tick", "ms": 1000})
        votes = [(it, self.step(it, "timer")) for it in self.awake]
        self.deliver_all(votes, self.awake)
        for member in self.awake:
            self.step(member, "batcher")
            sent = self.step(member, "voter")
            self.steps(member, "resolver", "batcher")
        return sent

    def catch_up(self, nullification, views):
        """The fourth member starts, is shown the nullification behind these views, and fetches those of all of them."""
        self.start(self.LATE)
        self.deliver(self.LATE, nullification)
        self.step(self.LATE, "voter")
        request, _ = self.step(self.LATE, "resolver")
        self.step(self.LATE, "batcher")
        for view in range(1, views + 1):
            # Requests go round the peers.
            peer = view % self.LATE
            self.deliver(peer, [request, view - 1])
            self.deliver(self.LATE, self.step(peer, "handler"))
            self.steps(self.LATE, "handler", "voter", "resolver")


def behind(views, catches_up):
    """Members give up these views and one more; the fourth catches up, or does not run."""
    made = Behind()
    for _ in range(views + 1):
        nullification = made.give_up_view()
    if catches_up:
        made.catch_up(nullification, views)
    return made.input()


def main():
    match sys.argv[1:]:
        case ["rounds", members, events]:
            made = rounds(int(members), int(events))
        case ["abreast", members, events]:
            made = abreast(int(members), int(events))
        case ["ticks", members, events]:
            made = ticks(int(members), int(events))
        case ["shown", members, events]:
            made = shown(int(members), int(events))
        case ["doubted", members, events]:
            made = doubted(int(members), int(events))
        case ["behind", views]:
            made = behind(int(views), True)
        case ["given_up", views]:
            made = behind(int(views), False)
        case _:
            sys.exit(__doc__)
    json.dump(made, sys.stdout)


if __name__ == "__main__":
    main()
