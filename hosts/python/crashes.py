#!/usr/bin/env python3
"""Crash tests: clusters of members over pipes, with kill -9, power losses and lossy links, and checks that run along.

    crashes.py [--members N] [--seconds S] [--power] [--no-sync] [--lossy PERCENT] [--pause S] [--timeout MS]
               [--seed N] [--program PATH] [--folder PATH]
    crashes.py --all          what `make crashes` runs: five runs of less than a minute

With --power a kill is a power loss too: the folder then holds what was synced, and of the rest what chance leaves. With --no-sync syncs do
nothing, which the checks must find: the status is 0 where they do. What is checked: each view is final with one payload, over all members
and lives, and all of them lie on one chain; no member ever sends two votes of one kind and view, nor a nullify and a finalize of one view;
no evidence names a member; nobody is blocked; members end only when they are killed; and at the end views become final again."""
import argparse
import collections
import hashlib
import heapq
import itertools
import os
import pathlib
import random
import selectors
import shutil
import subprocess
import sys
import tempfile
import time

from node import STATUSES, Ask, Block, Drop, Error, Evidence, Final, Node, Send, make_folder, program_path, setup_of, vote_of

HERE = pathlib.Path(__file__).resolve().parent
# Members, with power losses, without syncs, seconds.
RUNS = [(4, False, False, 55), (7, False, False, 55), (4, True, False, 55), (7, True, False, 55), (4, True, True, 30)]
KINDS = ["notarize", "nullify", "finalize"]
class Fault(Exception):
    """What must not happen."""


class Checks:
    """What was seen of all members and lives."""

    def __init__(self, members):
        self.votes = [{} for _ in range(members)]
        self.finals = {}
        self.late_answers = 0
        self.proposals = {}  # payload: (view, parent's view, parent)

    def vote(self, member, data):
        kind, view = vote_of(data)
        if self.votes[member].setdefault((kind, view), data) != data:
            raise Fault(f"member {member} sent two votes to {KINDS[kind]} view {view}")
        if kind and (3 - kind, view) in self.votes[member]:
            raise Fault(f"member {member} sent a nullify and a finalize of view {view}")

    def final(self, member, view, payload):
        if self.finals.setdefault(view, payload) != payload:
            raise Fault(f"view {view} is final with two payloads, the second one of member {member}")

    def report(self, member, it):
        """Looks at what a member said."""
        match it:
            case Send(channel="vote"):
                self.vote(member, bytes.fromhex(it.bytes))
            case Final():
                self.final(member, it.view, it.payload)
            case Evidence():
                raise Fault(f"member {member} has evidence {it.kind} of member {it.signer} in view {it.view}")
            case Block():
                raise Fault(f"member {member} blocks member {it.member}: {it.cause}")
            case Error(why="no such request is open"):
                self.late_answers += 1  # the request was dropped while the answer was on its way
            case Error():
                raise Fault(f"member {member} does not take line {it.line}: {it.why}")

    def chain(self):
        """All final payloads lie on one chain: the ancestors of the greatest one have each view that is final below it."""
        if not self.finals:
            return
        view, payload = max(self.finals.items())
        while view:
            proposed, parent_view, parent = self.proposals[payload]
            if proposed != view:
                raise Fault(f"view {view} is final with a payload that was proposed in view {proposed}")
            skipped = [between for between in range(parent_view + 1, view) if between in self.finals]
            if skipped:
                raise Fault(f"view {skipped[0]} is final, but is no ancestor of view {view}")
            if parent_view and self.finals.get(parent_view, parent) != parent:
                raise Fault(f"view {parent_view} is final with another payload than the parent of view {view}")
            view, payload = parent_view, parent


class Power:
    """What a power loss leaves of a member's folder. The shim keeps what was synced."""

    def __init__(self, room, folder, chance, *, no_sync):
        self.room, self.folder, self.chance, self.no_sync = room, folder, chance, no_sync
        self.data = room / "data"
        self.data.mkdir(parents=True)
        shutil.copy(folder / "member", self.data)
        (room / "names").write_text("member\n")

    def environment(self, shim):
        more = {"LD_PRELOAD": str(shim), "KEPT": str(self.room), "FOLDER": str(self.folder)}
        return {**os.environ, **more, **({"NO_SYNC": "1"} if self.no_sync else {})}

    def torn(self, synced, last):
        """A file that was written after its last sync: as it was then, as it was last, or in places the one and the other."""
        how = self.chance.randrange(3)
        if how < 2:
            return (synced, last)[how]
        length = self.chance.randint(min(len(synced), len(last)), max(len(synced), len(last)))
        pick = lambda place: self.chance.choice([text[place] for text in (synced, last) if place < len(text)] or [0])
        return bytes(pick(place) for place in range(length))

    def strike(self):
        """Leaves what outlasts the loss: whether anything is gone."""
        last = {path.name: path.read_bytes() for path in self.folder.iterdir()}
        names = set((self.room / "names").read_text().split())
        synced = {path.name: path.read_bytes() for path in self.data.iterdir()}
        left = {}
        for name in sorted(names | last.keys()):
            if name not in names and (self.no_sync or self.chance.random() < 0.5):
                continue  # made since the folder's last sync
            if name not in last and not self.no_sync and self.chance.random() < 0.5:
                continue  # removed since
            before = synced.get(name, b"")
            left[name] = before if self.no_sync else self.torn(before, last.get(name, before))
        shutil.rmtree(self.folder)
        self.folder.mkdir()
        shutil.rmtree(self.data)
        self.data.mkdir()
        for name, text in left.items():  # what is left is on the disk
            (self.folder / name).write_bytes(text)
            (self.data / name).write_bytes(text)
        (self.room / "names").write_text("".join(f"{name}\n" for name in left))
        return left != last


class Cluster:
    """Members over pipes, and chance."""

    def __init__(self, options, folder):
        self.options = options
        self.chance = random.Random(options.seed)
        self.checks = Checks(options.members)
        self.counts = collections.Counter()
        self.selector = selectors.DefaultSelector()
        self.later = []  # (when, count, call): what chance holds back
        self.count = itertools.count()
        self.top = [0] * options.members
        self.calm = False
        self.held_back = {}
        self.powers = [None] * options.members
        self.nodes = []
        ms = options.timeout
        times = {"leader_timeout": ms, "certification_timeout": 2 * ms, "retry": ms // 2, "fetch_timeout": 500, "fetch_retry": 100}
        setup = setup_of(options.members, **times)
        shim = build_shim(folder) if options.power or options.no_sync else None
        for me in range(options.members):
            home = folder / f"member-{me}"
            make_folder(options.program, me, setup, home)
            if shim:
                self.powers[me] = Power(folder / f"kept-{me}", home, self.chance, no_sync=options.no_sync)
            environment = self.powers[me].environment(shim) if shim else None
            self.nodes.append(Node(options.program, me, setup, home, environment=environment))
        for node in self.nodes:
            self.start(node)

    def start(self, node):
        node.start()
        self.selector.register(node.output, selectors.EVENT_READ, node)
        self.counts["lives"] += 1

    def kill(self, node):
        self.selector.unregister(node.output)
        # What it wrote before was out: a member is judged by it.
        said = node.pull()
        node.end(kill=True)
        for it in said or []:
            self.checks.report(node.me, it)
            if isinstance(it, Send):
                self.send(node.me, it)
        self.counts["kills"] += 1
        if self.powers[node.me]:
            self.counts["losses"] += 1
            self.counts["losses of something"] += self.powers[node.me].strike()

    def after(self, seconds, call):
        heapq.heappush(self.later, (time.monotonic() + seconds, next(self.count), call))

    def send(self, sender, it):
        for node in self.nodes:
            if node.me == sender or (it.to is not None and node.me not in it.to):
                continue
            luck = 100 if self.calm else self.chance.uniform(0, 100)
            if luck < self.options.lossy:
                self.counts["packets lost"] += 1
                continue
            self.deliver(node, sender, it)
            if luck < 2 * self.options.lossy:
                self.after(self.chance.random() * 0.3, lambda node=node: self.deliver(node, sender, it))

    def deliver(self, node, sender, it):
        if node.process:
            node.packet(sender, it.channel, it.bytes)

    def ask(self, node, it):
        proposals = self.checks.proposals
        match it.kind:
            case "propose":
                # Random, so that a member that forgot its vote votes for another one.
                words = hashlib.sha256(self.chance.randbytes(16)).hexdigest()
                proposals[words] = (it.view, it.parent_view, it.parent)
                words = "payload " + words
            case "verify":
                words = "true" if proposals.get(it.payload) == (it.view, it.parent_view, it.parent) else "false"
            case "certify":
                words = "true"
            case _:
                words = "closed"
        life = node.life
        if self.chance.random() < 0.1 and not self.calm:
            held = self.held(node)
            held.add(it.request)
            self.after(self.chance.random() * 0.05, lambda: it.request in held and node.answer(life, it.request, words))
        else:
            node.answer(life, it.request, words)

    def held(self, node):
        """Requests of this life whose answers are held back: one that is dropped takes none."""
        return self.held_back.setdefault((node.me, node.life), set())

    def hear(self, node):
        said = node.pull()
        if said is None:
            self.selector.unregister(node.output)
            status, why = node.end()
            raise Fault(f"member {node.me} ended by itself: {STATUSES.get(status, status)}: {why}")
        for it in said:
            self.take(node, it)

    def take(self, node, it):
        self.checks.report(node.me, it)
        match it:
            case Send():
                self.send(node.me, it)
            case Ask():
                self.ask(node, it)
            case Drop():
                self.held(node).discard(it.request)
            case Final():
                self.top[node.me] = max(self.top[node.me], it.view)

    def turn(self):
        now = time.monotonic()
        while self.later and self.later[0][0] <= now:
            heapq.heappop(self.later)[2]()
        running = [node for node in self.nodes if node.process]
        for node in running:
            node.pump()
        wait = min([node.seconds_left() for node in running] + [0.02])
        if self.later:
            wait = min(wait, max(0.0, self.later[0][0] - now))
        for key, _ in self.selector.select(timeout=wait):
            if key.data.process and key.fd == key.data.output:
                self.hear(key.data)

    def trouble(self):
        """Kills one member, or now and then all at once, and starts them again after a while."""
        time.sleep(self.chance.random() * 0.003)  # in the middle of what it does
        running = [node for node in self.nodes if node.process]
        if self.chance.random() < 0.1:
            self.counts["outages"] += 1
        else:
            running = [self.chance.choice(running)] if running else []
        for node in running:
            self.kill(node)
            self.after(self.chance.random() * self.chance.choice([0.01, 0.5]), lambda node=node: node.process or self.start(node))

    def run(self):
        began = time.monotonic()
        end = began + self.options.seconds
        next_trouble = began + 0.3
        while time.monotonic() < end:
            self.turn()
            if time.monotonic() >= next_trouble:
                self.trouble()
                next_trouble = time.monotonic() + self.chance.expovariate(1 / self.options.pause)
        # Calm at the end: three views more are final at each member.
        self.calm = True
        goal = max(self.checks.finals, default=0) + 3
        end = time.monotonic() + 90
        while min(self.top) < goal:
            if time.monotonic() > end:
                waits = [len(node.waiting) + node.unanswered for node in self.nodes]
                views = [node.view for node in self.nodes]
                raise Fault(f"not every member comes to view {goal} in the end: final {self.top}, in views {views}, waiting {waits}")
            self.turn()
        self.checks.chain()

    def close(self):
        for node in self.nodes:
            if node.process:
                node.end(kill=True)
        self.selector.close()


def build_shim(folder):
    shim = folder / "powerloss.so"
    subprocess.run(["cc", "-O1", "-Wall", "-shared", "-fPIC", "-o", shim, HERE / "powerloss.c", "-ldl"], check=True)
    return shim


def run(options):
    """One run: its fault, or None. Prints its counts."""
    base = options.folder or ("/dev/shm" if os.path.isdir("/dev/shm") else None)
    fault = None
    with tempfile.TemporaryDirectory(prefix="crashes-", dir=base) as room:
        began = time.monotonic()
        cluster = Cluster(options, pathlib.Path(room))
        try:
            cluster.run()
        except Fault as found:
            fault = str(found)
        finally:
            cluster.close()
        counts = dict(sorted(cluster.counts.items()))
        words = f"members {options.members} seed {options.seed} seconds {time.monotonic() - began:.0f}"
        words += f" views {max(cluster.checks.finals, default=0)} final {len(cluster.checks.finals)}"
        counts["late answers"] = cluster.checks.late_answers
        words += "".join(f", {name} {count}" for name, count in counts.items())
        mode = "no-sync" if options.no_sync else "power losses" if options.power else "kills"
        print(f"{mode}: {words}, faults {int(fault is not None)}", flush=True)
        if fault:
            print(f"  fault: {fault}", flush=True)
    return fault


def main():
    words = argparse.ArgumentParser(description=__doc__, formatter_class=argparse.RawDescriptionHelpFormatter)
    words.add_argument("--members", type=int, default=4)
    words.add_argument("--seconds", type=float, default=40)
    words.add_argument("--power", action="store_true")
    words.add_argument("--no-sync", action="store_true")
    words.add_argument("--lossy", type=float, default=1, help="of 100 packets so many are lost, and so many come again later")
    words.add_argument("--timeout", type=int, default=2000, help="milliseconds; on a busy machine shorter ones make no view final")
    words.add_argument("--pause", type=float, default=1, help="seconds between kills, in the mean")
    words.add_argument("--seed", type=int, default=1)
    words.add_argument("--program")
    words.add_argument("--folder")
    words.add_argument("--all", action="store_true")
    options = words.parse_args()
    options.program = program_path(options.program)
    if not options.all:
        fault = run(options)
        # Syncs that do nothing must be found.
        return int((fault is None) if options.no_sync else (fault is not None))
    bad = 0
    for members, power, no_sync, seconds in RUNS:
        changes = {"members": members, "power": power, "no_sync": no_sync, "seconds": seconds}
        fault = run(argparse.Namespace(**{**vars(options), **changes}))
        bad += (fault is None) if no_sync else (fault is not None)
    return int(bad > 0)


if __name__ == "__main__":
    sys.exit(main())
