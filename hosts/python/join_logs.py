#!/usr/bin/env python3
"""Joins the logs of a cluster's members into the JSON of one run (docs/INPUT.md), which the proved programs judge.

    join_logs.py LOG .. [--views V] [--commands N] [--audit PATH] [--out FILE]

The logs are those of `member.py --log`, of member 0, 1, .., written on one machine: their stamps are of one clock. A command of a log
becomes a delivery, an answer, a tick or a start, and the steps that the member made after it. A log does not tell the steps, nor which of
them made a packet: `simplex_audit_cli record` does, of the run so far. So the tool adds more steps than there can be, in the order in
which a member looks for its next one, leaves out those that found nothing, and goes on with what the record says. What each command made
by the record must be what the log says: the same packets, requests, dropped requests and finalizations, in order. At the end `check`
judges the record.

A member that was killed crashes in the run, where what it did last but nobody heard of is tried, step by step, until its next start is as
in the log. What no run says (a kill within a step that stored something, a packet that no log has sent, a power loss) ends the join at
that place, with status 1 and a line that tells it; the run up to there is written all the same."""
import argparse
import copy
import dataclasses
import json
import pathlib
import subprocess
import sys

from node import ROOT, Ask, Drop, Error, Final, Ready, Send, parse


class Unsaid(Exception):
    """What the logs say and no run does."""


@dataclasses.dataclass
class Command:
    """A line that went in, and what came out of it: None where the process ended before."""
    stamp: int
    member: int
    line: str
    out: list | None = None
    # of the line `ready` before it
    deadline: int | None = None
    # the line `ready` after it reads as the one before
    is_quiet: bool = False
    # of a crash: the commands whose end nobody heard of, and the next start
    unheard: list = dataclasses.field(default_factory=list)
    next_start: "Command | None" = None


def lives_of(member, lines):
    """The commands of each life of a member, and the setup of its first line."""
    lives, setup, answered, out, ready = [], None, 0, [], None
    for text in lines:
        if not text.endswith("\n"):
            break  # its host was killed while it wrote
        stamp, _, sign, *rest = text.rstrip("\n").split(" ", 3)
        if sign == "<" and rest[0].startswith("{"):
            setup = json.loads(rest[0])
            lives.append([])
            answered, out, ready = 0, [], None
        elif sign == "<":
            lives[-1].append(Command(int(stamp), member, rest[0]))
        elif sign == ">":
            it = parse(rest[0])
            if isinstance(it, Ready):
                command = lives[-1][answered]
                command.out, command.deadline, command.is_quiet = out, ready and ready.deadline, ready == it
                ready = it
                answered, out = answered + 1, []
            else:
                out.append(it)
    return lives, setup


def commands_of(logs):
    """All commands in order of their stamps, with a crash where a member's process ended and another one started; and the setup."""
    commands, setup = [], None
    for member, lines in enumerate(logs):
        lives, found = lives_of(member, lines)
        if found is None:
            raise Unsaid(f"the log of member {member} has no first line")
        if setup not in (None, found):
            raise Unsaid(f"member {member} has another setup")
        setup = found
        for place, life in enumerate(lives):
            heard = [it for it in life if it.out is not None]
            commands += heard
            if place + 1 < len(lives) and life:
                later = lives[place + 1]
                start = later[0] if later and later[0].out is not None else None
                unheard = [it for it in life if it.out is None]
                commands.append(Command(life[-1].stamp, member, "crash", [], unheard=unheard, next_start=start))
    commands.sort(key=lambda it: it.stamp)
    return commands, setup


def record_of(audit, setup, events):
    """The record of a run, by the simulator."""
    done = subprocess.run([audit, "record"], input=json.dumps({"setup": setup, "events": events}), text=True, capture_output=True)
    if done.returncode != 0:
        raise Unsaid(f"the simulator does not take the run: {done.stdout.strip()} {done.stderr.strip()}")
    return json.loads(done.stdout)


def step(member, source):
    return {"do": "step", "node": [member, 0], "source": source, "stop": None}


def steps_after(command, many, kind=None):
    """More steps than a member makes after a command, in the order in which it looks for the next one: `many` says how many more, and
    `kind` which kind of request an answer is for. Before its deadline nothing comes of the clock."""
    me = command.member
    voter = [step(me, "voter")] * (many + 1)
    after = voter if many else []
    inner = voter + ([step(me, "batcher")] + after) * (3 * many + 1) + [step(me, "resolver")] * (3 * many + 1)
    taken = []
    match command.line.split(" "):
        case ["now", ms]:
            if command.deadline is not None and int(ms) < command.deadline:
                return []
            taken = ["timer"] * (many + 1)
        case ["packet", _, "resolver", _]:
            taken = ["handler"] * (many + 1)
        case ["answer", *_]:
            taken = ["propose" if kind == "prepare" else kind]
    if command.out is None or "start" in command.line or any(isinstance(it, Send) and it.channel == "resolver" for it in command.out):
        taken += ["fetch"] * (many + 1)
    return inner + sum(([step(me, source)] + inner for source in taken), [])


def steps_at_first(command):
    """How many more steps are tried at first: few where nothing came of the command."""
    return 0 if command.out == [] and command.is_quiet and "packet" in command.line and "resolver" not in command.line else 1


def answer_of(words):
    match words:
        case ["true"] | ["false"]:
            return {"verdict": words[0] == "true"}
        case [("payload" | "stage" | "vote") as kind, data]:
            return {kind: data}
        case [("wait" | "closed") as word]:
            return word
    raise Unsaid(f"no answer: {' '.join(words)}")


class Join:
    """The run so far, of what is known to be: events, and what each of them gave rise to."""

    def __init__(self, setup, record):
        self.setup, self.record = setup, record
        self.more = 0  # how many steps more than at first
        self.events = []
        self.clock = 0
        self.packets = {}  # (sender, channel, bytes): [(event, place, receivers)]
        self.requests = [[] for _ in setup["members"]]
        self.kinds = {}
        self.running = set()
        self.counts = {"commands": 0, "rounds": 0, "packets": 0, "requests": 0, "finals": 0, "crashes": 0, "unheard steps": 0}

    def events_of(self, command, clock):
        """The events of a command without its steps, or None where they name what is not known yet; and the clock after them."""
        me = command.member
        if command.out and any(isinstance(it, Error) for it in command.out):
            return [], clock  # refused, and nothing changed
        match command.line.split(" "):
            case [("start" | "now") as word, ms]:
                tick = [{"do": "tick", "ms": int(ms) - clock}] if int(ms) > clock else []
                start = [{"do": "start", "node": [me, 0], "floor": None, "stop": None}] if word == "start" else []
                return tick + start, max(clock, int(ms))
            case ["packet", sender, channel, data]:
                for event, place, to in self.packets.get((int(sender), channel, data), []):
                    if me in to:
                        return [{"do": "deliver", "node": [me, 0], "packet": [event, place]}], clock
                return None, clock
            case ["answer", number, *words]:
                if int(number) >= len(self.requests[me]):
                    return None, clock
                return [{"do": "answer", "node": [me, 0], "request": self.requests[me][int(number)], "answer": answer_of(words)}], clock
        raise Unsaid(f"member {me}: no command: {command.line}")

    def planned(self, command, clock):
        """The events of a command with its steps, as `events_of`."""
        events, clock = self.events_of(command, clock)
        if events is None or not events and not command.line.startswith("now"):
            return events, clock
        if command.out and any(isinstance(it, Error) for it in command.out):
            return events, clock
        match command.line.split(" "):
            case ["answer", number, *_]:
                kind = self.kinds[tuple(self.requests[command.member][int(number)])]
            case _:
                kind = None
        return events + steps_after(command, steps_at_first(command) + self.more, kind), clock

    def is_short(self, events, entries):
        """Whether more steps may have been left: the last one of a source, and of its steps in a row, has to find nothing."""
        last = {}
        for place, (event, entry) in enumerate(zip(events, entries)):
            if event["do"] != "step" or event["source"] in ("propose", "certify", "verify"):
                continue
            following = events[place + 1] if place + 1 < len(events) else None
            if event["source"] == "voter" and following != event and entry["outcome"] != "idle":
                return True
            last[event["source"]] = entry["outcome"]
        return any(outcome != "idle" for outcome in last.values())

    def take(self, command, events, entries):
        """Takes in what a command came to, and compares it with the log."""
        said = []
        for event, entry in zip(events, entries):
            if entry["outcome"] == "idle":
                continue
            self.events.append(event)
            number = len(self.events)
            if event["do"] == "start":
                self.running.add(command.member)
            if event["do"] == "crash":
                self.running.discard(command.member)
                self.requests[command.member] = []
            for place, packet in enumerate(entry["packets"]):
                to = {member for member, _ in packet["to"]}
                sender = packet["from"][0]
                self.packets.setdefault((sender, packet["channel"], packet["bytes"]), []).append((number, place, to))
                said.append(("send", packet["channel"], tuple(sorted(to)), packet["bytes"]))
            for request in entry["dropped"]:
                said.append(("drop", self.place_of(command.member, request)))
            for call in entry["calls"]:
                # Certificates are reported among other calls; that of a finalization begins with 02.
                if isinstance(call, dict) and call.get("report", "").startswith("02"):
                    said.append(("final", call["report"]))
            for place, ask in enumerate(entry["asked"]):
                self.requests[command.member].append([number, place])
                self.kinds[number, place] = ask["kind"]
                said.append(("ask", ask["kind"], ask["round"][1], ask["payload"]))
        if command.out is not None and command.line != "crash":
            self.compare(command, said)
        return said

    def place_of(self, member, request):
        return self.requests[member].index(request) if request in self.requests[member] else None

    def logged(self, command):
        """What the log says that a command came to, as `take` has it."""
        others = tuple(member for member in range(len(self.setup["members"])) if member != command.member)
        for it in command.out:
            match it:
                case Send():
                    yield "send", it.channel, others if it.to is None else tuple(sorted(it.to)), it.bytes
                case Drop():
                    yield "drop", it.request
                case Final():
                    yield "final", it.certificate
                case Ask():
                    yield "ask", it.kind, it.view, it.payload

    def compare(self, command, said):
        logged = list(self.logged(command))
        # A send to nobody is no packet. Requests and packets stand in lists of their own in an entry, so each kind is compared by itself.
        for kind in ("send", "drop", "ask", "final"):
            ours, theirs = [[it for it in found if it[0] == kind] for found in (said, logged)]
            if ours != theirs:
                raise Unsaid(f"member {command.member}, {command.line[:80]}: the log has {len(theirs)} of {kind} {theirs}, the run {ours}")
        self.counts["packets"] += sum(it[0] == "send" for it in logged)
        self.counts["requests"] += sum(it[0] == "ask" for it in logged)
        self.counts["finals"] += sum(it[0] == "final" for it in logged)
        self.counts["commands"] += 1

    def kept(self):
        """A copy of what is known."""
        return copy.deepcopy((self.events, self.packets, self.requests, self.kinds, self.running, self.counts))

    def crash(self, command):
        """A member was killed: as many steps of what nobody heard of as make its next start what the log has."""
        me = command.member
        unheard, clock = [], self.clock
        for it in command.unheard:
            events, clock = self.planned(it, clock)
            if events is None:
                break
            unheard += events
        entries = self.record(self.setup, self.events + unheard)["entries"][len(self.events):]
        unheard = [event for event, entry in zip(unheard, entries) if entry["outcome"] != "idle"]
        crash = {"do": "crash", "node": [me, 0]}
        start = {"do": "start", "node": [me, 0], "floor": None, "stop": None}
        kept = self.kept()
        for count in range(len(unheard) + 1):
            # A process that was killed before its start was heard of may not have started.
            runs = me in self.running or start in unheard[:count]
            trial = unheard[:count] + [crash] * runs
            if command.next_start:
                more = trial + [start] + steps_after(command.next_start, 3)
                entries = self.record(self.setup, self.events + more)["entries"][len(self.events):]
                try:
                    self.take(Command(0, me, "crash", []), trial, entries[: len(trial)])
                    self.take(dataclasses.replace(command.next_start), more[len(trial):], entries[len(trial):])
                    found = True
                except Unsaid:
                    found = False
                self.events, self.packets, self.requests, self.kinds, self.running, self.counts = kept
                kept = self.kept()
                if not found:
                    continue
            entries = self.record(self.setup, self.events + trial)["entries"][len(self.events):]
            self.take(Command(0, me, "crash", []), trial, entries)
            self.clock += sum(event["ms"] for event in trial if event["do"] == "tick")
            self.counts["crashes"] += 1
            self.counts["unheard steps"] += count
            return
        raise Unsaid(f"member {me} was killed, and no number of whole steps makes its next start what the log has")

    def run(self, commands):
        place = 0
        while place < len(commands):
            if commands[place].line == "crash":
                self.crash(commands[place])
                place += 1
                continue
            plan, clock = [], self.clock
            for command in commands[place:]:
                if command.line == "crash":
                    break
                events, after = self.planned(command, clock)
                if events is None:
                    break
                plan.append((command, events, after))
                clock = after
                if self.more:
                    break
            if not plan:
                raise Unsaid(f"member {commands[place].member}: what it takes is in no log: {commands[place].line[:80]}")
            record = self.record(self.setup, self.events + sum((events for _, events, _ in plan), []))
            entries = record["entries"][len(self.events):]
            self.counts["rounds"] += 1
            for command, events, after in plan:
                found, entries = entries[: len(events)], entries[len(events):]
                if self.is_short(events, found):
                    if self.more > 20:
                        raise Unsaid(f"member {command.member} makes no end of steps after {command.line[:80]}")
                    self.more = 2 * self.more + 1
                    break
                self.take(command, events, found)
                self.clock = after
                self.more = 0
                place += 1


def until_view(commands, members, view):
    """The commands until each member reported the view, or a later one, as final."""
    top = [0] * members
    for place, command in enumerate(commands):
        top[command.member] = max([top[command.member]] + [it.view for it in command.out or [] if isinstance(it, Final)])
        if min(top) >= view:
            return commands[: place + 1]
    return commands


def main():
    words = argparse.ArgumentParser(description=__doc__, formatter_class=argparse.RawDescriptionHelpFormatter)
    words.add_argument("logs", nargs="+", type=pathlib.Path)
    words.add_argument("--views", type=int, default=3)
    words.add_argument("--commands", type=int, default=4000)
    words.add_argument("--audit", default=str(ROOT / "unproved/simplex_audit_cli"))
    words.add_argument("--out", type=pathlib.Path)
    options = words.parse_args()
    status, join = 0, None
    try:
        commands, setup = commands_of([path.read_text().splitlines(keepends=True) for path in options.logs])
        commands = until_view(commands, len(setup["members"]), options.views)[: options.commands]
        join = Join(setup, lambda setup, events: record_of(options.audit, setup, events))
        join.run(commands)
    except Unsaid as why:
        print(f"join_logs: {why}", file=sys.stderr)
        status = 1
    if join is None:
        return 2
    text = json.dumps({"setup": join.setup, "events": join.events}, separators=(",", ":"))
    (options.out.write_text if options.out else print)(text)
    record = json.dumps(join.record(join.setup, join.events))
    verdict = subprocess.run([options.audit, "check"], input=record, text=True, capture_output=True).stdout.strip()
    counts = ", ".join(f"{name} {count}" for name, count in join.counts.items())
    print(f"{len(join.events)} events, {counts}; the record is {verdict}", file=sys.stderr)
    return status or int(verdict != "sound")


if __name__ == "__main__":
    sys.exit(main())
