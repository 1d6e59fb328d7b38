"""A member's process, and the lines that go in and come out (docs/NODE.md has their grammar)."""
import collections
import dataclasses
import hashlib
import json
import os
import pathlib
import subprocess
import time

ROOT = pathlib.Path(__file__).resolve().parent.parent.parent
PROGRAMS = [ROOT / "crates/simplex_node_cli/out/simplex_node_cli", ROOT / "unproved/simplex_node_cli"]
# What a status says (crates/simplex_node_cli/src/end.rt).
STATUSES = {
    0: "the input ended", 2: "bad words", 3: "bad setup", 5: "a read failed", 6: "a write failed", 7: "out of memory",
    8: "the folder was not opened", 9: "the journal failed", 10: "no end of steps",
}
# With these a new process would end as the old one did.
HOPELESS = {2, 3}


def program_path(given=None):
    """The program: the path that is given, or of the variable SIMPLEX_NODE, or the proved build, or the one without a proof."""
    given = given or os.environ.get("SIMPLEX_NODE")
    if given:
        return str(given)
    for path in PROGRAMS:
        if path.exists():
            return str(path)
    raise SystemExit("simplex_node_cli is missing: tools/unproved.py build simplex_node_cli makes it, or --program names it")


def setup_of(members, **changes):
    """A setup of honest members (docs/INPUT.md, "The setup")."""
    setup = {
        "epoch": 0, "key_base": 1, "members": ["honest"] * members, "term": 1, "lookahead": 0, "leader_timeout": 1000,
        "certification_timeout": 2000, "retry": 500, "stall": None, "retention": 20, "skip": None, "forward": "disabled", "mailbox": 256,
        "track": False, "handoff": False, "fetch_timeout": 500, "fetch_retry": 100, "scenario": [],
    }
    setup.update(changes)
    return setup


def digest_of(payload):
    """The name of a payload: SHA-256 of its bytes, as the engine has it."""
    return hashlib.sha256(payload).hexdigest()


def genesis_of(epoch):
    """The payload of view 0, of which nobody has bytes."""
    return hashlib.sha256(b"\x07genesis" + number_bytes(epoch)).hexdigest()


def number_bytes(number):
    """A number in base 128, the least part first."""
    parts = bytearray()
    while number >= 128:
        parts.append(number % 128 + 128)
        number //= 128
    return bytes(parts + bytes([number]))


@dataclasses.dataclass(frozen=True)
class Send:
    channel: str
    to: tuple | None  # None: all others
    bytes: str


@dataclasses.dataclass(frozen=True)
class Relay:
    payload: str
    view: int
    how: str
    to: tuple | None


@dataclasses.dataclass(frozen=True)
class Final:
    view: int
    payload: str
    certificate: str


@dataclasses.dataclass(frozen=True)
class Ask:
    request: int
    kind: str
    view: int
    leader: int | None
    parent_view: int | None
    parent: str | None
    payload: str | None


@dataclasses.dataclass(frozen=True)
class Drop:
    request: int


@dataclasses.dataclass(frozen=True)
class Evidence:
    kind: str
    signer: int
    view: int


@dataclasses.dataclass(frozen=True)
class Block:
    member: int
    cause: str


@dataclasses.dataclass(frozen=True)
class Ready:
    view: int
    deadline: int | None


@dataclasses.dataclass(frozen=True)
class Error:
    line: int
    why: str


def members_of(word):
    return None if word == "all" else tuple(int(member) for member in word.split(","))


def parse(line):
    """What a line of the member says. ValueError where it says nothing that a member writes."""
    match line.split(" "):
        case ["send", ("vote" | "certificate" | "resolver") as channel, to, data]:
            return Send(channel, members_of(to), data)
        case ["relay", payload, view, ("prepare" | "propose") as how]:
            return Relay(payload, int(view), how, None)
        case ["relay", payload, view, "forward", to]:
            return Relay(payload, int(view), "forward", members_of(to))
        case ["final", view, payload, certificate]:
            return Final(int(view), payload, certificate)
        case ["ask", request, ("propose" | "prepare") as kind, view, leader, parent_view, parent]:
            return Ask(int(request), kind, int(view), int(leader), int(parent_view), parent, None)
        case ["ask", request, "verify", view, leader, parent_view, parent, payload]:
            return Ask(int(request), "verify", int(view), int(leader), int(parent_view), parent, payload)
        case ["ask", request, "certify", view, payload]:
            return Ask(int(request), "certify", int(view), None, None, None, payload)
        case ["drop", request]:
            return Drop(int(request))
        case ["evidence", kind, signer, view]:
            return Evidence(kind, int(signer), int(view))
        case ["block", member, cause]:
            return Block(int(member), cause)
        case ["ready", view]:
            return Ready(int(view), None)
        case ["ready", view, deadline]:
            return Ready(int(view), int(deadline))
        case ["error", number, *why] if why:
            return Error(int(number), " ".join(why))
    raise ValueError(f"not a line of a member: {line}")


def number_at(data, place):
    """A number in base 128, the least part first, and the place after it."""
    value = shift = 0
    while True:
        byte = data[place]
        place += 1
        value |= (byte & 127) << shift
        shift += 7
        if byte < 128:
            return value, place


def vote_of(data):
    """The kind and the view of a vote's bytes: 0 notarize, 1 nullify, 2 finalize."""
    _, place = number_at(data, 1)
    view, _ = number_at(data, place)
    return data[0], view


def make_folder(program, me, setup, folder):
    """Makes the folder of a member that never ran. Only who sets a cluster up calls it: a member whose folder is gone forgot its votes."""
    done = subprocess.run([program, "init", str(me), str(folder)], input=json.dumps(setup) + "\n", text=True, capture_output=True)
    if done.returncode != 0:
        raise RuntimeError(f"init {me}: {STATUSES.get(done.returncode, done.returncode)}: {done.stderr.strip()}")


class Node:
    """A member over its processes, one after another. It works with any loop that calls `pull` where `output` can be read, and `pump` else.

    Before each command the member is told the clock, so what it does depends on its input lines alone."""

    WINDOW = 64  # commands that the process has and did not answer
    MOST_WAITING = 2000  # packets that wait for the process

    def __init__(self, program, me, setup, folder, *, log=None, environment=None, clock=time.monotonic_ns):
        self.program, self.me, self.setup, self.folder = program, me, setup, str(folder)
        self.environment, self.clock = environment, clock
        self.log = open(log, "a", buffering=1) if log else None
        self.process = None
        self.life = 0
        self.lost_packets = 0
        self.reset()

    def reset(self):
        self.waiting = collections.deque()
        self.waiting_packets = 0
        self.unanswered = 0
        self.unwritten = b""
        self.unread = b""
        self.told = 0
        self.view = 0
        self.deadline = None
        self.is_started = False

    def start(self):
        """A new life: a new process over the folder. Answers and requests count anew."""
        self.reset()
        self.life += 1
        self.process = subprocess.Popen(
            [self.program, "run", str(self.me), self.folder], bufsize=0, env=self.environment,
            stdin=subprocess.PIPE, stdout=subprocess.PIPE, stderr=subprocess.PIPE,
        )
        self.output = self.process.stdout.fileno()
        os.set_blocking(self.output, False)
        os.set_blocking(self.process.stdin.fileno(), False)
        self.write(json.dumps(self.setup, separators=(",", ":")), self.clock())
        stamp = self.clock()
        self.told = stamp // 1_000_000
        self.command(f"start {self.told}", stamp)
        self.is_started = True
        self.flush()

    def note(self, stamp, what):
        if self.log:
            self.log.write(f"{stamp} {self.life} {what}\n")

    def write(self, line, stamp):
        self.note(stamp, "< " + line)
        self.unwritten += line.encode() + b"\n"

    def command(self, line, stamp):
        self.unanswered += 1
        self.write(line, stamp)

    def flush(self):
        if self.unwritten and self.process:
            try:
                count = os.write(self.process.stdin.fileno(), self.unwritten)
                self.unwritten = self.unwritten[count:]
            except (BlockingIOError, BrokenPipeError):
                pass

    def packet(self, sender, channel, data):
        """A packet that came from this member. The oldest ones are lost where the process is slow: senders send again what matters."""
        if self.waiting_packets >= self.MOST_WAITING:
            oldest = next(place for place, (is_packet, _) in enumerate(self.waiting) if is_packet)
            del self.waiting[oldest]
            self.waiting_packets -= 1
            self.lost_packets += 1
        self.waiting.append((True, f"packet {sender} {channel} {data}"))
        self.waiting_packets += 1
        self.pump()

    def answer(self, life, request, words):
        """The application's answer to a request of this life; one of an earlier life is left out, since numbers count anew."""
        if life == self.life and self.process:
            self.waiting.append((False, f"answer {request} {words}"))
            self.pump()

    def pump(self):
        """Writes what the process may have now: the clock where its deadline is reached, and what waits."""
        if not self.is_started or not self.process:
            return
        while self.waiting and self.unanswered < self.WINDOW and len(self.unwritten) < 1 << 16:
            is_packet, line = self.waiting.popleft()
            self.waiting_packets -= is_packet
            stamp = self.clock()
            if stamp // 1_000_000 > self.told:
                self.tell_clock(stamp)
            self.command(line, stamp)
        stamp = self.clock()
        if self.unanswered == 0 and self.deadline is not None and stamp // 1_000_000 >= max(self.deadline, self.told + 1):
            self.tell_clock(stamp)
        self.flush()

    def tell_clock(self, stamp):
        self.told = stamp // 1_000_000
        self.command(f"now {self.told}", stamp)

    def seconds_left(self):
        """How long nothing is due, at most."""
        if self.unwritten or self.deadline is None:
            return 0.005 if self.unwritten else 1.0
        return max(0.0, (self.deadline * 1_000_000 - self.clock()) / 1e9)

    def pull(self):
        """What the member said since: a list. None where the process ended, which `end` tells more of."""
        try:
            data = os.read(self.output, 1 << 20)
        except BlockingIOError:
            return []
        if not data:
            return None
        *lines, self.unread = (self.unread + data).split(b"\n")
        said = []
        for line in lines:
            text = line.decode()
            self.note(self.clock(), "> " + text)
            it = parse(text)
            said.append(it)
            if isinstance(it, Ready):
                self.unanswered -= 1
                self.view, self.deadline = it.view, it.deadline
        self.pump()
        return said

    def end(self, kill=False):
        """Ends the process, or sees how it ended: its status and what it wrote as an error."""
        if kill:
            self.process.kill()
        else:
            self.process.stdin.close()
        status = self.process.wait()
        os.set_blocking(self.process.stderr.fileno(), True)
        why = self.process.stderr.read().decode(errors="replace").strip()
        for stream in (self.process.stdin, self.process.stdout, self.process.stderr):
            stream.close()
        self.process = None
        self.is_started = False
        self.note(self.clock(), f"ended {status}")
        return status, why
