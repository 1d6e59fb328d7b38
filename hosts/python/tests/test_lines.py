import pathlib
import selectors
import sys
import tempfile
import time
import unittest

sys.path.insert(0, str(pathlib.Path(__file__).resolve().parent.parent))
from node import ROOT, Ask, Block, Drop, Error, Evidence, Final, Node, Ready, Relay, Send, genesis_of, parse, setup_of, vote_of
from peers import Link

# Stands for a member: it is ready after each line but the first, and asks when it is started.
STUB = """#!{python}
import sys
sys.stdin.readline()
for line in sys.stdin:
    words = line.split()
    if words[0] == "start":
        print("ask 0 propose 1 0 0 aa")
    if words == ["packet", "1", "vote", "dead"]:
        sys.exit(9)
    print("ready", 1, int(words[1]) + 30 if words[0] in ("start", "now") else 1 << 60, flush=True)
"""


class Lines(unittest.TestCase):
    def test_each_form(self):
        for line, it in {
            "send vote all 00ff": Send("vote", None, "00ff"),
            "send resolver 1 00": Send("resolver", (1,), "00"),
            "relay aa 3 propose": Relay("aa", 3, "propose", None),
            "relay aa 3 forward 1,2": Relay("aa", 3, "forward", (1, 2)),
            "final 7 aa bb": Final(7, "aa", "bb"),
            "ask 4 propose 3 1 2 aa": Ask(4, "propose", 3, 1, 2, "aa", None),
            "ask 4 prepare 3 1 2 aa": Ask(4, "prepare", 3, 1, 2, "aa", None),
            "ask 4 verify 3 1 2 aa bb": Ask(4, "verify", 3, 1, 2, "aa", "bb"),
            "ask 4 certify 3 bb": Ask(4, "certify", 3, None, None, None, "bb"),
            "drop 4": Drop(4),
            "evidence NullifyFinalize 2 9": Evidence("NullifyFinalize", 2, 9),
            "block 2 wrong-sender": Block(2, "wrong-sender"),
            "ready 3": Ready(3, None),
            "ready 3 1001": Ready(3, 1001),
            "error 6 no such request is open": Error(6, "no such request is open"),
        }.items():
            self.assertEqual(parse(line), it)

    def test_lines_that_no_member_writes(self):
        for line in ("", "ready", "send vote all", "send mail all 00", "final 1 aa", "ask 0 verify 1 0 0 aa", "ready x"):
            with self.assertRaises(ValueError, msg=line):
                parse(line)

    def test_the_stored_session(self):
        said = [parse(line) for line in (ROOT / "crates/simplex_node_cli/stdout").read_text().splitlines()]
        self.assertEqual([it.view for it in said if isinstance(it, Final)], [1, 2])
        self.assertEqual(said[1].deadline, None)
        votes = [vote_of(bytes.fromhex(it.bytes)) for it in said if isinstance(it, Send) and it.channel == "vote"]
        self.assertEqual(votes[:4], [(0, 1), (2, 1), (0, 2), (2, 2)])
        self.assertEqual(next(it.parent for it in said if isinstance(it, Ask)), genesis_of(0))

    def test_a_view_of_two_bytes(self):
        self.assertEqual(vote_of(bytes([1, 0, 0xAC, 2, 0])), (1, 300))


class Processes(unittest.TestCase):
    def setUp(self):
        room = tempfile.TemporaryDirectory()
        self.addCleanup(room.cleanup)
        stub = pathlib.Path(room.name) / "stub"
        stub.write_text(STUB.format(python=sys.executable))
        stub.chmod(0o755)
        self.log = pathlib.Path(room.name) / "log"
        self.node = Node(str(stub), 0, setup_of(1), room.name, log=self.log)
        self.addCleanup(self.node.log.close)
        self.addCleanup(lambda: self.node.process and self.node.end(kill=True))

    def hear(self, until):
        said, selector = [], selectors.DefaultSelector()
        selector.register(self.node.output, selectors.EVENT_READ)
        end = time.monotonic() + 10
        while time.monotonic() < end and not until(said):
            self.node.pump()
            if selector.select(timeout=0.01):
                more = self.node.pull()
                if more is None:
                    return None
                said += more
        self.assertTrue(until(said), said)
        return said

    def test_the_clock_is_told_when_the_deadline_is_reached(self):
        self.node.start()
        said = self.hear(lambda said: sum(isinstance(it, Ready) for it in said) >= 3)
        self.assertEqual(sum(isinstance(it, Ask) for it in said), 1)
        told = [int(line.split()[-1]) for line in self.log.read_text().splitlines() if "< now" in line or "< start" in line]
        for before, after in zip(told, told[1:]):
            self.assertGreaterEqual(after, before + 30)

    def test_an_end_says_its_status_and_a_new_process_follows(self):
        self.node.start()
        self.node.packet(1, "vote", "dead")
        self.assertIsNone(self.hear(lambda said: False))
        self.assertEqual(self.node.end()[0], 9)
        self.node.start()
        self.node.answer(1, 0, "true")  # of the life before
        self.hear(lambda said: any(isinstance(it, Ask) for it in said))
        self.assertEqual(self.node.life, 2)
        self.assertNotIn("answer", self.log.read_text())

    def test_the_oldest_packets_are_lost(self):
        self.node.start()
        self.node.unanswered = self.node.WINDOW
        self.node.MOST_WAITING = 3
        self.node.answer(1, 0, "true")
        for number in range(5):
            self.node.packet(1, "vote", f"0{number}")
        self.assertEqual([line for _, line in self.node.waiting], ["answer 0 true"] + [f"packet 1 vote 0{number}" for number in (2, 3, 4)])
        self.assertEqual(self.node.lost_packets, 2)


class Links(unittest.TestCase):
    def test_the_oldest_lines_are_lost(self):
        link = Link(0, "127.0.0.1:1", most=2)
        for line in ("a", "b", "c"):
            link.send(line)
        self.assertEqual((list(link.waiting), link.lost), (["b", "c"], 1))


if __name__ == "__main__":
    unittest.main()
