import pathlib
import random
import sys
import tempfile
import unittest

sys.path.insert(0, str(pathlib.Path(__file__).resolve().parent.parent))
from crashes import Checks, Fault, Power
from node import Block, Evidence, Final, Send


def vote(kind, view, end):
    return Send("vote", None, bytes([kind, 0, view, end]).hex())


class Checking(unittest.TestCase):
    def setUp(self):
        self.checks = Checks(4)

    def see(self, *said):
        for it in said:
            self.checks.report(1, it)

    def test_a_vote_that_comes_again_is_none_more(self):
        self.see(vote(0, 1, 7), vote(2, 1, 7), vote(0, 2, 7), vote(1, 2, 7), vote(1, 2, 7))
        self.assertEqual(len(self.checks.votes[1]), 4)

    def test_two_votes_of_a_view(self):
        self.see(vote(0, 1, 7))
        with self.assertRaisesRegex(Fault, "two votes to notarize view 1"):
            self.see(vote(0, 1, 8))

    def test_a_nullify_and_a_finalize_of_a_view(self):
        for first, second in ((1, 2), (2, 1)):
            self.setUp()
            self.see(vote(first, 3, 7))
            with self.assertRaisesRegex(Fault, "a nullify and a finalize of view 3"):
                self.see(vote(second, 3, 7))

    def test_two_payloads_of_a_view(self):
        self.see(Final(1, "aa", ""))
        with self.assertRaisesRegex(Fault, "final with two payloads"):
            self.see(Final(1, "bb", ""))

    def test_evidence_and_blocks(self):
        for it in (Evidence("NullifyFinalize", 2, 1), Block(2, "wrong-sender")):
            with self.assertRaises(Fault):
                self.see(it)

    def test_a_chain(self):
        self.checks.proposals = {"aa": (1, 0, "g"), "bb": (2, 1, "aa"), "cc": (4, 2, "bb"), "dd": (4, 1, "aa")}
        self.checks.finals = {2: "bb", 4: "cc"}
        self.checks.chain()
        self.checks.finals = {2: "bb", 4: "dd"}
        with self.assertRaisesRegex(Fault, "view 2 is final, but is no ancestor of view 4"):
            self.checks.chain()


class Losses(unittest.TestCase):
    def setUp(self):
        room = tempfile.TemporaryDirectory()
        self.addCleanup(room.cleanup)
        self.room = pathlib.Path(room.name)
        self.folder = self.room / "folder"
        self.folder.mkdir()
        (self.folder / "member").write_text("member 0\n")

    def test_without_syncs_nothing_but_the_owner_is_left(self):
        power = Power(self.room / "kept", self.folder, random.Random(1), no_sync=True)
        (self.folder / "1.section").write_bytes(b"votes")
        self.assertTrue(power.strike())
        self.assertEqual([path.name for path in self.folder.iterdir()], ["member"])

    def test_what_was_synced_is_left(self):
        power = Power(self.room / "kept", self.folder, random.Random(1), no_sync=False)
        for name in ("1.section", "2.section"):
            (self.folder / name).write_bytes(b"synced")
            (power.data / name).write_bytes(b"synced")
        (power.room / "names").write_text("member\n1.section\n2.section\n")
        seen = set()
        for _ in range(60):
            (self.folder / "2.section").write_bytes(b"synced and more")
            power.strike()
            self.assertEqual((self.folder / "1.section").read_bytes(), b"synced")
            torn = (self.folder / "2.section").read_bytes()
            self.assertTrue(torn.startswith(b"synced"), torn)
            seen.add(len(torn))
            (self.folder / "2.section").write_bytes(b"synced")
            (power.data / "2.section").write_bytes(b"synced")
        self.assertGreater(len(seen), 3)


if __name__ == "__main__":
    unittest.main()
