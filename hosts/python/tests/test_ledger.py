import pathlib
import sys
import tempfile
import unittest

sys.path.insert(0, str(pathlib.Path(__file__).resolve().parent.parent))
from blocks import Block, BlockStore, Transfer, decode, digest_of, transfer_of
from ledger import Ledger, State

GENESIS = "00" * 32


def transfer(words):
    return transfer_of(words.split())


class States(unittest.TestCase):
    def test_a_transfer_moves_an_amount(self):
        state = State({"a": 10, "b": 0}).after([transfer("a b 4 0"), transfer("b a 1 0")])
        self.assertEqual(state.balances, {"a": 7, "b": 3})
        self.assertEqual(state.sent, {"a": 1, "b": 1})

    def test_what_no_transfer_may_be(self):
        state = State({"a": 10, "b": 0})
        for words in ("a b 11 0", "a b 0 0", "a a 1 0", "a c 1 0", "c a 1 0", "a b 1 1"):
            self.assertFalse(state.allows(transfer(words)), words)

    def test_no_transfer_is_done_twice(self):
        self.assertIsNone(State({"a": 10, "b": 0}).after([transfer("a b 4 0"), transfer("a b 4 0")]))


class Blocks(unittest.TestCase):
    def test_bytes_and_back(self):
        block = Block(3, 1, GENESIS, (Transfer("a", "b", 4, 0),))
        self.assertEqual(decode(block.encode()), block)

    def test_bytes_that_are_no_block(self):
        for data in (b"", b"[]", b"[1,0,\"\",[[]]]", b"[-1,0,\"\",[]]", b"[1, 0,\"\",[]]", b"[true,0,\"\",[]]", b"[" * 5000):
            with self.assertRaises((ValueError, RecursionError), msg=data[:20]):
                decode(data)

    def test_words_that_are_no_transfer(self):
        for words in ("a b 1", "a b -1 0", "a b x 0", "a- b 1 0", "a b 1 0 0"):
            with self.assertRaises(ValueError, msg=words):
                transfer(words)

    def test_a_store_outlasts_its_process_and_leaves_torn_files_out(self):
        with tempfile.TemporaryDirectory() as folder:
            digest = BlockStore(folder).add(Block(1, 0, GENESIS, ()).encode())
            (pathlib.Path(folder) / f"{'11' * 32}.block").write_bytes(b"[1,0")
            again = BlockStore(folder)
            self.assertEqual(list(again.blocks), [digest])


class Ledgers(unittest.TestCase):
    def setUp(self):
        self.room = tempfile.TemporaryDirectory()
        self.addCleanup(self.room.cleanup)
        self.home = pathlib.Path(self.room.name)
        self.ledger = self.open("one")

    def open(self, name):
        return Ledger({"a": 10, "b": 0}, GENESIS, BlockStore(self.home / name), self.home / f"{name}.head")

    def add(self, ledger, block):
        return ledger.store.add(block.encode())

    def test_a_leader_proposes_what_waits_in_order(self):
        for words in ("a b 2 1", "a b 3 0", "b a 9 0"):
            self.assertTrue(self.ledger.submit(transfer(words)))
        self.assertFalse(self.ledger.submit(transfer("a b 3 0")))
        block, _ = self.ledger.propose(1, 0, GENESIS)
        self.assertEqual([it.words() for it in block.transfers], ["a b 3 0", "a b 2 1"])
        self.assertEqual(self.ledger.verify(1, 0, GENESIS, self.add(self.ledger, block)), (True, None))

    def test_blocks_that_are_refused(self):
        for block in (Block(2, 0, GENESIS, ()), Block(1, 0, "11" * 32, ()), Block(1, 0, GENESIS, (transfer("a b 11 0"),))):
            self.assertEqual(self.ledger.verify(1, 0, GENESIS, self.add(self.ledger, block)), (False, None))

    def test_a_missing_block_is_named(self):
        parent = Block(1, 0, GENESIS, (transfer("a b 4 0"),))
        child = Block(2, 1, parent.digest(), (transfer("a b 4 1"),))
        self.assertEqual(self.ledger.verify(2, 1, parent.digest(), child.digest()), (None, child.digest()))
        self.add(self.ledger, child)
        self.assertEqual(self.ledger.verify(2, 1, parent.digest(), child.digest()), (None, parent.digest()))
        self.add(self.ledger, parent)
        self.assertEqual(self.ledger.verify(2, 1, parent.digest(), child.digest()), (True, None))

    def test_ancestors_of_a_final_block_are_applied_first(self):
        parent = Block(1, 0, GENESIS, (transfer("a b 4 0"),))
        child = Block(3, 1, parent.digest(), (transfer("b a 1 0"),))
        self.add(self.ledger, child)
        self.assertEqual(self.ledger.finalize(3, child.digest()), parent.digest())
        self.assertEqual(self.ledger.head, (0, GENESIS))
        self.add(self.ledger, parent)
        self.assertIsNone(self.ledger.catch_up())
        self.assertEqual(self.ledger.state.balances, {"a": 7, "b": 3})
        self.assertEqual([view for view, _ in self.ledger.chain], [0, 1, 3])
        # It comes again after a restart of the member.
        self.assertIsNone(self.ledger.finalize(1, parent.digest()))
        self.assertEqual(self.ledger.state.balances, {"a": 7, "b": 3})
        # And it is there after a restart of the host.
        self.assertEqual(self.open("one").state.balances, {"a": 7, "b": 3})

    def test_a_block_on_what_is_no_longer_the_end_is_refused(self):
        first, other = Block(1, 0, GENESIS, ()), Block(2, 0, GENESIS, ())
        self.ledger.finalize(1, self.add(self.ledger, first))
        self.assertEqual(self.ledger.verify(2, 0, GENESIS, self.add(self.ledger, other)), (False, None))

    def test_a_transfer_that_was_applied_waits_no_more(self):
        self.ledger.submit(transfer("a b 4 0"))
        block, _ = self.ledger.propose(1, 0, GENESIS)
        self.ledger.finalize(1, self.add(self.ledger, block))
        self.assertEqual(self.ledger.waiting, {})
        self.assertFalse(self.ledger.submit(transfer("a b 4 0")))

    def test_a_digest_is_sha_256(self):
        self.assertEqual(digest_of(b"abc"), "ba7816bf8f01cfea414140de5dae2223b00361a396177a9cb410ff61f20015ad")


if __name__ == "__main__":
    unittest.main()
