"""A ledger of accounts: what the members agree on. Blocks are applied when they are final, in order of views."""
import json
import pathlib

from blocks import Block, write_file

MOST_TRANSFERS = 200
MOST_WAITING = 10_000


class State:
    """Balances, and how many transfers each account sent."""

    def __init__(self, balances, sent=None):
        self.balances = dict(balances)
        self.sent = dict(sent or {})

    def copy(self):
        return State(self.balances, self.sent)

    def allows(self, it):
        """Whether the transfer may be next."""
        return (
            it.sender in self.balances and it.receiver in self.balances and it.sender != it.receiver
            and 0 < it.amount <= self.balances[it.sender] and it.number == self.sent.get(it.sender, 0)
        )

    def apply(self, it):
        self.balances[it.sender] -= it.amount
        self.balances[it.receiver] += it.amount
        self.sent[it.sender] = it.number + 1

    def after(self, transfers):
        """The state after these transfers, or None where one of them may not be."""
        state = self.copy()
        for it in transfers:
            if not state.allows(it):
                return None
            state.apply(it)
        return state


class Ledger:
    """The state after the last applied block, transfers that wait for one, and blocks."""

    def __init__(self, accounts, genesis, store, head_file=None):
        self.store, self.head_file = store, head_file and pathlib.Path(head_file)
        self.state = State(accounts)
        self.genesis = genesis
        self.head = (0, genesis)
        self.chain = [(0, genesis)]
        self.final = (0, genesis)  # the greatest final view, which may lack a block yet
        self.waiting = {}
        if self.head_file and self.head_file.exists():
            view, digest = json.loads(self.head_file.read_text())
            self.finalize(view, digest)

    def submit(self, it):
        """A transfer that a block may have: whether it is a new one."""
        key = (it.sender, it.number)
        if key in self.waiting or it.number < self.state.sent.get(it.sender, 0) or len(self.waiting) >= MOST_WAITING:
            return False
        self.waiting[key] = it
        return True

    def state_at(self, parent):
        """The state after this block: (state, None), or (None, a missing digest), or (None, None) where it is off the chain."""
        if parent == self.head[1]:
            return self.state, None
        path, missing = self.store.path(parent, self.head[1])
        if path is None:
            known = {digest for _, digest in self.chain}
            return None, None if missing in known else missing
        state = self.state
        for _, block in path:
            state = state and state.after(block.transfers)
        return state, None

    def propose(self, view, parent_view, parent):
        """A block for the view: (block, None), or (None, a missing digest or None)."""
        state, missing = self.state_at(parent)
        if state is None:
            return None, missing
        state, found = state.copy(), []
        for _, it in sorted(self.waiting.items()):
            if state.allows(it) and len(found) < MOST_TRANSFERS:
                state.apply(it)
                found.append(it)
        return Block(view, parent_view, parent, tuple(found)), None

    def verify(self, view, parent_view, parent, digest):
        """Whether the block may follow its parent: (verdict, None), or (None, the digest of a block that is missing)."""
        block = self.store.get(digest)
        if block is None:
            return None, digest
        if (block.view, block.parent_view, block.parent) != (view, parent_view, parent):
            return False, None
        state, missing = self.state_at(parent)
        if missing:
            return None, missing
        return state is not None and state.after(block.transfers) is not None, None

    def finalize(self, view, digest):
        """The block of this view is final, and all before it: the digest of a block that is missing, or None. It may come twice."""
        if view > self.final[0]:
            self.final = (view, digest)
        return self.catch_up()

    def catch_up(self):
        """Applies what is final and there: the digest of a block that is missing, or None."""
        if self.final[0] <= self.head[0]:
            return None
        path, missing = self.store.path(self.final[1], self.head[1])
        if path is None:
            return missing
        for digest, block in path:
            state = self.state.after(block.transfers)
            if state is None:
                raise RuntimeError(f"a final block is not valid: {digest}")
            self.state, self.head = state, (block.view, digest)
            self.chain.append(self.head)
        if self.head_file:
            write_file(self.head_file, json.dumps(self.head).encode())
        sent = self.state.sent
        self.waiting = {key: it for key, it in self.waiting.items() if it.number >= sent.get(it.sender, 0)}
        return None
