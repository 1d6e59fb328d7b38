"""Blocks: what a payload is here. A digest names a block, and the engine sees digests alone."""
import dataclasses
import json
import os
import pathlib

from node import digest_of

MOST_BYTES = 1 << 18


@dataclasses.dataclass(frozen=True)
class Transfer:
    """So much from one account to another. Each account numbers what it sends, from 0, so that nothing is done twice."""
    sender: str
    receiver: str
    amount: int
    number: int

    def words(self):
        return f"{self.sender} {self.receiver} {self.amount} {self.number}"


def transfer_of(words):
    """The transfer of four words. ValueError where they say none."""
    sender, receiver, amount, number = words
    if not sender.isalnum() or not receiver.isalnum() or not (amount.isdecimal() and number.isdecimal()):
        raise ValueError("not a transfer")
    return Transfer(sender, receiver, int(amount), int(number))


@dataclasses.dataclass(frozen=True)
class Block:
    """The transfers of a view, after those of its parent."""
    view: int
    parent_view: int
    parent: str
    transfers: tuple

    def encode(self):
        transfers = [[it.sender, it.receiver, it.amount, it.number] for it in self.transfers]
        return json.dumps([self.view, self.parent_view, self.parent, transfers], separators=(",", ":")).encode()

    def digest(self):
        return digest_of(self.encode())


def is_number(value):
    return type(value) is int and 0 <= value < 1 << 63


def decode(data):
    """The block of these bytes. ValueError where they are not the one spelling of a block."""
    if len(data) > MOST_BYTES:
        raise ValueError("too long")
    match json.loads(data):
        case [view, parent_view, str(parent), list(transfers)] if is_number(view) and is_number(parent_view):
            pass
        case _:
            raise ValueError("not a block")
    found = []
    for it in transfers:
        match it:
            case [str(sender), str(receiver), amount, number] if is_number(amount) and is_number(number):
                found.append(Transfer(sender, receiver, amount, number))
            case _:
                raise ValueError("not a transfer")
    block = Block(view, parent_view, parent, tuple(found))
    if block.encode() != data:
        raise ValueError("another spelling")
    return block


class BlockStore:
    """Blocks in a folder, a file each. A member keeps a block before it votes for it, so what is final can be had from a quorum."""

    def __init__(self, folder):
        self.folder = pathlib.Path(folder)
        self.folder.mkdir(parents=True, exist_ok=True)
        self.blocks = {}
        for path in self.folder.glob("*.block"):
            data = path.read_bytes()
            # A file that a crash cut short is no block of its name.
            if digest_of(data) == path.stem:
                self.blocks[path.stem] = decode(data)

    def __contains__(self, digest):
        return digest in self.blocks

    def get(self, digest):
        return self.blocks.get(digest)

    def add(self, data):
        """Keeps a block, over a crash too: its digest. ValueError where the bytes are none."""
        block = decode(data)
        digest = digest_of(data)
        if digest not in self.blocks:
            write_file(self.folder / f"{digest}.block", data)
            self.blocks[digest] = block
        return digest

    def path(self, digest, until):
        """The blocks after the block `until`, up to this one, the oldest first; or the digest of one that is missing, or of genesis."""
        found = []
        while digest != until:
            block = self.blocks.get(digest)
            if block is None:
                return None, digest
            found.append((digest, block))
            if block.parent_view >= block.view:
                return None, block.parent
            digest = block.parent
        return found[::-1], None


def write_file(path, data):
    """Writes a whole file that outlasts a crash, or none."""
    unfinished = path.with_name(path.name + ".new")
    with open(unfinished, "wb") as file:
        file.write(data)
        file.flush()
        os.fsync(file.fileno())
    os.rename(unfinished, path)
    folder = os.open(path.parent, os.O_RDONLY)
    try:
        os.fsync(folder)
    finally:
        os.close(folder)
