#!/usr/bin/env python3
"""A member with a ledger of accounts, over TCP on 127.0.0.1: sockets, clock and application stand here, the protocol in simplex_node_cli.

    member.py --init CONFIG.json     once: makes the member's folder. Never for a member that voted before: it would forget its votes
    member.py CONFIG.json [--log FILE]

The configuration: {"me": 0, "setup": SETUP, "program": PATH, "folder": PATH, "peers": ["127.0.0.1:7000", ..], "client": "127.0.0.1:8000",
"accounts": {"a": 100, ..}, "pace": MS}: `peers` are the addresses of all members, `pace` is how long a leader waits for transfers.

Clients write lines to the client port: `transfer SENDER RECEIVER AMOUNT NUMBER`, `balances`, `chain FROM` or `status`. To each a line
comes back."""
import argparse
import asyncio
import json
import pathlib
import sys
import time

from blocks import BlockStore, transfer_of
from ledger import Ledger
from node import HOPELESS, STATUSES, Ask, Block, Drop, Error, Evidence, Final, Node, Relay, Send, genesis_of, make_folder, program_path
from peers import MOST_BYTES, Peers, split

ASK_AGAIN = 0.2  # seconds after which a block that is missing is asked for again


class Member:
    """The process of a member, its peers and its application."""

    def __init__(self, config, log=None):
        self.config = config
        self.me = config["me"]
        home = pathlib.Path(config["folder"])
        self.node = Node(program_path(config.get("program")), self.me, config["setup"], home / "journal", log=log)
        genesis = genesis_of(config["setup"]["epoch"])
        self.ledger = Ledger(config["accounts"], genesis, BlockStore(home / "blocks"), home / "head")
        self.peers = Peers(self.me, config["peers"], self.hear)
        self.pace = config.get("pace", 50) / 1000
        self.pending = {}  # requests of this life that wait for a block or for transfers, and since when
        self.wanted = {}  # blocks that are missing, and when a peer was asked last
        self.notes = []  # evidence and blocks, which an operator should see
        self.ends = []
        self.timer = None
        self.pause = 0.05

    async def run(self):
        self.loop = asyncio.get_running_loop()
        self.stopped = self.loop.create_future()
        await self.peers.start()
        host, port = split(self.config["client"])
        clients = await asyncio.start_server(self.serve, host, port, limit=MOST_BYTES)
        self.want(self.ledger.catch_up())
        self.start_node()
        try:
            return await self.stopped
        finally:
            clients.close()
            self.peers.close()

    # The process.

    def start_node(self):
        self.pending.clear()
        self.node.start()
        self.loop.add_reader(self.node.output, self.hear_node)
        self.schedule()

    def hear_node(self):
        said = self.node.pull()
        if said is None:
            self.node_ended()
            return
        for it in said:
            self.take(it)
        if said:
            self.pause = 0.05
        self.schedule()

    def node_ended(self):
        self.loop.remove_reader(self.node.output)
        status, why = self.node.end()
        self.ends.append(status)
        print(f"member {self.me}: the process ended: {STATUSES.get(status, f'status {status}')}. {why}", file=sys.stderr, flush=True)
        if status in HOPELESS:
            self.stopped.set_result(1)
            return
        # A killed host leaves a process that holds the lock of the folder until it sees that its input ended; so try again.
        self.loop.call_later(self.pause, self.start_node)
        self.pause = min(2.0, 2 * self.pause)

    def schedule(self):
        """Wakes up when the member's deadline is reached, a request was open for long enough, or a block is to be asked for again."""
        if self.timer:
            self.timer.cancel()
        wait = self.node.seconds_left()
        if self.pending or self.wanted:
            wait = min(wait, 0.02)
        self.timer = self.loop.call_later(max(0.001, wait), self.wake)

    def wake(self):
        self.node.pump()
        self.try_pending()
        for digest in list(self.wanted):
            self.want(digest)
        self.schedule()

    # What the member does.

    def take(self, it):
        match it:
            case Send():
                self.peers.send(f"packet {it.channel} {it.bytes}", it.to)
            case Ask():
                self.pending[it.request] = (it, time.monotonic())
                self.try_request(it.request)
            case Drop():
                self.pending.pop(it.request, None)
            case Relay():
                block = self.ledger.store.get(it.payload)
                if block:
                    self.peers.send(f"block {block.encode().hex()}", it.to)
            case Final():
                self.want(self.ledger.finalize(it.view, it.payload))
            case Evidence() | Block():
                self.notes.append(str(it))
                print(f"member {self.me}: {it}", file=sys.stderr, flush=True)
            case Error():
                # An answer to a request that was dropped meanwhile.
                pass

    def try_pending(self):
        for request in list(self.pending):
            self.try_request(request)

    def try_request(self, request):
        """Answers the request, unless it has to wait. Blocks are kept before the member votes for them."""
        it, since = self.pending[request]
        words, missing = "closed", None
        ledger = self.ledger
        if it.kind == "propose":
            if not ledger.waiting and time.monotonic() < since + self.pace:
                return
            block, missing = ledger.propose(it.view, it.parent_view, it.parent)
            if block:
                words = "payload " + ledger.store.add(block.encode())
        elif it.kind == "verify":
            verdict, missing = ledger.verify(it.view, it.parent_view, it.parent, it.payload)
            words = "true" if verdict else "false"
        elif it.kind == "certify":
            # A quorum verified it; certified is what can be had here.
            missing = None if it.payload in ledger.store else it.payload
            words = "true"
        if missing:
            self.want(missing)
            return
        del self.pending[request]
        self.node.answer(self.node.life, request, words)

    # Blocks and peers.

    def want(self, digest):
        now = time.monotonic()
        if digest and digest not in self.ledger.store and now >= self.wanted.get(digest, 0) + ASK_AGAIN:
            self.wanted[digest] = now
            self.peers.send(f"want {digest}")

    def hear(self, sender, words):
        """A line of a peer. ValueError where it is none."""
        match words:
            case ["packet", ("vote" | "certificate" | "resolver") as channel, data]:
                bytes.fromhex(data)
                self.node.packet(sender, channel, data)
            case ["block", data]:
                self.wanted.pop(self.ledger.store.add(bytes.fromhex(data)), None)
                self.want(self.ledger.catch_up())
                self.try_pending()
            case ["want", digest]:
                block = self.ledger.store.get(digest)
                if block:
                    self.peers.send(f"block {block.encode().hex()}", [sender])
            case ["transfer", *transfer]:
                self.ledger.submit(transfer_of(transfer))
                self.try_pending()
            case _:
                raise ValueError("not a line of a peer")
        self.schedule()

    # Clients.

    async def serve(self, reader, writer):
        try:
            while line := await reader.readline():
                writer.write((self.reply(line.decode().split()) + "\n").encode())
                await writer.drain()
        except (OSError, ValueError):
            pass
        finally:
            writer.close()

    def reply(self, words):
        ledger = self.ledger
        match words:
            case ["transfer", *transfer]:
                try:
                    it = transfer_of(transfer)
                except ValueError:
                    return "bad"
                is_new = ledger.submit(it)
                # The next leader is another member.
                self.peers.send(f"transfer {it.words()}")
                self.try_pending()
                return "ok" if is_new else "known"
            case ["balances"]:
                state = ledger.state
                height = len(ledger.chain) - 1
                return json.dumps({"view": ledger.head[0], "height": height, "balances": state.balances, "sent": state.sent})
            case ["chain", start] if start.isdecimal():
                return json.dumps(ledger.chain[int(start):][:1000])
            case ["status"]:
                links = self.peers.links.values()
                return json.dumps({
                    "view": self.node.view, "final": ledger.final[0], "applied": ledger.head[0], "lives": self.node.life, "ends": self.ends,
                    "process": self.node.process.pid if self.node.process else None, "waiting": len(ledger.waiting), "notes": self.notes,
                    "lost": self.node.lost_packets + sum(link.lost for link in links), "connects": sum(link.connects for link in links),
                })
        return "bad"


def main():
    words = argparse.ArgumentParser(description=__doc__, formatter_class=argparse.RawDescriptionHelpFormatter)
    words.add_argument("config", type=pathlib.Path)
    words.add_argument("--init", action="store_true")
    words.add_argument("--log", type=pathlib.Path)
    options = words.parse_args()
    config = json.loads(options.config.read_text())
    if options.init:
        home = pathlib.Path(config["folder"])
        home.mkdir(parents=True, exist_ok=True)
        make_folder(program_path(config.get("program")), config["me"], config["setup"], home / "journal")
        return 0
    return asyncio.run(Member(config, options.log).run())


if __name__ == "__main__":
    sys.exit(main())
