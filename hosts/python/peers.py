"""Lines between members, over TCP: each pair of members has one connection a direction, and a first line that names who sends.

    hello MEMBER | packet CHANNEL HEX | block HEX | want DIGEST | transfer SENDER RECEIVER AMOUNT NUMBER

Who sends is what the first line says: on 127.0.0.1 nobody else is there. Over a network a host must know it, by TLS with a certificate of
each member or the like: members judge each other by it."""
import asyncio
import collections

MOST_BYTES = 1 << 20  # of a line


class Link:
    """Lines to one peer. Where they are too many the oldest are lost: members send again what matters."""

    def __init__(self, me, address, most=2000):
        self.me, self.address, self.most = me, address, most
        self.waiting = collections.deque()
        self.has_some = asyncio.Event()
        self.lost = 0
        self.connects = 0

    def send(self, line):
        if len(self.waiting) >= self.most:
            self.waiting.popleft()
            self.lost += 1
        self.waiting.append(line)
        self.has_some.set()

    async def run(self):
        """Connects, again and again, and writes what waits."""
        host, port = split(self.address)
        pause = 0.05
        while True:
            writer = None
            try:
                reader, writer = await asyncio.open_connection(host, port)
                self.connects += 1
                pause = 0.05
                writer.write(f"hello {self.me}\n".encode())
                closed = asyncio.ensure_future(reader.read(1))  # the peer writes nothing here: its end comes
                try:
                    await self.write(writer, closed)
                finally:
                    closed.cancel()
            except OSError:
                pass
            finally:
                if writer:
                    writer.close()
            await asyncio.sleep(pause)
            pause = min(0.5, 2 * pause)

    async def write(self, writer, closed):
        while not closed.done():
            if not self.waiting:
                self.has_some.clear()
                some = asyncio.ensure_future(self.has_some.wait())
                await asyncio.wait([some, closed], return_when=asyncio.FIRST_COMPLETED)
                some.cancel()
                continue
            writer.write((self.waiting.popleft() + "\n").encode())
            await writer.drain()


def split(address):
    host, _, port = address.rpartition(":")
    return host, int(port)


class Peers:
    """The links to all others, and what comes from them."""

    def __init__(self, me, addresses, take):
        self.me, self.addresses, self.take = me, addresses, take
        self.links = {peer: Link(me, address) for peer, address in enumerate(addresses) if peer != me}
        self.incoming = {}
        self.bad_lines = 0
        self.tasks = []

    async def start(self):
        host, port = split(self.addresses[self.me])
        self.server = await asyncio.start_server(self.accept, host, port, limit=MOST_BYTES)
        self.tasks = [asyncio.ensure_future(link.run()) for link in self.links.values()]

    def send(self, line, to=None):
        for peer, link in self.links.items():
            if to is None or peer in to:
                link.send(line)

    async def accept(self, reader, writer):
        try:
            match (await reader.readline()).decode().split():
                case ["hello", number] if number.isdecimal() and int(number) in self.links:
                    sender = int(number)
                case _:
                    self.bad_lines += 1
                    return
            # A new connection takes the place of the old one, whose peer may be gone without a word.
            if sender in self.incoming:
                self.incoming[sender].close()
            self.incoming[sender] = writer
            while line := await reader.readline():
                if not line.endswith(b"\n"):
                    break
                try:
                    self.take(sender, line.decode().rstrip("\n").split(" "))
                except ValueError:
                    self.bad_lines += 1
        except (OSError, ValueError):
            self.bad_lines += 1
        finally:
            writer.close()

    def close(self):
        self.server.close()
        for task in self.tasks:
            task.cancel()
