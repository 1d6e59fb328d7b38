#!/usr/bin/env python3
"""Starts a cluster on 127.0.0.1, submits transfers until all members have applied them, prints the balances, and ends.

    cluster.py [--members N] [--views V] [--seconds S] [--transfers T] [--kill K] [--seed N] [--program PATH] [--keep FOLDER]

It ends when all transfers are applied and view V is final at each member. With --kill so many times a member is killed with kill -9: its
process alone, or its host too; each starts again. Status 1 where members differ, money is made or lost, or the time is up. --keep leaves
configurations, folders and the logs of all input lines there, for join_logs.py."""
import argparse
import json
import os
import pathlib
import random
import signal
import socket
import subprocess
import sys
import tempfile
import time

from node import program_path, setup_of

HERE = pathlib.Path(__file__).resolve().parent
ACCOUNTS = {name: 1000 for name in ("alice", "bob", "carol", "dave", "erin")}


def free_ports(count):
    sockets = [socket.socket() for _ in range(count)]
    for it in sockets:
        it.bind(("127.0.0.1", 0))
    ports = [it.getsockname()[1] for it in sockets]
    for it in sockets:
        it.close()
    return ports


class Host:
    """A member.py, over its lives."""

    def __init__(self, folder, config):
        self.me = config["me"]
        self.config = folder / f"member-{self.me}.json"
        self.config.write_text(json.dumps(config))
        self.log = folder / f"member-{self.me}.log"
        self.errors = open(folder / f"member-{self.me}.err", "ab")
        self.client = config["client"]
        self.connection = None
        self.host = None
        subprocess.run([sys.executable, HERE / "member.py", "--init", self.config], check=True)

    def start(self):
        # A session of its own, so that a kill of both takes the host's process along.
        words = [sys.executable, HERE / "member.py", self.config, "--log", self.log]
        self.host = subprocess.Popen(words, stdin=subprocess.DEVNULL, stderr=self.errors, start_new_session=True)

    def kill(self):
        """Kills host and process at once."""
        os.killpg(self.host.pid, signal.SIGKILL)
        self.host.wait()
        self.connection = None

    def tell(self, line):
        """The answer to a line on the client port, or None while nobody answers."""
        try:
            if self.connection is None:
                address, _, port = self.client.rpartition(":")
                self.connection = socket.create_connection((address, int(port)), timeout=2).makefile("rw")
            self.connection.write(line + "\n")
            self.connection.flush()
            answer = self.connection.readline()
            if answer.endswith("\n"):
                return answer.strip()
        except OSError:
            pass
        self.connection = None
        return None

    def ask(self, line):
        answer = self.tell(line)
        return None if answer is None else json.loads(answer)


class Faults(Exception):
    """What must not happen."""


def chains_agree(hosts):
    """Sees that each chain is the beginning of the longest one: how long that is."""
    chains = []
    for host in hosts:
        chain = []
        while more := host.ask(f"chain {len(chain)}"):
            chain += [tuple(it) for it in more]
        chains.append(chain)
    longest = max(chains, key=len)
    for host, chain in zip(hosts, chains):
        if chain != longest[: len(chain)]:
            raise Faults(f"the chain of member {host.me} is another one")
    return len(longest) - 1


def kill_one(hosts, chance):
    host = chance.choice(hosts)
    status = host.ask("status")
    if chance.random() < 0.5 and status and status["process"]:
        os.kill(status["process"], signal.SIGKILL)
        return f"process of member {host.me}"
    host.kill()
    host.start()
    return f"member {host.me} and its host"


def drive(hosts, options, chance):
    """Submits, kills and waits: (the balances, the state of each member)."""
    total = sum(ACCOUNTS.values())
    numbers = dict.fromkeys(ACCOUNTS, 0)
    transfers = []
    for _ in range(options.transfers):
        sender, receiver = chance.sample(sorted(ACCOUNTS), 2)
        # So little that each sender has enough, in whatever order they come.
        transfers.append(f"transfer {sender} {receiver} {chance.randint(1, max(1, 900 // options.transfers))} {numbers[sender]}")
        numbers[sender] += 1
    began = time.monotonic()
    end = began + options.seconds
    kills = sorted(began + chance.uniform(1, options.seconds / 2) for _ in range(options.kill))
    next_round = began
    sent = {account: number for account, number in numbers.items() if number}
    while True:
        now = time.monotonic()
        if now > end:
            raise Faults(f"the time is up: {[host.ask('status') for host in hosts]}")
        while kills and now >= kills[0]:
            kills.pop(0)
            print(f"{now - began:6.1f} s: kill -9, {kill_one(hosts, chance)}", flush=True)
        if now >= next_round:
            # Transfers that a killed member lost come again: numbers make it harmless.
            for line in transfers:
                chance.choice(hosts).tell(line)
            next_round = now + 2
        states = [host.ask("balances") for host in hosts]
        for state in states:
            if state and sum(state["balances"].values()) != total:
                raise Faults(f"the sum of balances is not {total}: {state}")
        ready = [state for state in states if state and state["sent"] == sent and state["view"] >= options.views]
        if not kills and len(ready) == len(hosts):
            return states
        time.sleep(0.1)


def main():
    words = argparse.ArgumentParser(description=__doc__, formatter_class=argparse.RawDescriptionHelpFormatter)
    words.add_argument("--members", type=int, default=4)
    words.add_argument("--views", type=int, default=1)
    words.add_argument("--seconds", type=float, default=60)
    words.add_argument("--transfers", type=int, default=20)
    words.add_argument("--kill", type=int, default=0)
    words.add_argument("--pace", type=int, default=50)
    words.add_argument("--seed", type=int, default=None)
    words.add_argument("--program")
    words.add_argument("--keep", type=pathlib.Path)
    options = words.parse_args()
    program = program_path(options.program)
    chance = random.Random(options.seed)
    with tempfile.TemporaryDirectory(prefix="cluster-") as room:
        folder = pathlib.Path(room)
        if options.keep:
            folder = options.keep.resolve()
            folder.mkdir(parents=True)
        ports = free_ports(2 * options.members)
        addresses = [f"127.0.0.1:{port}" for port in ports]
        setup = setup_of(options.members)
        hosts = []
        try:
            for me in range(options.members):
                hosts.append(Host(folder, {
                    "me": me, "setup": setup, "program": program, "folder": str(folder / f"member-{me}"), "accounts": ACCOUNTS,
                    "peers": addresses[: options.members], "client": addresses[options.members + me], "pace": options.pace,
                }))
            for host in hosts:
                host.start()
            states = drive(hosts, options, chance)
            height = chains_agree(hosts)
            if any(state["balances"] != states[0]["balances"] for state in states):
                raise Faults(f"balances differ: {states}")
            notes = [note for host in hosts for note in (host.ask("status") or {}).get("notes", [])]
            if notes:
                raise Faults(f"members told on each other: {notes}")
            for account, balance in states[0]["balances"].items():
                print(f"{account} {balance}")
            views = [state["view"] for state in states]
            print(f"{len(hosts)} members agree: {options.transfers} transfers, {height} blocks, final views {min(views)} to {max(views)}")
            return 0
        except Faults as fault:
            print(f"fault: {fault}")
            return 1
        finally:
            for host in hosts:
                if host.host:
                    host.kill()


if __name__ == "__main__":
    sys.exit(main())
