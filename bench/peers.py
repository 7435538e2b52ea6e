#!/usr/bin/env python3
"""Times the same requests at the built program and at other servers, one after the other on the same machine: over a list of
100, 1,000 and 10,000 entries with a key and a leaf under `unique` all of them in one request, an edit, a commit, one that is
refused, and reads of all and of one by its key; a session from its start to its end; and 1,000 edits with 100 commits. A cell
has the time of the clock, the middle one of so many requests, and the processor time of the server.

The program is `netconfd stdio --recovery`, which keeps each commit in its store; with `--relay` it is beside that `netconfd
serve`, whose sessions the relay that is named brings. Another server is a command whose standard
streams are one session, with {modules} for a folder with the module and {store} for a file of its own; where it brings the
session to a server that runs by itself, `--pid NAME FILE` names the file with the number of that.
Usage: bench/peers.py [--sizes N ..] [--peer NAME COMMAND].. [--pid NAME FILE].. [--program PROGRAM] [--relay RELAY]
"""
import argparse
import contextlib
import glob
import os
import shlex
import statistics
import subprocess
import tempfile
import time

from connections import Server
from payloads import BASE, TOP, SPACE, device, edit, get_config, head, row

MODULE = """module ex {
  namespace "urn:ex";
  prefix ex;
  revision 2024-01-01;
  container top {
    leaf host { type string; }
    list port { key name; unique tag; leaf name { type string; } leaf tag { type uint16; } }
    leaf up { type leafref { path "../port/name"; } }
  }
}
"""
MARK = b"]]>]]>"
HELLO = (f'<hello xmlns="{BASE}"><capabilities><capability>urn:ietf:params:netconf:base:1.0</capability>'
         "<capability>urn:ietf:params:netconf:base:1.1</capability></capabilities></hello>").encode() + MARK
# (one server does not answer a request that it reads together with the hello)
GREETED = 0.3
TIMES = {100: 40, 1_000: 20, 10_000: 10}


def port(number, tag):
    return f"<port><name>p{number}</name><tag>{tag}</tag></port>"


def ports(content):
    return edit(f'<top xmlns="{SPACE}">{content}</top>')


def one(number):
    return get_config(f'<top xmlns="{SPACE}"><port><name>p{number}</name></port></top>').replace("<filter>", '<filter type="subtree">')


class Session:
    """A session of a server that a command begins."""

    def __init__(self, command):
        self.run = subprocess.Popen(shlex.split(command), stdin=subprocess.PIPE, stdout=subprocess.PIPE, stderr=subprocess.DEVNULL)
        self.buffer = b""
        self.upto(MARK)
        self.send(HELLO)

    def send(self, text):
        self.run.stdin.write(text)
        self.run.stdin.flush()

    def more(self):
        piece = self.run.stdout.read1(1 << 20)
        if not piece:
            raise SystemExit(f"{self.run.args[0]}: the session ended")
        self.buffer += piece

    def upto(self, mark):
        """What comes before a mark, which is taken too."""
        while mark not in self.buffer:
            self.more()
        told, _, self.buffer = self.buffer.partition(mark)
        return told

    def octets(self, count):
        while len(self.buffer) < count:
            self.more()
        told, self.buffer = self.buffer[:count], self.buffer[count:]
        return told

    def message(self):
        """The next message, of chunks (RFC 6242 4.2)."""
        chunks = []
        while True:
            self.upto(b"\n#")
            size = self.upto(b"\n")
            if size == b"#":
                return b"".join(chunks)
            chunks.append(self.octets(int(size)))

    def ask(self, operation, refused=False):
        """The reply to an operation, which is refused, or is not; None where both may be."""
        text = f'<rpc xmlns="{BASE}" message-id="1">{operation}</rpc>'.encode()
        self.send(b"\n#%d\n%s\n##\n" % (len(text), text))
        told = self.message()
        if refused is not None and (b"rpc-error" in told) != refused:
            raise SystemExit(f"{self.run.args[0]}: {operation[:200]} was answered {told[:400].decode()}")
        return told

    def close(self):
        self.ask("<close-session/>")
        self.run.stdin.close()
        self.run.stdout.read()
        self.run.wait()


class Peer:
    """A server: its name, the command of a session, and the file with the number of its process, if that is another one."""

    def __init__(self, name, command, numbered=None):
        self.name, self.command, self.numbered = name, command, numbered

    def begin(self):
        session = Session(self.command)
        time.sleep(GREETED)
        return session

    def process(self, session):
        if not self.numbered:
            return session.run.pid
        with open(self.numbered) as file:
            return int(file.read())

    def spent(self, session):
        """The seconds of processor of all threads of the server."""
        total = 0
        for path in glob.glob(f"/proc/{self.process(session)}/task/*/schedstat"):
            with open(path) as file:
                total += int(file.read().split()[0])
        return total / 1e9

    def memory(self, session):
        with open(f"/proc/{self.process(session)}/status") as status:
            return next(int(line.split()[1]) for line in status if line.startswith("VmHWM")) / 1024

    def emptied(self):
        """A session at the server, which has no data."""
        session = self.begin()
        session.ask(edit(f'<top xmlns="{SPACE}" xmlns:nc="{BASE}" nc:operation="remove"/>'))
        session.ask("<commit/>")
        return session


def cell(clock, processor):
    return f"{clock * 1e3:,.2f} / {processor * 1e3:,.2f} ms"


def timed(peer, session, times, work, before=None):
    """A cell: the middle time of the clock, and the mean time of the processor, of a piece of work, with what is done before each
    and not timed."""
    clocks, spent = [], 0.0
    for at in range(times):
        if before:
            before(at)
        used, begun = peer.spent(session), time.perf_counter()
        work(at)
        clocks.append(time.perf_counter() - begun)
        spent += peer.spent(session) - used
    return cell(statistics.median(clocks), spent / times)


def refused(session):
    """Two entries with one tag: some servers refuse the edit, others the commit."""
    if b"rpc-error" not in session.ask(ports(port("x", 60_000) + port("y", 60_000)), None):
        session.ask("<commit/>", True)
    session.ask("<discard-changes/>")


def over(peer, count):
    """The rows of a server over so many entries: what, and its cell."""
    session, times = peer.emptied(), TIMES.get(count, 10)

    def asking(operation):
        return lambda at: session.ask(operation(at * 7_919 % count, at))

    def retag(number, at):
        return ports(port(number, 20_001 + at))

    def commit(at):
        session.ask("<commit/>")

    everything = ports("".join(port(at, at + 1) for at in range(count)))
    yield "all of them in one request", timed(peer, session, 1, lambda at: session.ask(everything))
    commit(0)
    yield "get-config of all", timed(peer, session, times, asking(lambda number, at: get_config()))
    yield "get-config of one by its key", timed(peer, session, times, asking(lambda number, at: one(number)))
    yield "an edit of one entry", timed(peer, session, times, asking(retag))
    commit(0)
    yield "a commit of one entry", timed(peer, session, times, commit, asking(lambda number, at: retag(number, at + times)))
    yield "an edit and a commit that is refused", timed(peer, session, times, lambda at: refused(session))
    most = f"{peer.memory(session):,.1f} MB"
    session.close()
    yield "memory", most


def begun_and_closed(peer):
    """A session from its start to its end; the processor time is not told, since a process of the session itself is over."""
    peer.emptied().close()
    clocks = []
    for _ in range(20):
        begun = time.perf_counter()
        session = Session(peer.command)
        slept = time.perf_counter()
        time.sleep(GREETED)
        slept = time.perf_counter() - slept
        session.close()
        clocks.append(time.perf_counter() - begun - slept)
    return f"{statistics.median(clocks) * 1e3:,.2f} ms"


def many_edits(peer):
    """A thousand edits of an entry each, with a commit after each ten."""
    session = peer.emptied()

    def work(_):
        for at in range(1_000):
            session.ask(ports(port(at, at + 1)))
            if at % 10 == 9:
                session.ask("<commit/>")

    told = timed(peer, session, 1, work)
    session.close()
    return told


def words():
    given = argparse.ArgumentParser(prog="bench/peers.py", description="Times the same requests at several servers.")
    given.add_argument("--program", default=f"{TOP}/crates/netconfd/out/netconfd")
    given.add_argument("--relay")
    given.add_argument("--sizes", nargs="*", type=int, default=[100, 1_000, 10_000])
    given.add_argument("--peer", nargs=2, action="append", default=[], metavar=("NAME", "COMMAND"))
    given.add_argument("--pid", nargs=2, action="append", default=[], metavar=("NAME", "FILE"))
    return given.parse_args()


def served(program, relay, room):
    """A server that listens, without access control, and the peer of its sessions."""
    nacm = '<nacm xmlns="urn:ietf:params:xml:ns:yang:ietf-netconf-acm"><enable-nacm>false</enable-nacm></nacm>'
    server = Server(program, device(room, {"ex": MODULE}, nacm))
    numbered = f"{server.path}.pid"
    with open(numbered, "w") as file:
        file.write(str(server.process.pid))
    return server, Peer("netconfd serve", f"{os.path.abspath(relay)} unix:{server.path} root", numbered)


def main():
    given = words()
    program = os.path.abspath(given.program)
    with tempfile.TemporaryDirectory(dir=".") as room, contextlib.ExitStack() as servers:
        room = os.path.abspath(room)
        folder = device(room, {"ex": MODULE})
        peers = [Peer("netconfd", f"{program} stdio --recovery {folder} root")]
        if given.relay:
            server, peer = served(program, given.relay, room)
            servers.enter_context(server)
            peers.append(peer)
        for name, command in given.peer:
            for word, text in [("{modules}", f"{folder}/modules"), ("{store}", f"{folder}/store-of-{name}")]:
                command = command.replace(word, text)
            peers.append(Peer(name, command, dict(given.pid).get(name)))
        head("Entries", "What", *(peer.name for peer in peers))
        for count in given.sizes:
            for number, cells in enumerate(zip(*(over(peer, count) for peer in peers))):
                row("" if number else f"{count:,}", cells[0][0], *(told for _, told in cells))
        row("", "a session, from its start to its end", *(begun_and_closed(peer) for peer in peers))
        row("", "1,000 edits and 100 commits", *(many_edits(peer) for peer in peers))


main()
