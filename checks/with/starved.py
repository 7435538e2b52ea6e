"""A row of checks/failures: memory that is refused to one session of a server, at each allocation of its thread in turn, while
another session goes on."""
import mmap
import os
import shutil
import signal
import struct
import subprocess
import threading
import time

import served
from served import MARK, PATIENCE
from stored import Device, Session, request

SOURCE = os.path.join(os.path.dirname(os.path.abspath(__file__)), "refuse.c")
COMPILER = shutil.which("cc")
PEER = b"root admin\n"
COUNT = '<filter><count xmlns="urn:ex"/></filter>'
RUNNING = f"<get-config><source><running/></source>{COUNT}</get-config>"
CANDIDATE = "<target><candidate/></target>"
FIELDS = ["aim", "at", "came", "asked", "refused"]


class Refusal:
    """What refuse.c is told, and what it tells."""

    def __init__(self, room):
        self.library, path = os.path.join(room, "refuse.so"), os.path.join(room, "refuse")
        subprocess.run([COMPILER, "-shared", "-fPIC", "-O1", "-o", self.library, SOURCE], check=True)
        with open(path, "w+b") as file:
            file.write(bytes(8 * len(FIELDS)))
            file.flush()
            self.shared = mmap.mmap(file.fileno(), 8 * len(FIELDS))
        self.words = ["env", f"LD_PRELOAD={self.library}", f"REFUSE={path}"]

    def __getitem__(self, field):
        return struct.unpack_from("=Q", self.shared, 8 * FIELDS.index(field))[0]

    def __setitem__(self, field, value):
        struct.pack_into("=Q", self.shared, 8 * FIELDS.index(field), value)

    def aim(self, at):
        """The allocation of that number of the thread that comes next, 0 for none."""
        for field, value in [("at", 0), ("asked", 0), ("refused", 0), ("aim", self["came"] + 1), ("at", at)]:
            self[field] = value


class Caller:
    """A session of a user who may do everything, in the framing of base:1.0."""

    def __init__(self, line):
        self.line, self.left = line, b""
        self.line.sendall(PEER + served.HELLO.encode() + MARK)

    def message(self):
        while MARK not in self.left:
            piece = self.line.recv(65536)
            if not piece:
                raise ConnectionError("the line was closed")
            self.left += piece
        told, _, self.left = self.left.partition(MARK)
        return told.decode()

    def ask(self, operation):
        self.line.sendall(request(operation).encode() + MARK)
        return self.message()


def count_of(reply):
    return int(reply.partition("<count")[2].partition(">")[2].partition("<")[0] or 0)


class Other(threading.Thread):
    """A session that asks for running again and again."""

    def __init__(self, server):
        super().__init__(daemon=True)
        self.caller, self.answers, self.fault, self.over = Caller(server.dial()), 0, "", False
        self.caller.message()

    def run(self):
        while not self.over and not self.fault:
            try:
                told = self.caller.ask(RUNNING)
            except OSError as error:
                told = repr(error)
            self.answers += 1
            self.fault = "" if "<data>" in told or "<data/>" in told else told


def asked_for(number):
    """What the session asks for that wants for memory."""
    config = f'<config><count xmlns="urn:ex">{number}</count></config>'
    yield f"<lock>{CANDIDATE}</lock>"
    yield f"<edit-config>{CANDIDATE}{config}</edit-config>"
    yield "<commit/>"
    yield RUNNING
    yield f"<unlock>{CANDIDATE}</unlock>"
    yield "<close-session/>"


def sat(server, number):
    """That session: whether it was answered to its end, and whether its commit was acknowledged."""
    line, committed = server.dial(), False
    try:
        caller = Caller(line)
        caller.message()
        for operation in asked_for(number):
            if "<rpc-error>" in caller.ask(operation):
                return "refused", committed
            committed = committed or operation == "<commit/>"
        return "answered", committed
    except OSError:
        return "ended", committed
    finally:
        line.close()


def judged(judge, number, before, committed):
    """What is not as wanted afterwards: the candidate can be locked again, and running has what was acknowledged."""
    until = time.time() + PATIENCE
    while "<ok/>" not in (told := judge.ask(f"<lock>{CANDIDATE}</lock>")):
        if time.time() > until:
            return f"its lock stays: {told}", before
    now = count_of(judge.ask(RUNNING))
    if "<ok/>" not in judge.ask("<discard-changes/>") or "<ok/>" not in judge.ask(f"<unlock>{CANDIDATE}</unlock>"):
        return "the candidate is not given back", now
    return "" if now in ([number] if committed else [before, number]) else f"running has {now}, and {committed} was told", now


def seats(table, say):
    """Each allocation of a session's thread is refused once, and the next session has all its own."""
    device = Device(table.room)
    shutil.rmtree(device.folder)
    served.make_device(device.folder)
    refusal = Refusal(table.room)
    server = served.Server(table.program, device.folder, f"unix:{device.folder}/sock", before=refusal.words)
    judge = Caller(server.dial())
    judge.message()
    other = Other(server)
    other.start()
    judge.ask(RUNNING)
    refusal.aim(0)
    whole, running = sat(server, 1), 1
    total, ends = refusal["asked"], {}
    say("a session that has all its memory", "" if whole == ("answered", True) and total else f"{whole}, {total} allocations")
    cases = table.part(range(1, total + 1), 24)
    for at in cases:
        refusal.aim(at)
        end, committed = sat(server, at + 1)
        fault, running = judged(judge, at + 1, running, committed)
        met = end if refusal["refused"] else "not met"
        ends[met] = ends.get(met, 0) + 1
        say(f"allocation {at}", fault or other.fault)
    other.over = True
    other.join(PATIENCE)
    server.signal(signal.SIGTERM)
    session = Session(table.program, device)
    found = count_of(session.ask(RUNNING) or "")
    session.end()
    say("the next start", "" if found == running and other.answers > len(cases) else f"{found} and not {running}")
    told = ", ".join(f"{what} {number} times" for what, number in sorted(ends.items()))
    return f"{len(cases)} of {total} allocations of a session, beside {other.answers} answers to another: {told}"


ROWS = [("memory that is refused to one of several sessions", seats)]
