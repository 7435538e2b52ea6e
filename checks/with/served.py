"""What checks/serve stands on: a server at a socket, bare connections, sessions over the relay, and a count of checks."""
import os
import select
import signal
import socket
import subprocess
import tempfile
import time

# so long an answer is waited for, and a program's end
PATIENCE = 20

MARK = b"]]>]]>"
BASE = "urn:ietf:params:xml:ns:netconf:base:1.0"
ACM = "urn:ietf:params:xml:ns:yang:ietf-netconf-acm"
CAPABILITY = "<capability>urn:ietf:params:netconf:base:1.0</capability>"
HELLO = f'<hello xmlns="{BASE}"><capabilities>{CAPABILITY}</capabilities></hello>'
MODULE = 'module ex { namespace "urn:ex"; prefix ex; revision 2024-01-01; leaf count { type uint64; } }\n'
INITIAL = (
    f'<data xmlns="{BASE}"><nacm xmlns="{ACM}"><rule-list><name>all</name><group>admin</group>'
    "<rule><name>all</name><action>permit</action></rule></rule-list></nacm></data>"
)


class Tally:
    """How many checks passed, and how many failed."""

    def __init__(self):
        self.passed = self.failed = 0

    def count(self, what, told=""):
        """Counts a check, which passed where nothing is told against it."""
        if told:
            self.failed += 1
            print(f"checks/serve: {what}: {told}", flush=True)
        else:
            self.passed += 1

    def wants(self, what, got, wanted):
        self.count(what, "" if got == wanted else f"{got!r} and not {wanted!r}")

    def within(self, what, start, seconds):
        took = time.time() - start
        self.count(f"{what} within {seconds} s", "" if took < seconds else f"it took {took:.2f} s")

    def until(self, what, holds):
        """Waits until something holds."""
        end = time.time() + PATIENCE
        while not holds():
            if time.time() > end:
                self.count(what, "it does not come")
                return
            time.sleep(0.01)
        self.count(what)


class Ended(Exception):
    """The other side closed the connection."""


def make_device(folder):
    os.makedirs(os.path.join(folder, "modules"))
    with open(os.path.join(folder, "modules/ex.yang"), "w") as out:
        out.write(MODULE)
    with open(os.path.join(folder, "initial.xml"), "w") as out:
        out.write(INITIAL)


def end_of(process):
    """The exit status of a process, once it has ended."""
    try:
        return process.wait(PATIENCE)
    except subprocess.TimeoutExpired:
        return "no end"


class Server:
    """A server of a folder at an address, which answers once it is made. Its words begin with those that are given."""

    def __init__(self, program, folder, address, waits=True, before=()):
        self.address = address
        self.notes = tempfile.TemporaryFile()
        self.process = subprocess.Popen(
            [*before, program, "serve", folder, address],
            stdin=subprocess.DEVNULL,
            stdout=subprocess.DEVNULL,
            stderr=self.notes,
        )
        if waits:
            self.wait_until_it_listens()

    def wait_until_it_listens(self):
        end = time.time() + PATIENCE
        while time.time() < end and self.process.poll() is None:
            try:
                self.dial().close()
                return
            except OSError:
                time.sleep(0.01)
        raise SystemExit(f"checks/serve: the server does not listen: {self.process.poll()} {self.noted()}")

    def dial(self):
        """A bare connection."""
        kind, _, rest = self.address.partition(":")
        it = socket.socket(socket.AF_UNIX if kind == "unix" else socket.AF_INET)
        it.settimeout(PATIENCE)
        try:
            it.connect(rest if kind == "unix" else ("127.0.0.1", int(rest)))
        except OSError:
            it.close()
            raise
        return it

    def noted(self):
        self.notes.seek(0)
        return self.notes.read().decode(errors="replace").strip()

    def status(self):
        return end_of(self.process)

    def signal(self, which):
        self.process.send_signal(which)
        return self.status()

    def about(self, what):
        """A folder of what the system tells of the process."""
        return f"/proc/{self.process.pid}/{what}"

    def holds(self):
        """How many descriptors and threads it has."""
        return len(os.listdir(self.about("fd"))), len(os.listdir(self.about("task")))

    def streams(self):
        """What the descriptors of its standard streams are, those that are open."""
        return [os.readlink(self.about(f"fd/{it}")) for it in os.listdir(self.about("fd")) if int(it) < 3]

    def memory(self):
        """How many MiB of memory it has."""
        with open(self.about("statm")) as told:
            return int(told.read().split()[1]) * os.sysconf("SC_PAGE_SIZE") >> 20


def rest_of(it):
    """How many bytes come on a bare connection until the server closes it."""
    got = 0
    try:
        while piece := it.recv(65536):
            got += len(piece)
    except ConnectionResetError:
        pass
    except OSError as error:
        return repr(error)
    return got


def push(it, text, seconds=PATIENCE):
    """How many bytes of a text a bare connection takes, again and again, until nothing is taken for so long; and whether the
    server closed it."""
    taken = 0
    piece = text.encode() * (1 + 65536 // len(text))
    it.setblocking(False)
    try:
        while select.select([], [it], [], seconds)[1]:
            # (the next piece begins where this one ended)
            taken += it.send(piece[taken % len(text) :])
    except OSError:
        return taken, True
    finally:
        it.settimeout(PATIENCE)
    return taken, False


class Client:
    """A session through the relay, in the framing of base:1.0."""

    def __init__(self, relay, server, user, *groups):
        self.buffer = b""
        self.number = 0
        self.process = subprocess.Popen(
            [relay, server.address, user, *groups],
            stdin=subprocess.PIPE,
            stdout=subprocess.PIPE,
            stderr=subprocess.DEVNULL,
            bufsize=0,
        )
        try:
            told = self.message()
        except Ended:
            self.cut()
            raise
        self.session = int(told.partition("<session-id>")[2].partition("<")[0])
        self.send(HELLO)

    def send(self, text):
        self.process.stdin.write(text.encode() + MARK)

    def message(self):
        """The next message of the server."""
        end = time.time() + PATIENCE
        while MARK not in self.buffer:
            ready, _, _ = select.select([self.process.stdout], [], [], max(0, end - time.time()))
            if not ready:
                raise TimeoutError("no answer")
            piece = os.read(self.process.stdout.fileno(), 65536)
            if not piece:
                raise Ended()
            self.buffer += piece
        told, _, self.buffer = self.buffer.partition(MARK)
        return told.decode()

    def ask(self, operation):
        """The content of the reply to an operation."""
        self.number += 1
        self.send(f'<rpc xmlns="{BASE}" message-id="{self.number}">{operation}</rpc>')
        told = self.message()
        front = f'<rpc-reply xmlns="{BASE}" message-id="{self.number}">'
        if not told.startswith(front):
            raise ValueError(f"another reply: {told}")
        return told[len(front) :].removesuffix("</rpc-reply>")

    def lock(self, datastore):
        return self.ask(f"<lock><target><{datastore}/></target></lock>")

    def unlock(self, datastore):
        return self.ask(f"<unlock><target><{datastore}/></target></unlock>")

    def edit(self, number):
        config = f'<config><count xmlns="urn:ex">{number}</count></config>'
        return self.ask(f"<edit-config><target><candidate/></target>{config}</edit-config>")

    def commit(self, number, how="<commit/>"):
        """Commits that number."""
        told = self.edit(number)
        return self.ask(how) if told == "<ok/>" else told

    def kill(self, session):
        return self.ask(f"<kill-session><session-id>{session}</session-id></kill-session>")

    def running(self):
        """The number in running."""
        told = self.ask('<get-config><source><running/></source><filter><count xmlns="urn:ex"/></filter></get-config>')
        return int(told.partition("<count")[2].partition(">")[2].partition("<")[0] or 0)

    def close(self):
        self.ask("<close-session/>")
        return self.status()

    def cut(self):
        """Kills the relay."""
        self.process.kill()
        self.process.wait()

    def status(self):
        return end_of(self.process)
