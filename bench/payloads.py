"""What the scripts of bench/ share: devices, requests, sessions with the built program, and tables.

The program is crates/netconfd/out/netconfd, or the one that a script's first word names. A time is processor time of the
program alone; that of a request is what a session with it takes beyond one without, over the number of requests.
"""
import os
import resource
import subprocess
import sys
import tempfile
import threading

TOP = os.path.dirname(os.path.dirname(os.path.realpath(__file__)))
BASE = "urn:ietf:params:xml:ns:netconf:base:1.0"
SPACE = "urn:ex"


# ---- the words of a script

def words(sizes):
    """The program, and the sizes that are named after it, or these."""
    program = sys.argv[1] if len(sys.argv) > 1 else f"{TOP}/crates/netconfd/out/netconfd"
    if not os.access(program, os.X_OK):
        sys.exit(f"{sys.argv[0]}: there is no program at {program}: .ci/run builds it, and `rt run` in crates/netconfd")
    return os.path.realpath(program), [int(it) for it in sys.argv[2:]] or sizes


# ---- devices

def module(name, body, imports=()):
    lines = "".join(f"import {it} {{ prefix {it}; }}\n" for it in imports)
    return f'module {name} {{\nyang-version 1.1;\nnamespace "urn:{name}";\nprefix {name};\n{lines}{body}}}\n'


def device(room, texts, initial=None):
    """A folder of a device with these modules, and what stands at the top of its initial configuration."""
    folder = tempfile.mkdtemp(dir=room)
    os.mkdir(f"{folder}/modules")
    for name, text in texts.items():
        with open(f"{folder}/modules/{name}.yang", "w") as file:
            file.write(text)
    if initial is not None:
        with open(f"{folder}/initial.xml", "w") as file:
            file.write(f'<config xmlns="{BASE}">{initial}</config>')
    return folder


# ---- payloads

def number_at(order, at, count):
    """The number of an entry, so many of which come in an order of some kind."""
    if order == "reverse":
        return count - at + 100_000
    if order == "mixed":
        return at * 7_919 % 1_000_003 + 100_000
    return at + 100_000


def entries(element, count, order="rising"):
    """So many elements, in each of which `#` is a number."""
    return "".join(element.replace("#", str(number_at(order, at, count))) for at in range(count))


def top(name, content, attributes=""):
    return f'<{name} xmlns="{SPACE}"{attributes}>{content}</{name}>'


def interfaces(count, operation=""):
    """The interfaces of demo/device."""
    listed = "".join(f"<interface><name>p{at:07}</name><type>ethernet</type></interface>" for at in range(count))
    return f'<interfaces xmlns="urn:example:device"{operation}>{listed}</interfaces>'


# ---- requests

def edit(content, options=""):
    return f"<edit-config><target><candidate/></target>{options}<config>{content}</config></edit-config>"


def copy(content):
    return f"<copy-config><target><candidate/></target><source><config>{content}</config></source></copy-config>"


def get_config(content=None):
    chosen = "" if content is None else f"<filter>{content}</filter>"
    return f"<get-config><source><running/></source>{chosen}</get-config>"


# ---- sessions

def session(framing, requests):
    """The text of a session that asks for these."""
    parts = [f'<hello xmlns="{BASE}"><capabilities><capability>urn:ietf:params:netconf:base:1.{framing}</capability>'
             "</capabilities></hello>]]>]]>"]
    for at, request in enumerate(requests):
        message = f'<rpc xmlns="{BASE}" message-id="{at}">{request}</rpc>'
        parts.append(f"\n#{len(message)}\n{message}\n##\n" if framing else message + "]]>]]>")
    return "".join(parts).encode()


def send(stream, text):
    try:
        stream.write(text)
        stream.flush()
    except BrokenPipeError:
        pass


def read_to(stream, end, number):
    """What comes up to so many ends of messages, or up to the end of the stream."""
    pieces, found, tail = [], 0, b""
    while found < number:
        piece = stream.read1(1 << 20)
        if not piece:
            break
        pieces.append(piece)
        tail += piece
        found += tail.count(end)
        tail = tail[1 - len(end):]
    return b"".join(pieces)


class Ran:
    """A session that is over, on a device without a store: its seconds of processor time, the peak of memory in kB, the bytes
    that it wrote, how many errors they have, the line of a refused run, and whether it was ended, after `limit` seconds of
    processor time. Where memory ends the kernel ends it first. It is a recovery session, to which no rule applies, unless the
    device's access control is asked for."""

    def __init__(self, program, folder, requests=(), framing=0, limit=3600, governed=False):
        if os.path.exists(f"{folder}/running.nc"):
            os.remove(f"{folder}/running.nc")
        words = [program, "stdio", folder, "alice"] if governed else [program, "stdio", "--recovery", folder, "alice"]
        run = subprocess.Popen(words, stdin=subprocess.PIPE, stdout=subprocess.PIPE, stderr=subprocess.PIPE)
        writer = threading.Thread(target=send, args=(run.stdin, session(framing, requests)))
        writer.start()
        resource.prlimit(run.pid, resource.RLIMIT_CPU, (limit, limit))
        with open(f"/proc/{run.pid}/oom_score_adj", "w") as first:
            first.write("1000")
        text = read_to(run.stdout, b"</rpc-reply>", len(requests)) if requests else read_to(run.stdout, b"</hello>", 1)
        writer.join()
        memory = 0
        if text:
            with open(f"/proc/{run.pid}/status") as status:
                memory = next((int(line.split()[1]) for line in status if line.startswith("VmHWM")), 0)
        try:
            run.stdin.close()
        except BrokenPipeError:
            pass
        run.stdout.read()
        self.told = run.stderr.read().decode().strip()
        _, ended, usage = os.wait4(run.pid, 0)
        run.returncode = 0
        self.seconds = usage.ru_utime + usage.ru_stime
        self.memory = memory or usage.ru_maxrss
        self.cut = os.WIFSIGNALED(ended)
        self.size = len(text)
        self.errors = text.count(b"<rpc-error>")


class Timer:
    """The requests of one device: its start is timed once."""

    def __init__(self, program, folder, governed=False):
        self.program, self.folder, self.governed = program, folder, governed
        self.start = Ran(program, folder, governed=governed)
        if self.start.told:
            sys.exit(f"{sys.argv[0]}: {self.start.told}")

    def time(self, requests, framing=0, before=(), limit=3600):
        """The seconds of each of these requests, and how the session ran, with the bytes of its replies; the time of those
        before them is not counted."""
        begun = Ran(self.program, self.folder, before, framing, limit, self.governed).seconds if before else self.start.seconds
        ran = Ran(self.program, self.folder, list(before) + list(requests), framing, limit, self.governed)
        ran.replied = max(0, ran.size - self.start.size)
        return max(0.0, ran.seconds - begun) / len(requests), ran


# ---- tables

def head(*columns):
    print("| " + " | ".join(columns) + " |")
    print("|" + "---|" * len(columns), flush=True)


def row(*cells):
    print("| " + " | ".join(str(it) for it in cells) + " |", flush=True)


def ms(seconds):
    return f"{seconds * 1e3:,.2f} ms"


def kb(number):
    return f"{number:,} kB"
