"""What checks/failures stands on: a device with a store, sessions with the built program, and what the layout of a
store's file says that it opens to."""
import os
import re
import select
import subprocess
import tempfile

# so long an answer is waited for, and a program's end
PATIENCE = 600

MARK = b"]]>]]>"
BASE = "urn:ietf:params:xml:ns:netconf:base:1.0"
HELLO = f'<hello xmlns="{BASE}"><capabilities><capability>urn:ietf:params:netconf:base:1.0</capability></capabilities></hello>'
MODULE = 'module n { namespace "urn:n"; prefix n; leaf number { type uint32; } leaf text { type string; } }'
INITIAL = f'<config xmlns="{BASE}"><number xmlns="urn:n">1</number></config>'
RUNNING = "<get-config><source><running/></source></get-config>"
COMMIT = "<commit/>"
CONFIRMED = "<commit><confirmed/></commit>"
CANCEL = "<cancel-commit/>"

# the statuses that README names, and what is noted with those that are met here
STATUSES = {0, 2, 3, 4, 5, 6, 7, 8, 9, 10, 11, 12, 13, 14}
DISK = (8, "netconfd: disk failed")
INPUT = (6, "netconfd: input failed")
OUTPUT = (7, "netconfd: output failed")
MEMORY = (9, "netconfd: memory")
DONE = (0, "")
HUNG = "no end"


def write(path, data):
    with open(path, "wb") as file:
        file.write(data)


def read(path):
    """The octets of a file, None where it is not there."""
    try:
        with open(path, "rb") as file:
            return file.read()
    except FileNotFoundError:
        return None


def request(operation):
    return f'<rpc xmlns="{BASE}" message-id="1">{operation}</rpc>'


class Device:
    """A folder of a device, whose store is a file that is put there."""

    def __init__(self, room, module=MODULE, initial=INITIAL):
        self.folder = tempfile.mkdtemp(dir=room)
        os.chmod(self.folder, 0o755)
        self.store = os.path.join(self.folder, "running.nc")
        self.module = module.encode()
        os.mkdir(os.path.join(self.folder, "modules"))
        write(os.path.join(self.folder, "modules/n.yang"), self.module)
        write(os.path.join(self.folder, "initial.xml"), initial.encode())

    def put(self, image):
        """Makes an image the store, or takes away what stands in its place."""
        if os.path.isdir(self.store) and not os.path.islink(self.store):
            os.rmdir(self.store)
        elif os.path.lexists(self.store):
            os.remove(self.store)
        if image is not None:
            write(self.store, image)

    def image(self):
        return read(self.store)


def set_to(number=None, text=None):
    """An edit of one leaf or both."""
    leaves = "" if number is None else f'<number xmlns="urn:n">{number}</number>'
    leaves += "" if text is None else f'<text xmlns="urn:n">{text}</text>'
    return f"<edit-config><target><candidate/></target><config>{leaves}</config></edit-config>"


def values(reply):
    """The number and the text that a reply shows, or the reply where it shows something else."""
    found = re.fullmatch(
        r'<rpc-reply [^>]*>(?:<data/>|<data>(?:<number xmlns="urn:n">(\d+)</number>)?'
        r'(?:<text xmlns="urn:n">([^<]*)</text>)?</data>)</rpc-reply>',
        reply or "",
        re.DOTALL,
    )
    return (found[1] and int(found[1]), found[2]) if found else reply


def end_of(run):
    """The status of a process once it has ended, and what it noted."""
    try:
        status = run.wait(PATIENCE)
    except subprocess.TimeoutExpired:
        run.kill()
        run.wait()
        status = HUNG
    run.notes.seek(0)
    return status, run.notes.read().decode(errors="replace").strip()


def start(words, **how):
    notes = tempfile.TemporaryFile()
    run = subprocess.Popen(words, stderr=notes, **how)
    run.notes = notes
    return run


def run_of(words, **how):
    """The status of a run without input, what it noted, and what it wrote."""
    run = start(words, stdin=subprocess.DEVNULL, stdout=subprocess.PIPE, **how)
    with run.stdout:
        told = run.stdout.read() if select.select([run.stdout], [], [], PATIENCE)[0] else b""
    return (*end_of(run), told.decode(errors="replace"))


class Session:
    """A recovery session of the program on a device, in the framing of base:1.0. Its words may begin with others."""

    def __init__(self, program, device, before=(), **how):
        words = [*before, program, "stdio", "--recovery", device.folder, "alice"]
        self.run = start(words, stdin=subprocess.PIPE, stdout=subprocess.PIPE, bufsize=0, **how)
        self.left = b""
        self.send(HELLO)
        self.hello = self.reply()

    def send(self, text):
        """Sends a message; False where nobody reads any more."""
        try:
            left = text.encode() + MARK
            while left:
                left = left[self.run.stdin.write(left) :]
            return True
        except BrokenPipeError:
            return False

    def reply(self):
        """The next message of the server, or None where it has ended or says nothing."""
        at = 0
        while (at := self.left.find(MARK, max(0, at - len(MARK)))) < 0:
            at = len(self.left)
            if not select.select([self.run.stdout], [], [], PATIENCE)[0]:
                return None
            piece = os.read(self.run.stdout.fileno(), 1 << 20)
            if not piece:
                return None
            self.left += piece
        reply, self.left = self.left[:at], self.left[at + len(MARK) :]
        return reply.decode()

    def ask(self, operation):
        """The reply to an operation, or None where the server has ended."""
        return self.reply() if self.send(request(operation)) else None

    def running(self):
        return values(self.ask(RUNNING))

    def commit(self, number, text=None):
        """Commits a number; the reply to the commit."""
        told = self.ask(set_to(number, text))
        return self.ask(COMMIT) if is_ok(told) else told

    def end(self):
        """Ends the input: the status, and what was noted."""
        self.run.stdin.close()
        while select.select([self.run.stdout], [], [], PATIENCE)[0] and os.read(self.run.stdout.fileno(), 1 << 20):
            pass
        self.run.stdout.close()
        return end_of(self.run)


def is_ok(reply):
    return reply is not None and "<ok/>" in reply


def is_fault(reply):
    """Whether a reply says that the disk failed."""
    return reply is not None and "<error-tag>operation-failed</error-tag>" in reply and "<kind>disk-fault</kind>" in reply


def looked_at(program, device, **how):
    """What `check` says: its status, what it noted, and the rows and records that it counts."""
    status, noted, told = run_of([program, "check", device.folder], **how)
    found = re.fullmatch(r"modules 1 nodes \d+ rows (\d+) records (\d+)\n", told)
    return status, noted, found and (int(found[1]), int(found[2]))


def begun(program, device):
    """What a session begins with: its status, what it noted, and the number and text of running."""
    session = Session(program, device)
    found = session.running() if session.hello else None
    return (*session.end(), found)


# ---- the layout of the file

MAGIC = b"\x01NCSTORE2"
AREAS = 26
BODY_LIMIT = 33554432


def number(n, size=8):
    return n.to_bytes(size, "big")


def header_of(modules, features=b""):
    texts = b"".join(number(len(it), 4) + it for it in modules)
    return number(len(modules), 4) + texts + number(len(features)) + features


def front_of(chooser, first, second):
    """The front of a file up to its areas."""
    return MAGIC + bytes([chooser]) + number(first) + number(second)


def recorded(body):
    return b"\x01" + number(len(body)) + body


def rows_of(body):
    """The rows of a body, each with the number of its node and its value; None where it spells none."""
    if body[:1] != b"\x01" or len(body) < 5:
        return None
    rows, at = [], 5
    for _ in range(min(int.from_bytes(body[1:5], "big"), len(body))):
        if len(body) - at < 8:
            return None
        node, size = int.from_bytes(body[at : at + 4], "big"), int.from_bytes(body[at + 4 : at + 8], "big")
        if size > len(body) - at - 8:
            return None
        rows.append((node, body[at + 8 : at + 8 + size]))
        at += 8 + size
    return rows if at == len(body) and len(rows) == int.from_bytes(body[1:5], "big") else None


def header_at(file, place):
    """The texts of the modules and of the features of a header that stands at a place, None where the file ends in it."""

    def taken(size):
        nonlocal place
        if size > len(file) - place:
            raise EOFError
        place += size
        return file[place - size : place]

    try:
        texts = [taken(int.from_bytes(taken(4), "big")) for _ in range(int.from_bytes(taken(4), "big"))]
        return texts, taken(int.from_bytes(taken(8), "big"))
    except EOFError:
        return None


def reading(file, modules, features=b""):
    """What a file opens to: ("new", None); ("damaged", place); ("other", number); or ("bodies", those of the live area and
    the place of its last record)."""
    header = header_of(modules, features)
    blank = MAGIC[1:] + b"\x00" + number(AREAS) + number(0) + header + b"\x00"
    if len(file) <= 1 or file[0] == 0 or (file[0] != 1 and file[1:] == blank):
        return "new", None
    for at, octet in enumerate(MAGIC):
        if file[at : at + 1] != bytes([octet]):
            return "damaged", at
    if len(file) < AREAS:
        return "damaged", len(file)
    slot = 18 if file[9] == 1 else 10
    place = int.from_bytes(file[slot : slot + 8], "big")
    if not AREAS <= place <= len(file):
        return "damaged", slot
    if file[place : place + len(header)] != header:
        theirs = header_at(file, place)
        if theirs is None:
            return "damaged", len(file)
        differ = (at for at, it in enumerate(modules) if theirs[0][at : at + 1] != [it])
        return "other", next(differ, len(modules))
    at, last, bodies = place + len(header), None, []
    while file[at : at + 1] == b"\x01":
        size = int.from_bytes(file[at + 1 : at + 9], "big")
        if len(file) - at < 9 or size > BODY_LIMIT or size > len(file) - at - 9:
            return "damaged", at
        bodies.append(file[at + 9 : at + 9 + size])
        at, last = at + 9 + size, at
    return ("damaged", at) if at >= len(file) else ("bodies", (bodies, last))
