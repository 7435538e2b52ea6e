"""Rows of checks/failures: a store that is cut or changed at each octet, one that was made by hand, and files that are no
store or cannot be had. What each opens to is read from the layout of the file (`reading`)."""
import html
import os
import re
import shutil
import socket
import subprocess

from stored import (AREAS, DISK, DONE, Device, begun, front_of, header_of, looked_at, number, reading, recorded, rows_of,
                    run_of)
from stopped import BASE, commit, made, short

# characters that a string of YANG has not (RFC 7950 14)
NOT_IN_TEXT = re.compile("[\x00-\x08\x0b\x0c\x0e-\x1f\ud800-\udfff\ufdd0-\ufdef\ufffe\uffff]")


class Store:
    """A store of two records, and what its parts are."""

    def __init__(self, table):
        self.device = Device(table.room)
        self.image = made(table.program, self.device, None, commit(7, "first") + commit(42, "zwei &amp; \u00fc"))
        kind, found = reading(self.image, [self.device.module])
        if kind != "bodies" or len(found[0]) != 2:
            raise ValueError(f"the store is {kind}")
        self.bodies = found[0]
        rows = rows_of(self.bodies[1])
        if [value for _, value in rows] != [b"42", "zwei & \u00fc".encode()]:
            raise ValueError(f"its last record has {rows}")
        self.nodes = [node for node, _ in rows]
        self.header = header_of([self.device.module])

    def spelled(self, body):
        """The number and text that a body spells; None where it spells no valid configuration; "any" where it has rows of
        other nodes, or in another order."""
        rows = rows_of(body)
        if rows is None:
            return None
        nodes = [node for node, _ in rows]
        if any(it not in self.nodes for it in nodes) or nodes != sorted(set(nodes)):
            return "any"
        values = {self.nodes.index(node): value for node, value in rows}
        if 0 in values and not (re.fullmatch(rb"0|[1-9][0-9]{0,9}", values[0]) and int(values[0]) < 2**32):
            return None
        try:
            text = values[1].decode() if 1 in values else None
        except UnicodeDecodeError:
            return None
        if text is not None and (NOT_IN_TEXT.search(text) or any(ord(it) & 0xFFFE == 0xFFFE for it in text)):
            return None
        return (int(values[0]) if 0 in values else None, text)

    def wanted(self, image):
        """The status of a start with an image, the line that is noted, and what it begins with."""
        kind, found = reading(image, [self.device.module])
        if kind == "new":
            return 0, "", BASE
        if kind == "damaged":
            return 5, f"netconfd: store: damaged at {found}", None
        if kind == "other":
            return 5, f"netconfd: store: other modules at {found}", None
        bodies, last = found
        if not bodies:
            return 0, "", BASE
        spelled = self.spelled(bodies[-1])
        return (0, "", spelled) if spelled else (5, f"netconfd: store: damaged at {last}", None)

    def look(self, table, say, what, image):
        """A start with an image is as its layout says; the file is left as it was where it is refused."""
        wanted = self.wanted(image)
        self.device.put(image)
        status, noted, _ = looked_at(table.program, self.device)
        either = wanted[2] == "any"
        damaged = re.fullmatch(r"netconfd: store: damaged at \d+", noted)
        if (status, noted) != wanted[:2] and not (either and status == 5 and damaged):
            say(what, f"check ends with {status} {noted!r}, and the layout says {wanted}")
            return
        if status == 5:
            say(what, "" if self.device.image() == image else "a store that is refused is changed")
            return
        self.device.put(image)
        *ended, found = begun(table.program, self.device)
        if isinstance(found, tuple):
            found = found[0], found[1] and html.unescape(found[1])
        fault = "" if tuple(ended) == DONE and (found == wanted[2] or either) else f"a session {ended} has {short(found)}"
        say(what, fault and f"{fault}, and the layout says {wanted}")


def cuts(table, say):
    store = Store(table)
    for size in table.part(range(len(store.image) + 1), 20):
        store.look(table, say, f"cut to {size} octets", store.image[:size])
    return f"{len(store.image) + 1} sizes of {len(store.image)} octets"


def changes(table, say):
    store = Store(table)
    values = [(at, octet) for at in range(len(store.image))
              for octet in ((store.image[at] + 1) % 256, store.image[at] ^ 0xFF)]
    for at, octet in table.part(values, 40):
        image = store.image[:at] + bytes([octet]) + store.image[at + 1 :]
        store.look(table, say, f"octet {at} is {octet:02x} and not {store.image[at]:02x}", image)
    return f"{len(values)} values of {len(store.image)} octets"


MOST, HUGE = 2**32 - 1, 2**63


def fronts(store, area):
    """Stores of one area with other choosers and slots."""
    yield "its first area", front_of(0, AREAS, 0) + area
    size = AREAS + len(area)
    for chooser in (0, 1, 2, 255):
        yield f"the chooser {chooser}, both slots name one area", front_of(chooser, AREAS, AREAS) + area
        for place in (0, 1, AREAS - 1, size - 1, size, size + 1, MOST, HUGE - 1, HUGE, 2**64 - 1):
            yield f"the chooser {chooser}, slots at {place}", front_of(chooser, place, place) + area
    second = area + store.header + recorded(store.bodies[1]) + b"\x00"
    yield "two areas, the second chosen", front_of(1, AREAS, size) + second
    yield "two areas, a torn chooser", front_of(9, AREAS, size) + second
    yield "an area that begins in a slot", front_of(1, AREAS, 10) + area
    yield "a torn first octet", b"\x07" + front_of(0, AREAS, 0)[1:] + store.header + b"\x00"
    yield "a torn first octet before a record", b"\x07" + front_of(0, AREAS, 0)[1:] + area


def numbers(store, area):
    """Stores of one area with other numbers of modules, and lengths of texts and records."""
    front, counted = front_of(0, AREAS, 0), number(1, 4)
    for count in (0, 2, MOST):
        yield f"{count} modules announced", front + number(count, 4) + area[4:]
    size = len(store.device.module)
    for count in (0, size - 1, size + 1, 2**31, MOST):
        yield f"a module of {count} octets announced", front + counted + number(count, 4) + area[8:]
    for count in (1, MOST, HUGE, 2**64 - 1):
        yield f"features of {count} octets announced", front + store.header[:-8] + number(count) + area[len(store.header) :]
    rest = store.bodies[0] + b"\x00"
    for count in (len(store.bodies[0]) + 1, 33554432, 33554433, MOST, HUGE - 1, HUGE, 2**64 - 1):
        yield f"a record of {count} octets announced", front + store.header + b"\x01" + number(count) + rest


def records(store, many):
    """Stores of one area with other records and gates."""
    body = store.bodies[0]
    before = front_of(0, AREAS, 0) + store.header + recorded(body)
    for what, other in [("empty", b""), ("of another kind", b"\x02" + body[1:]), ("without rows", b"\x01" + number(0, 4)),
                        ("of 2^32 - 1 rows", b"\x01" + number(MOST, 4) + body[5:]),
                        ("with a row too few", body[:4] + b"\x01" + body[5:]), ("with an octet too many", body + b"\x00"),
                        ("with a value of 2^32 - 1 octets", body[:9] + number(MOST, 4) + body[13:]),
                        ("of an unknown node", body[:5] + number(MOST, 4) + body[9:]),
                        ("of the root", body[:5] + number(0, 4) + body[9:])]:
        yield f"a body {what}", before + recorded(other) + b"\x00"
    for gate in (2, 255):
        yield f"the gate {gate} before a record", before + bytes([gate]) + recorded(store.bodies[1])[1:] + b"\x00"
        yield f"the gate {gate} before nothing", before + bytes([gate])
        yield f"the gate {gate} under a torn chooser", front_of(7, AREAS, 0) + before[AREAS:] + bytes([gate])
    yield f"{many:,} records", before + recorded(body) * (many - 1) + b"\x00"
    yield "other octets", os.urandom(100)
    yield "a text", b"<config/>\n"


def by_hand(table, say):
    """Stores that no program wrote."""
    store = Store(table)
    area = store.header + recorded(store.bodies[0]) + b"\x00"
    images = [*fronts(store, area), *numbers(store, area), *records(store, 1_000 if table.quick else 100_000)]
    for what, image in table.part(images, 30):
        store.look(table, say, what, image)
    return f"{len(images)} stores"


def no_stores(table, say):
    """Files in the place of a store that are none, or large."""
    device = Device(table.room)

    def sparse(path, size, front=b""):
        with open(path, "wb") as file:
            file.write(front)
            file.truncate(size)

    def bound(path):
        with socket.socket(socket.AF_UNIX) as it:
            it.bind(path)

    front = front_of(0, AREAS, 0) + header_of([device.module])
    long = front + b"\x01" + number(MOST)
    begins = {"4 GB of zeros": lambda it: sparse(it, 1 << 32), "an empty file": lambda it: sparse(it, 0),
              "a link to a file that is not there": lambda it: os.symlink(f"elsewhere-{os.urandom(4).hex()}.nc", it),
              "4 GB after a gate": lambda it: sparse(it, 1 << 32, front + b"\x00")}
    faulty = {"a folder": os.mkdir, "a pipe": os.mkfifo, "a link to itself": lambda it: os.symlink("running.nc", it),
              "a link to /dev/zero": lambda it: os.symlink("/dev/zero", it), "a socket": bound,
              "a link to a terminal": lambda it: os.symlink("/dev/tty", it),
              "a link to /dev/full": lambda it: os.symlink("/dev/full", it),
              "a link below a folder that is not there": lambda it: os.symlink("nowhere/running.nc", it)}
    refused = {"4 GB of zeros after the mark": (lambda it: sparse(it, 1 << 32, b"\x01NCSTORE2"), 10),
               "a record of 2^32 - 1 octets in 8 GB": (lambda it: sparse(it, 1 << 33, long), len(front))}
    cases = [(what, make, DONE) for what, make in begins.items()] + [(what, make, DISK) for what, make in faulty.items()]
    cases += [(what, make, (5, f"netconfd: store: damaged at {at}")) for what, (make, at) in refused.items()]
    for what, make, wanted in cases:
        for words in (["check", device.folder], ["stdio", device.folder, "alice"]):
            device.put(None)
            make(device.store)
            got = run_of([table.program, *words])[:2]
            say(f"{what}, {words[0]}", "" if got == wanted else f"it ended with {got} and not {wanted}")
    return f"{len(cases)} files"


def other_users(table, say):
    """A store that the user of the program may not read, not write or not make."""
    device = Device(table.room)
    image = made(table.program, device, None, commit(10))
    as_other = {"user": 65534, "group": 65534, "extra_groups": []} if os.getuid() == 0 else {}
    program = shutil.copy(table.program, os.path.join(table.room, "program"))
    os.chmod(program, 0o755)
    words = [program, "check", device.folder]
    try:
        if run_of([program], **as_other)[0] != 2:
            return "left out: nothing runs as another user here"
    except (OSError, subprocess.SubprocessError) as error:
        return f"left out: {error}"
    for what, mode, folder, wanted in [("may be had", 0o666, 0o777, DONE), ("not be written", 0o444, 0o777, DISK),
                                       ("not be read", 0o222, 0o777, DISK), ("not be had", 0, 0o777, DISK),
                                       ("be had, in a folder that may not be written", 0o666, 0o555, DONE)]:
        device.put(image)
        os.chmod(device.store, mode)
        os.chmod(device.folder, folder)
        got = run_of(words, **as_other)[:2]
        say(f"a store that may {what}", "" if got == wanted else f"it ended with {got} and not {wanted}")
        left = device.image()
        say(f"a store that may {what} is left as it was", "" if left == image else "it is not")
    os.chmod(device.folder, 0o755)
    os.remove(device.store)
    got = run_of(words, **as_other)[:2]
    say("a store that may not be made", "" if got == DISK else f"it ended with {got}")
    return "6 stores"


ROWS = [
    ("a store of two records, cut at each octet", cuts),
    ("a store of two records, each octet changed twice", changes),
    ("a store made by hand", by_hand),
    ("a file that is no store", no_stores),
    ("a store that permissions hide", other_users),
]
