#!/usr/bin/env python3
"""Times a server that keeps its configuration: a commit over 100, 1,000 and 10,000 interfaces, each of which appends a record or
begins an area, beside two bare syncs of a file that take the same octets; a start over what was kept; and both of a
configuration near the limit of a record, of few long values and of many short ones. Times of commits and syncs are those of
the clock, since a session waits for the disk, and so is how many come in a second; that of a start is processor time of
`netconfd check`.
Usage: bench/store.py [PROGRAM [SIZE..]]
"""
import os
import subprocess
import sys
import tempfile
import time

from connections import Server, Session, demo_device
from payloads import TOP, Ran, device, edit, head, kb, module, ms, row, words

sys.path.insert(0, os.path.join(TOP, "checks/with"))
from stored import AREAS, BODY_LIMIT, front_of, header_of, number, recorded

DEVICE = "urn:example:device"
TEXTS = 'list entry { key name; leaf name { type uint32; } leaf text { type string; } }'
COMMITS = 100
TEXT = 1_000_000
# the data node of the list in TEXTS: those of the access control module come before
ENTRY, SHORT = 22, b"text"


def set_leaf(session, number):
    session.ask(edit(f'<system xmlns="{DEVICE}"><hostname>h{number:06}</hostname></system>'))


def commit(session):
    if b"<ok/>" not in session.ask("<commit/>"):
        raise SystemExit("a commit was refused")


def a_second(seconds):
    return f"{1 / seconds:,.0f}"


def bare_syncs(folder, octets, times):
    """The seconds of writing so many octets and then one, each followed by a sync, as a commit does it."""
    piece, path = b"x" * octets, f"{folder}/bare"
    file = os.open(path, os.O_RDWR | os.O_CREAT)
    begun = time.perf_counter()
    for at in range(times):
        os.pwrite(file, piece, at % 2 * octets)
        os.fsync(file)
        os.pwrite(file, b"y", at % 2 * octets)
        os.fsync(file)
    taken = (time.perf_counter() - begun) / times
    os.close(file)
    os.remove(path)
    return taken


def time_start(program, folder):
    """The processor time and the peak of memory in kB of a look at a folder and its store."""
    run = subprocess.Popen([program, "check", folder], stdout=subprocess.PIPE)
    told = run.stdout.read()
    _, status, usage = os.wait4(run.pid, 0)
    run.returncode = status
    if status:
        raise SystemExit(f"check: {told.decode()}")
    return usage.ru_utime + usage.ru_stime, usage.ru_maxrss


def grown(store, session):
    """The octets by which the store grows with a commit; the first may be an area of its own."""
    sizes = []
    for number in range(3):
        set_leaf(session, number)
        commit(session)
        sizes.append(os.path.getsize(store))
    return max(1, sizes[2] - sizes[1], sizes[1] - sizes[0])


def time_commits(program, room, count):
    folder = demo_device(room, count)
    store, what = f"{folder}/running.nc", f"{count:,} interfaces"
    with Server(program, folder) as server:
        session = Session(server)
        octets = grown(store, session)
        taken = 0.0
        before = server.seconds()
        for number in range(COMMITS):
            set_leaf(session, number + 10)
            begun = time.perf_counter()
            commit(session)
            taken += time.perf_counter() - begun
        spent = (server.seconds() - before) / COMMITS
        row(what, f"{COMMITS} commits", ms(taken / COMMITS), a_second(taken / COMMITS), ms(spent), kb(server.memory()),
            f"{os.path.getsize(store):,} octets")
    bare = bare_syncs(folder, octets, COMMITS)
    row("", "two bare syncs", ms(bare), a_second(bare), "", "", f"{octets:,} octets each")
    seconds, memory = time_start(program, folder)
    row("", "a start over it", "", "", ms(seconds), kb(memory), "")


def time_largest(program, room, texts):
    """A configuration of so many texts of a megabyte in one commit, by a recovery session."""
    folder = device(room, {"ex": module("ex", TEXTS)})
    store, text = f"{folder}/running.nc", "x" * TEXT
    edits = [edit(f'<entry xmlns="urn:ex"><name>{number}</name><text>{text}</text></entry>') for number in range(texts)]
    begun = Ran(program, folder, edits)
    ran = Ran(program, folder, edits + ["<commit/>"])
    if begun.errors or ran.errors:
        raise SystemExit("an edit or the commit was refused")
    row(f"{texts} texts of a megabyte", "one commit", "", "", ms(ran.seconds - begun.seconds), kb(ran.memory),
        f"{os.path.getsize(store):,} octets")
    bare = bare_syncs(folder, os.path.getsize(store), 5)
    row("", "two bare syncs", ms(bare), a_second(bare), "", "", "")
    seconds, memory = time_start(program, folder)
    row("", "a start over it", "", "", ms(seconds), kb(memory), "")


def entries_within(limit):
    """The body of a record of as many entries with a short text as a limit has room for, and how many they are. It is written
    as the program writes it: each row with the number of its data node, entries in the order of their keys' octets."""
    rows, size, names = [], 5, []
    while True:
        name = str(len(names)).encode()
        size += 3 * 8 + len(name) + len(SHORT)
        if size > limit:
            break
        names.append(name)
    for name in sorted(names):
        for node, value in ((ENTRY, b""), (ENTRY + 1, name), (ENTRY + 2, SHORT)):
            rows += [number(node, 4), number(len(value), 4), value]
    return b"\x01" + number(3 * len(names), 4) + b"".join(rows), len(names)


def time_short(program, room, limit):
    """A start over a record of so many octets whose values are short; the store is made by hand."""
    text = module("ex", TEXTS)
    folder = device(room, {"ex": text})
    body, count = entries_within(limit)
    with open(f"{folder}/running.nc", "wb") as file:
        file.write(front_of(0, AREAS, 0) + header_of([text.encode()]) + recorded(body) + b"\x00")
    seconds, memory = time_start(program, folder)
    row(f"{count:,} entries of three rows", "a start over it", "", "", ms(seconds), kb(memory), f"{len(body):,} octets")


def main():
    program, sizes = words([100, 1000, 10000])
    head("Configuration", "What", "Clock", "A second", "Processor", "Memory", "Store")
    with tempfile.TemporaryDirectory(dir=".") as room:
        for count in sizes:
            time_commits(program, room, count)
        time_largest(program, room, 33)
        for limit in (1 << 20, 1 << 22, BODY_LIMIT):
            time_short(program, room, limit)


main()
