#!/usr/bin/env python3
"""Times a server on a socket: sessions from connecting to closing, the requests of 1, 8 and 64 sessions at once, a commit
that each of them makes in turn, the memory of 64 sessions that have read 10,000 interfaces each, and how long the line of a
killed session stays. These are times of the clock, since others wait for them.
A number after the program divides all sizes, for a trial.
Usage: bench/serve.py [PROGRAM [DIVISOR]]
"""
import tempfile
import threading
import time

from connections import Server, Session, demo_device, many_files
from payloads import edit, get_config, head, kb, ms, row, words

ONE = '<system xmlns="urn:example:device"><hostname/></system>'


def beside_one_another(sessions, work):
    """The seconds until each session has done its work, each in a thread."""
    threads = [threading.Thread(target=work, args=(it,)) for it in sessions]
    begun = time.time()
    for it in threads:
        it.start()
    for it in threads:
        it.join()
    return time.time() - begun


def time_sessions(server, count):
    begun = time.time()
    for _ in range(count):
        Session(server).close()
    row("sessions, one after another", f"{count:,}", f"{count / (time.time() - begun):,.0f} a second", kb(server.memory("VmRSS")))


def time_requests(server, many, count):
    sessions = [Session(server) for _ in range(many)]
    before = server.seconds()
    taken = beside_one_another(sessions, lambda it: [it.ask(get_config(ONE)) for _ in range(count // many)])
    row(f"requests of {many} at once", f"{count:,}", f"{count / taken:,.0f} a second, {ms((server.seconds() - before) / count)} of processor each",
        kb(server.memory("VmRSS")))
    for it in sessions:
        it.close()


def time_commits(server, many, count):
    sessions = [Session(server) for _ in range(many)]
    begun = time.time()
    for at in range(count):
        session = sessions[at % many]
        session.ask(edit(f'<system xmlns="urn:example:device"><hostname>h{at}</hostname></system>'))
        if b"<ok/>" not in session.ask("<commit/>"):
            raise SystemExit("a commit was refused")
    row(f"edits with a commit, {many} in turn", f"{count:,}", f"{ms((time.time() - begun) / count)} each", kb(server.memory("VmRSS")))
    for it in sessions:
        it.close()


def time_readers(server, many):
    sessions = [Session(server) for _ in range(many)]
    taken = beside_one_another(sessions, lambda it: it.ask(get_config()))
    row(f"{many} sessions that read all", f"{many:,}", f"{taken:.2f} s until all have it",
        f"{server.memory():,} kB at most, {kb(server.memory('VmRSS'))} after")
    for it in sessions:
        it.close()


def time_kill(server):
    killer, killed = Session(server), Session(server)
    begun = time.time()
    killer.ask(f"<kill-session><session-id>{killed.number}</session-id></kill-session>")
    while killed.socket.recv(1 << 16):
        pass
    row("a killed session's line is free", "1", f"after {ms(time.time() - begun)}", "")
    killer.close()


def main():
    program, chosen = words([1])
    by = chosen[0]
    many_files()
    head("What", "How many", "Time", "Memory")
    with tempfile.TemporaryDirectory() as room:
        with Server(program, demo_device(room, 100)) as server:
            time_sessions(server, 2_000 // by)
            for many in [1, 8, 64]:
                time_requests(server, many, 6_400 // by // many * many)
            time_commits(server, 8, 400 // by)
            time_kill(server)
        with Server(program, demo_device(room, 10_000 // by)) as server:
            time_readers(server, 64)


main()
