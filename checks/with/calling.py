"""Rows of checks/failures: a call of the system fails once, in a session that strace makes fail. Calls on the store and its
folder, each by its number; reads of the session's input; writes of its output and of what it notes."""
import os
import re

from stored import (COMMIT, CONFIRMED, DISK, DONE, INPUT, OUTPUT, RUNNING, Device, Session, begun, end_of, is_fault, is_ok,
                    request, run_of, set_to, values, write)
from stopped import BASE, Step, commit, full_areas, one_record, short
from traced import CHANGING, calls_of, events_of, has_failed, path_of, tracing

# calls without which a store is not opened, and what may fail of them
NEEDED = {"openat", "open", "flock", "fstat", "newfstatat", "statx", "pread64", *CHANGING}
ERRORS = {"pwrite64": ["EIO", "ENOSPC", "EDQUOT"], "ftruncate": ["EIO", "ENOSPC"], "flock": ["EAGAIN", "ENOLCK"],
          "openat": ["EIO", "EACCES", "EMFILE", "ENOSPC"]}
# calls that are tried again where a signal interrupts them
AGAIN = {"pwrite64", "pread64", "ftruncate", "fsync", "fdatasync", "openat"}


def steps_of():
    """Three commits, the second of which is confirmed by another one."""
    confirmed = [Step(set_to(22)), Step(CONFIRMED, shows=(22, None)), Step(COMMIT, keeps=(22, None))]
    return commit(21) + confirmed + commit(23)


class Calls:
    """The calls of a session on its store and the folder of it, each with its number among those of its name, and how many
    replies came before it; of a write or a sync of a commit, whether it comes before the octet that decides."""

    def __init__(self, table, device, image, steps):
        paths = [device.folder, device.store]
        run_through(table, device, image, steps, tracing(table.log, ["%file", "%desc"], paths))
        self.all, numbers = [], {}
        for call, *_ in calls_of(table.log):
            numbers[call] = numbers.get(call, 0) + 1
            self.all.append((call, numbers[call]))
        run_through(table, device, image, steps, tracing(table.log, [*CHANGING, "write"], octets=1 << 20))
        self.replies, self.early = {}, set()
        self.read_events(events_of(table.log, device.store), calls_in(table.log, [device.folder, device.store]))

    def read_events(self, events, names):
        told, numbers, group = b"", {}, []
        names = iter(names)
        for kind, octets, _ in events + [("told", b"", None)]:
            if kind == "told":
                told += octets
                # (the last write of a commit decides)
                writes = [at for at, (kind_then, _) in enumerate(group) if kind_then == "write"]
                self.early |= {it for at, (_, it) in enumerate(group) if writes and at < writes[-1]}
                group = []
                continue
            call = next(names)
            numbers[call] = numbers.get(call, 0) + 1
            self.replies[call, numbers[call]] = told.count(b"]]>]]>")
            group.append((kind, (call, numbers[call])))


def calls_in(log, paths):
    return [call for call, arguments, *_ in calls_of(log) if call != "write" and path_of(arguments) in paths]


def run_through(table, device, image, steps, before):
    device.put(image)
    session = Session(table.program, device, before)
    told = [session.ask(step.request) for step in steps]
    if not all(map(is_ok, told)) or session.end() != DONE:
        raise ValueError(f"a session is not as wanted: {told}")


class Played:
    """A session that meets a failure: what was acknowledged, and which commits the disk failed."""

    def __init__(self, program, device, before, steps, base):
        self.kept, self.failed, self.fault = base, [], ""
        self.done = 0
        shown = base
        session = Session(program, device, before)
        self.hello = session.hello
        for step in steps if self.hello else []:
            told = session.ask(step.request)
            if is_ok(told):
                shown = step.shows or shown
                self.kept = step.keeps or self.kept
            elif step.keeps and is_fault(told):
                self.failed.append(step.keeps)
            else:
                self.fault = self.fault or f"request {self.done} is answered {told}"
            found = session.running()
            if not self.fault and found != shown:
                self.fault = f"after request {self.done} running is {short(found)} and not {short(shown)}"
            self.done += 1
        self.ended = session.end()


def outcome(played, call, error, replies):
    """What is not as wanted of a session of which a call failed, after so many replies."""
    again = error == "EINTR" and call in AGAIN
    if played.hello is None:
        if again or call not in NEEDED or replies:
            return f"it did not start: {played.ended}"
        return "" if played.ended == DISK else f"it ended with {played.ended}"
    if played.fault or played.ended != DONE:
        return played.fault or f"it ended with {played.ended}"
    if not replies and call in NEEDED and not again and error != "EINTR":
        return "it started all the same"
    if again and played.failed:
        return "a commit was refused that only a signal interrupted"
    syncs = call in ("fsync", "fdatasync")
    if replies and call in CHANGING and not again and (len(played.failed) != 1 if not syncs else not played.failed):
        return f"{len(played.failed)} commits met a fault"
    return ""


def after(table, device, played, early):
    """What is not as wanted of the next starts: what was acknowledged stands, or the commit at which the call failed."""
    allowed = {played.kept} | (set() if early else set(played.failed[:1]))
    *ended, found = begun(table.program, device)
    if tuple(ended) != DONE or found not in allowed:
        return f"the next start is {ended} {short(found)} and not {[short(it) for it in allowed]}"
    session = Session(table.program, device)
    told, ended = session.commit(99), session.end()
    if not is_ok(told) or ended != DONE:
        return f"a later commit is answered {told}, {ended}"
    *ended, found = begun(table.program, device)
    is_there = tuple(ended) == DONE and found == (99, played.kept[1])
    return "" if is_there else f"after a later commit it is {ended} {short(found)}"


def look_at(table, say, device, image, base, steps):
    calls = Calls(table, device, image, steps)
    tried = 0
    chosen = [(call, number, error) for call, number in calls.all if call not in ("close", "fcntl")
              for error in [*ERRORS.get(call, ["EIO"]), "EINTR"]]
    for call, number, error in table.part(chosen, 10):
        device.put(image)
        words = tracing(table.log, [call], [device.folder, device.store], failing=[(call, error, number)])
        played = Played(table.program, device, words, steps, base)
        at = (call, number)
        fault = outcome(played, call, error, calls.replies.get(at, 0))
        if not has_failed(table.log):
            fault = "no call failed"
        tried += 1
        say(f"{call} {number} with {error}", fault or after(table, device, played, at in calls.early))
    return tried, len(calls.all)


def said(tried, calls):
    return f"{tried} failures of {calls} calls"


def a_new_device(table, say):
    return said(*look_at(table, say, Device(table.room), None, BASE, steps_of()))


def three_commits(table, say):
    device = Device(table.room)
    return said(*look_at(table, say, device, one_record(table, device), (10, None), steps_of()))


def a_new_area(table, say):
    device = Device(table.room)
    return said(*look_at(table, say, device, full_areas(table, device)[0], (10, None), steps_of()))


# ---- reads and writes of a session

def ordinals(log, call, descriptor):
    """Which calls of a name are on a descriptor, counted from 1."""
    with open(log, encoding="latin-1") as file:
        lines = [line for line in file if re.match(rf"(\d+ +)?{call}\(", line)]
    return [at + 1 for at, line in enumerate(lines) if re.match(rf"(\d+ +)?{call}\({descriptor}[<,]", line)]


def stream_session(program, device, before, base, steps):
    """A session whose stream fails: what was acknowledged, what was on its way, and how it ended."""
    session = Session(program, device, before)
    kept, way = base, base
    for step in steps if session.hello else []:
        way = step.keeps or kept
        told = session.ask(step.request)
        if told is None:
            break
        if not is_ok(told) and values(told) == told:
            raise ValueError(f"a request is answered {told}")
        kept = way
    return kept, way, session.end()


def streams(table, say):
    """Each read of the input and each write of the output fails, once or again and again."""
    device = Device(table.room)
    image = one_record(table, device)
    steps = [Step(RUNNING), *steps_of(), Step("<close-session/>")]
    device.put(image)
    run = stream_session(table.program, device, tracing(table.log, ["read", "write"]), (10, None), steps)
    if run[2] != DONE:
        raise ValueError(f"a session ended with {run[2]}")
    reads, writes = ordinals(table.log, "read", 0), ordinals(table.log, "write", 1)
    # (the program handles no signal, so the system interrupts none of these calls; where strace does, it is a failure like others)
    cases = [("read", at, error, INPUT) for at in reads for error in ["EIO", "EBADF", "EINTR"]]
    cases += [("write", at, error, OUTPUT) for at in writes for error in ["EIO", "ENOSPC", "EPIPE", "EINTR"]]
    for call, number, error, wanted in table.part(cases, 12):
        device.put(image)
        words = tracing(table.log, [call], failing=[(call, error, number)])
        kept, way, ended = stream_session(table.program, device, words, (10, None), steps)
        # (two messages that come at once are one read, and then the last read of the other run is not there)
        wanted = wanted if has_failed(table.log) else DONE
        fault = "" if ended == wanted else f"it ended with {ended} and not {wanted}"
        *next_, found = begun(table.program, device)
        if not fault and (tuple(next_) != DONE or found not in {kept, way}):
            fault = f"the next start is {next_} {found} and not {kept} or {way}"
        say(f"{call} {number} with {error}", fault)
    return f"{len(cases)} failures of {len(reads)} reads and {len(writes)} writes"


def refusals(table):
    """Runs that are refused: the words after the program, and the status."""
    def refused(status, spoil, *words):
        device = Device(table.room)
        spoil(device)
        return [words[0], *(device.folder for _ in words[1:2]), *words[2:]], status

    def folder_for_file(device):
        os.mkdir(device.store)

    def unreadable(device):
        os.symlink("features.txt", f"{device.folder}/features.txt")

    return [
        refused(2, lambda _: None, "stdio"),
        refused(3, lambda it: write(f"{it.folder}/modules/n.yang", b"module n"), "check", "DIR"),
        refused(4, lambda it: write(f"{it.folder}/initial.xml", b"<config"), "stdio", "DIR", "alice"),
        refused(5, lambda it: it.put(b"\x01NCSTORE2"), "stdio", "DIR", "alice"),
        refused(8, folder_for_file, "check", "DIR"),
        refused(12, lambda _: None, "script", "DIR", "/nowhere"),
        refused(13, unreadable, "check", "DIR"),
    ]


def notes(table, say):
    """The write of the line that tells why a run is refused fails: its status is the same."""
    tried = 0
    for words, status in refusals(table):
        words = [table.program, *words]
        got = run_of(words)
        say(f"status {status}", "" if got[0] == status and got[1].startswith("netconfd: ") and not got[2] else f"{got}")
        for error in ["EIO", "EPIPE"]:
            run_of([*tracing(table.log, ["write"]), *words])
            for at in ordinals(table.log, "write", 2):
                got = run_of([*tracing(table.log, ["write"], failing=[("write", error, at)]), *words])
                say(f"status {status}, write {at} of its line with {error}", "" if got[0] == status else f"{got}")
                tried += 1
    return f"{tried} failures of {len(refusals(table))} lines"


def broken_pipes(table, say):
    """Streams that the other side closes: at each moment of a session, and in the middle of a message."""
    device = Device(table.room)
    image = one_record(table, device)
    steps = [it.request for it in steps_of()]
    keeps = [it.keeps for it in steps_of()]
    for done in table.part(range(len(steps) + 1), 3):
        for what, wanted in [("output", OUTPUT), ("input", DONE), ("half a message", DONE)]:
            device.put(image)
            session = Session(table.program, device)
            kept = (10, None)
            for at in range(done):
                session.ask(steps[at])
                kept = keeps[at] or kept
            if what == "output":
                session.run.stdout.close()
                session.send(request(RUNNING))
                session.run.stdin.close()
                ended = end_of(session.run)
            else:
                if what != "input":
                    session.run.stdin.write(b"<rpc xmlns=")
                ended = session.end()
            *next_, found = begun(table.program, device)
            fault = "" if ended == wanted else f"it ended with {ended} and not {wanted}"
            if not fault and (tuple(next_) != DONE or found != kept):
                fault = f"the next start is {next_} {found} and not {kept}"
            say(f"{what} is closed after {done} requests", fault)
    return f"{3 * (len(steps) + 1)} ends"


ROWS = [
    ("a failing device call: a new device and its commits", a_new_device),
    ("a failing device call: a start and commits", three_commits),
    ("a failing device call: a new area and commits", a_new_area),
    ("a failing read or write of a session", streams),
    ("a failing write of a refused run's line", notes),
    ("a stream that the other side closes", broken_pipes),
]
