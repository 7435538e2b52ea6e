"""Rows of checks/failures: memory that is refused, by a limit of the address space, and by calls of the system that fail."""
import re
import resource

from stored import BASE, COMMIT, DONE, MEMORY, RUNNING, STATUSES, Device, Session, is_ok, run_of
from traced import calls_of, tracing

MODULE = """module n { namespace "urn:n"; prefix n; leaf number { type uint32; }
list entry { key name; leaf name { type string; } leaf value { type string; } } }"""
MB = 1 << 20


def entries(count, value):
    return "".join(f'<entry xmlns="urn:n"><name>e{at}</name><value>{value}</value></entry>' for at in range(count))


def edit(content):
    return f"<edit-config><target><candidate/></target><config>{content}</config></edit-config>"


def is_sanitized(program):
    """Whether a program was built with a sanitizer, which takes more address space than there is."""
    with open(program, "rb") as file:
        return b"AddressSanitizer" in file.read()


def is_refused(reply):
    return reply is not None and "<error-tag>resource-denied</error-tag>" in reply


class Loaded:
    """A device with some thousand entries, and the requests that take memory."""

    def __init__(self, table):
        self.program = table.program
        self.device = Device(table.room, MODULE, f'<config xmlns="{BASE}"/>')
        count = 1_000 if table.quick else 4_000
        session = Session(self.program, self.device)
        told = [session.ask(edit(entries(count, "old"))), session.ask(COMMIT)]
        if not all(map(is_ok, told)) or session.end() != DONE:
            raise ValueError(f"the entries are not there: {told}")
        self.image = self.device.image()
        self.requests = [(RUNNING, False), (edit(entries(count, "new")), False), (COMMIT, True), (RUNNING, False)]
        self.before, self.after = self.values(), None
        ended, self.after = self.run({})[1:]
        if ended != DONE:
            raise ValueError(f"a session without a limit ends with {ended}")

    def values(self):
        """The values of the entries, each once, that a session without a limit finds."""
        session = Session(self.program, self.device)
        found = set(re.findall(r"<value>(\w+)</value>", session.ask(RUNNING) or ""))
        return found if session.end() == DONE else None

    def run(self, how, before=()):
        """A session within a limit: what is not as wanted, how it ended, and what the next start has."""
        self.device.put(self.image)
        session = Session(self.program, self.device, before, **how)
        acknowledged, fault = False, ""
        for request, is_commit in self.requests if session.hello else []:
            told = session.ask(request)
            if told is None:
                break
            if "<rpc-error>" in told and not is_refused(told):
                fault = f"it is answered {told[:300]}"
            acknowledged = acknowledged or (is_commit and is_ok(told))
        ended = session.end()
        found = self.values()
        if self.after is not None and not fault:
            allowed = [self.after] if acknowledged else [self.before, self.after]
            fault = "" if found in allowed else f"the next start has {found}, and {acknowledged} was acknowledged"
        return fault, ended, found


def limited(limit):
    def within():
        resource.setrlimit(resource.RLIMIT_AS, (limit, limit))

    return {"preexec_fn": within}


def is_loaded(program, limit):
    """Whether the program comes so far that it reads its words."""
    return run_of([program], **limited(limit))[0] in STATUSES


def counted(ends):
    return ", ".join(f"status {status} {number} times" for status, number in sorted(ends.items(), key=str))


def limits(table, say):
    """Sessions within a limit of the address space, from too little for them to enough."""
    loaded = Loaded(table)
    least = next(it for it in range(256 * 1024, 1 << 30, 256 * 1024) if is_loaded(table.program, it))
    enough = 2 * least
    while loaded.run(limited(enough))[1] != DONE:
        enough *= 2
    count = 8 if table.quick else 96
    ends = {}
    for at in range(count):
        limit = least + (enough - least) * at // count
        fault, ended, _ = loaded.run(limited(limit))
        ends[ended[0]] = ends.get(ended[0], 0) + 1
        if not fault and ended not in (DONE, MEMORY):
            fault = f"it ended with {ended}"
        say(f"{limit} octets", fault)
    return f"{count} limits from {least / MB:.1f} to {enough / MB:.1f} MB: {counted(ends)}"


def calls(table, say):
    """Each call that asks for memory fails, alone and with all that come after it."""
    loaded = Loaded(table)
    asked = ["brk", "mmap"]
    loaded.run({}, tracing(table.log, asked))
    noted = [call for call, *_ in calls_of(table.log)]
    run_of([*tracing(table.log, asked), table.program])
    # (those of a run without words are the loader's, and what comes before the words are read)
    begun = len(calls_of(table.log))
    cases, ends = [], {}
    for at in range(begun, len(noted)):
        numbers = {call: noted[:at].count(call) + 1 for call in asked}
        cases.append((f"call {at + 1} and all after it", [(call, "ENOMEM", f"{numbers[call]}+") for call in asked]))
        cases.append((f"call {at + 1}", [(noted[at], "ENOMEM", numbers[noted[at]])]))
    chosen = table.part(cases, 8)
    for what, failing in chosen:
        fault, ended, _ = loaded.run({}, tracing(table.log, asked, failing=failing))
        ends[ended[0]] = ends.get(ended[0], 0) + 1
        if not fault and ended not in (DONE, MEMORY):
            fault = f"it ended with {ended}"
        say(what, fault)
    return f"{len(chosen)} failures of {len(noted) - begun} calls: {counted(ends)}"


ROWS = [("memory that is refused by a limit", limits)]
TRACED = [("a call that asks for memory and fails", calls)]
