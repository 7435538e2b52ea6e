#!/usr/bin/env python3
"""Times each operation at `netconfd serve`, by a session of a user: with access control off, with 10 and with 1,000 rules
that name entries by their keys, over 100, 1,000 and 10,000 entries; and then beside 64 sessions of which each has 64 partial
locks. Prints how many the program answers in a second of its processor time; what comes in a pair counts once.
Usage: bench/operations.py [PROGRAM [SIZE..]]
"""
import tempfile

from connections import Server, Session
from payloads import SPACE, device, edit, entries, get_config, head, module, row, top, words

USERS = module("ex", """container users {
list user { key name; leaf name { type string; } leaf type { type string; } }
}
""")
USER = "<user><name>u#</name><type>admin</type></user>"
ACM = "urn:ietf:params:xml:ns:yang:ietf-netconf-acm"
PARTIAL = "urn:ietf:params:xml:ns:netconf:partial-lock:1.0"
RUNNING = "<target><running/></target>"
# The processor clock ticks a hundred times a second: so many seconds are measured at least.
LEAST = 0.4
# Access control that is off, and with so many rules.
RULES = (None, 10, 1_000)
# So many sessions are live at once, and each has so many partial locks.
MOST_SESSIONS, MOST_LOCKS = 64, 64


def access(rules):
    """Access control that is off, or with so many rules, none of which is about the entry that is asked for."""
    if rules is None:
        return f'<nacm xmlns="{ACM}"><enable-nacm>false</enable-nacm></nacm>'
    listed = "".join(f"<rule><name>r{at}</name><path xmlns:e=\"{SPACE}\">/e:users/e:user[e:name='x{at}']</path>"
                     "<action>deny</action></rule>" for at in range(rules))
    return (f'<nacm xmlns="{ACM}"><rule-list><name>all</name><group>*</group>{listed}<rule><name>rest</name>'
            "<action>permit</action></rule></rule-list><groups><group><name>ops</name><user-name>alice</user-name></group>"
            "</groups></nacm>")


def one(at, content=""):
    return top("users", f"<user><name>u{at + 100_000}</name>{content}</user>")


def part(at):
    return (f'<partial-lock xmlns="{PARTIAL}"><select xmlns:e="{SPACE}">/e:users/e:user[e:name=\'u{at + 100_000}\']</select>'
            "</partial-lock>")


def told(reply, name):
    """What an element of a reply says."""
    return reply.partition(f"<{name}".encode())[2].partition(b">")[2].partition(b"<")[0].decode()


class Work:
    """What is timed at a session, over so many entries: each takes a number that is new."""

    def __init__(self, server, count):
        self.server, self.count = server, count
        self.session = Session(server, "alice", ("ops",))

    def ask(self, *operations):
        for operation in operations:
            reply = self.session.ask(operation)
            assert b"<rpc-error>" not in reply, reply[:2000]
        return reply

    def leaf(self, number):
        return edit(one(self.count // 2, f"<type>t{number}</type>"))

    def get_all(self, _):
        self.ask("<get/>")

    def get_one(self, number):
        self.ask(get_config(one(number % self.count)))

    def edit(self, number):
        self.ask(self.leaf(number))

    def commit(self, number):
        self.ask(self.leaf(number), "<commit/>")

    def confirmed(self, number):
        self.ask(self.leaf(number), "<commit><confirmed/></commit>", "<cancel-commit/>")

    def copy(self, _):
        self.ask("<copy-config><target><candidate/></target><source><running/></source></copy-config>")

    def validate(self, _):
        self.ask("<validate><source><candidate/></source></validate>")

    def discard(self, _):
        self.ask("<discard-changes/>")

    def delete(self, _):
        reply = self.session.ask(f"<delete-config>{RUNNING}</delete-config>")
        assert b"<rpc-error>" in reply, reply[:2000]

    def lock(self, _):
        self.ask(f"<lock>{RUNNING}</lock>", f"<unlock>{RUNNING}</unlock>")

    def partial_lock(self, number):
        reply = self.ask(part(number % self.count))
        self.ask(f'<partial-unlock xmlns="{PARTIAL}"><lock-id>{told(reply, "lock-id")}</lock-id></partial-unlock>')

    def kill(self, _):
        other = Session(self.server, "alice", ("ops",))
        self.ask(f"<kill-session><session-id>{other.number}</session-id></kill-session>")
        other.socket.close()

    def close(self, _):
        Session(self.server, "alice", ("ops",)).close()


WORKS = [
    ("get of all", Work.get_all),
    ("get-config of one by its key", Work.get_one),
    ("edit-config of one leaf", Work.edit),
    ("that and a commit", Work.commit),
    ("that, a confirmed commit and cancel-commit", Work.confirmed),
    ("copy-config of running to candidate", Work.copy),
    ("delete-config, refused", Work.delete),
    ("validate of candidate", Work.validate),
    ("discard-changes", Work.discard),
    ("lock and unlock", Work.lock),
    ("partial-lock and partial-unlock", Work.partial_lock),
    ("a session that is killed", Work.kill),
    ("a session that closes itself", Work.close),
]


def a_second(server, work, does):
    """How many the server does in a second of processor time."""
    does(work, 0)
    begun, done, at_once = server.seconds(), 0, 1
    while server.seconds() - begun < LEAST:
        for _ in range(at_once):
            done += 1
            does(work, done)
        at_once = min(at_once * 2, 256)
    return done / (server.seconds() - begun)


def device_of(room, count, rules):
    # Rules stand in the built-in module, whose rows come first.
    return device(room, {"ex": USERS}, access(rules) + top("users", entries(USER, count)))


def look_at_operations(program, room, sizes):
    """Each operation, over each size and with each number of rules."""
    found = {}
    for count in sizes:
        for rules in RULES:
            with Server(program, device_of(room, count, rules)) as server:
                for name, does in WORKS:
                    work = Work(server, count)
                    found[name, count, rules] = a_second(server, work, does)
                    work.session.close()
    head("Operation", "Entries", "access control off", "10 rules", "1,000 rules")
    for name, _ in WORKS:
        for count in sizes:
            row(name, f"{count:,}", *(f"{found[name, count, rules]:,.0f}" for rules in RULES))


class Crowd(Work):
    """As many sessions as are live at once, each with as many partial locks as it may have, on entries of its own; and the
    last of them, which has one fewer."""

    def __init__(self, server, count):
        super().__init__(server, count)
        self.others = [Session(server, "alice", ("ops",)) for _ in range(MOST_SESSIONS - 1)]
        begun = server.seconds()
        for at in range(MOST_SESSIONS * MOST_LOCKS - 1):
            reply = (self.others + [self.session])[at // MOST_LOCKS].ask(part(at))
            assert b"<lock-id" in reply, reply[:2000]
        self.taken = (server.seconds() - begun) / (MOST_SESSIONS * MOST_LOCKS - 1)

    def refused(self, *operations):
        for operation in operations:
            reply = self.session.ask(operation)
        assert b"<rpc-error>" in reply, reply[:2000]

    def lock_more(self, _):
        self.partial_lock(self.count - 1)

    def lock_of_another(self, _):
        self.refused(part(0))

    def lock_running(self, _):
        self.refused(f"<lock>{RUNNING}</lock>")

    def commit_free(self, number):
        self.ask(edit(one(self.count - 1, f"<type>t{number}</type>")), "<commit/>")

    def commit_locked(self, number):
        self.refused(edit(one(0, f"<type>t{number}</type>")), "<commit/>")
        self.ask("<discard-changes/>")


CROWDS = [
    ("partial-lock of one more node, and partial-unlock", Crowd.lock_more),
    ("partial-lock of a node that another session has, refused", Crowd.lock_of_another),
    ("lock of running, refused", Crowd.lock_running),
    ("edit and commit of a node that no session has", Crowd.commit_free),
    ("edit and commit of a node that another session has, refused, and discard-changes", Crowd.commit_locked),
]


def look_at_partial_locks(program, room, sizes):
    """The same where 64 sessions have 64 partial locks each."""
    head("Beside 4,095 partial locks of 64 sessions", "Entries", "access control off", "10 rules", "1,000 rules")
    for count in sizes:
        cells, taken = {name: [] for name, _ in CROWDS}, []
        for rules in RULES:
            with Server(program, device_of(room, count, rules)) as server:
                crowd = Crowd(server, count)
                taken.append(f"{1 / crowd.taken:,.0f}")
                for name, does in CROWDS:
                    cells[name].append(f"{a_second(server, crowd, does):,.0f}")
        row("partial-lock, each of the 4,095", f"{count:,}", *taken)
        for name, _ in CROWDS:
            row(name, f"{count:,}", *cells[name])


def main():
    program, sizes = words([100, 1_000, 10_000])
    with tempfile.TemporaryDirectory() as room:
        look_at_operations(program, room, sizes)
        print()
        look_at_partial_locks(program, room, [count for count in sizes if count > MOST_SESSIONS * MOST_LOCKS] or [5_000])


main()
