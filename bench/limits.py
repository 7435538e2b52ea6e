#!/usr/bin/env python3
"""Times what partial locks, changes and access control come to at their limits, at the built program: requests of a session
beside 63 others that hold 4,032 partial locks on 32,256 nodes; commits whose changes have to be looked for, beside the same
where they have not; and commits and gets under policies of many groups, rule-lists and rules.
A time is processor time of the program. A number after the program divides all sizes, for a trial.
Usage: bench/limits.py [PROGRAM [DIVISOR]]
"""
import tempfile

from connections import Server, Session, many_files
from payloads import SPACE, copy, device, edit, entries, get_config, head, kb, module, ms, row, top, words

USERS = module("ex", """container users {
list user { key name; leaf name { type string; } leaf type { type string; } }
list rule { key name; ordered-by user; leaf name { type string; } }
}
""")
USER = "<user><name>u#</name><type>admin</type></user>"
RULE = "<rule><name>u#</name></rule>"
PARTIAL = "urn:ietf:params:xml:ns:netconf:partial-lock:1.0"
ACM = "urn:ietf:params:xml:ns:yang:ietf-netconf-acm"
REST = "<rule><name>rest</name><module-name>ex</module-name><action>permit</action></rule>"
OFF = f'<nacm xmlns="{ACM}"><enable-nacm>false</enable-nacm></nacm>'


def partial_lock(names):
    """A request for the nodes of these texts, each below `users`."""
    selects = "".join(f"<select>/e:users/e:{it}</select>" for it in names)
    return f'<partial-lock xmlns="{PARTIAL}" xmlns:e="{SPACE}">{selects}</partial-lock>'


def user(at, leaf=""):
    return f"user[e:name='u{at + 100_000}']{leaf}"


def took(server, session, *operations):
    """The seconds that these take, and whether one was refused."""
    begun, refused = server.seconds(), False
    for operation in operations:
        refused |= b"<rpc-error>" in session.ask(operation)
    return server.seconds() - begun, refused


def told(what, count, found, server, each=1):
    seconds, refused = found
    row(what, count, ms(seconds / each), kb(server.memory()), "refused" if refused else "answered")


def look_at_locks(program, room, by):
    """Many nodes in one request, and many changed nodes, beside many partial locks."""
    holders, held, nodes = (63, 64, 8) if by == 1 else (2, 2, 2)
    count = 60_000 // by
    folder = device(room, {"ex": USERS}, OFF + top("users", entries(USER, max(count // 2, holders * held * nodes))))
    with Server(program, folder) as server:
        one, others = Session(server), [Session(server) for _ in range(holders)]
        new = edit(top("users", entries(USER.replace("u#", "v#"), 10_000 // by)))
        told("a commit of as many new rows, without locks", f"{30_000 // by:,}", took(server, one, new, "<commit/>"), server)
        begun = server.seconds()
        for at, it in enumerate(others):
            for lock in range(held):
                first = (at * held + lock) * nodes
                assert b"lock-id" in it.ask(partial_lock(user(first + node, "/e:name") for node in range(nodes)))
        each = (server.seconds() - begun) / (holders * held)
        row(f"a partial lock on {nodes} nodes", f"{holders * held:,}", ms(each), kb(server.memory()), "answered")
        gone = edit(top("users", entries(USER.replace("u#", "v#").replace("<user>", '<user xmlns:nc="urn:ietf:params:xml:ns:netconf'
                                                                                   ':base:1.0" nc:operation="delete">'), 10_000 // by)))
        told("a commit of as many rows that go, beside them", f"{30_000 // by:,}", took(server, one, gone, "<commit/>"), server)
        for many in [1_000 // by, 10_000 // by, count]:
            asked = partial_lock(user(at // 2, "/e:type" if at % 2 else "") for at in range(many))
            told("a partial lock of as many selects, of which others hold some", f"{many:,}", took(server, one, asked), server)
        for it in others:
            it.close()
        for many in [1_000 // by, 10_000 // by, count]:
            asked = partial_lock(user(at // 2, "/e:type" if at % 2 else "") for at in range(many))
            told("a partial lock of as many selects, granted", f"{many:,}", took(server, one, asked), server)


def look_at_changes(program, room, by):
    """Entries that the user has put in reverse order, among 30,000 rows, beside a partial lock of another session or not."""
    for many in [1_000 // by, 3_000 // by, 10_000 // by]:
        users = entries(USER, max(1, (30_000 // by - 2 * many) // 3))
        rest = top("users", users + entries(RULE, many))
        turned = OFF + top("users", users + entries(RULE, many, "reverse"))
        for locked in (False, True):
            with Server(program, device(room, {"ex": USERS}, OFF + rest)) as server:
                one, other = Session(server), Session(server)
                if locked:
                    assert b"lock-id" in other.ask(partial_lock([user(0)]))
                assert b"<ok/>" in one.ask(copy(turned))
                what = "a commit of entries in reverse order" + (", where changes are looked for" if locked else "")
                told(what, f"{many:,}", took(server, one, "<commit/>"), server)


def rules(count):
    """So many rules with keys, of which none denies alice, and a last one that permits all but the rules themselves."""
    listed = "".join(f"<rule><name>r{at}</name><path xmlns:e=\"{SPACE}\">/e:users/e:user[e:name='u{at + 100_000}']</path>"
                     "<access-operations>read create</access-operations><action>permit</action></rule>" for at in range(count))
    return (f'<nacm xmlns="{ACM}"><rule-list><name>all</name><group>*</group>{listed}{REST}</rule-list></nacm>')


def groups(count, users):
    listed = "".join(f"<group><name>g{at}</name>" + "".join(f"<user-name>n{it}</user-name>" for it in range(users)) + "</group>"
                     for at in range(count))
    return f"<groups>{listed}</groups>"


def lists(count, names):
    return "".join(f"<rule-list><name>l{at}</name>" + "".join(f"<group>g{it}</group>" for it in range(names)) + "</rule-list>"
                   for at in range(count))


def policies(by):
    """Policies by their names."""
    yield "access control that is off", OFF
    for many in [10, 1_000 // by]:
        yield f"{many:,} rules with keys", rules(many)
    for many in [100 // by, 300 // by]:
        permitted = f"<rule-list><name>z</name><group>*</group>{REST}</rule-list>"
        yield f"{many:,} groups of {many:,} users", f'<nacm xmlns="{ACM}">{groups(many, many)}{permitted}</nacm>'
        yield (f"{many:,} rule-lists of {many:,} groups", f'<nacm xmlns="{ACM}">{groups(many, 1)}{lists(many, many)}{permitted}</nacm>')


def look_at_policies(program, room, by):
    """A get of 30,000 rows, an edit of 10,000 entries, and a commit of one leaf, under each policy."""
    for name, policy in policies(by):
        with Server(program, device(room, {"ex": USERS}, policy + top("users", entries(USER, 10_000 // by)))) as server:
            one = Session(server, "alice", ("ops",))
            told(f"a get of {30_000 // by:,} rows", name, took(server, one, *[get_config(top("users", ""))] * 5), server, 5)
            told("an edit of one leaf with a commit", name, took(server, one, edit(top("users", USER.replace("#", "100000"))),
                                                                "<commit/>"), server)
            new = edit(top("users", entries(USER.replace("u#", "v#"), 10_000 // by)))
            told(f"an edit of {10_000 // by:,} new entries", name, took(server, one, new), server)
            denied = [edit(f'<nacm xmlns="{ACM}"><groups><group><name>more</name></group></groups></nacm>'), "<discard-changes/>"]
            told("an edit of the rules, which is denied where they count", name, took(server, one, *denied * 5), server, 5)


def main():
    program, chosen = words([1])
    many_files()
    head("What", "Of", "Time", "Memory", "Answer")
    with tempfile.TemporaryDirectory() as room:
        for look in [look_at_changes, look_at_policies, look_at_locks]:
            look(program, room, chosen[0])


if __name__ == "__main__":
    main()
