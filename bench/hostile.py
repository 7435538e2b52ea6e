#!/usr/bin/env python3
"""Sends what a hostile or a careless client would, and prints what the program takes for it: messages of up to 4 MB with
many attributes, prefixes, matches and entries, long keys, references, rules and locks; and connections that stop reading or
say nothing, beside a session that goes on. A time is processor time of the program; memory is its peak.
A session that takes more than half a minute of processor time is ended. What takes more than two seconds is told last.
A number after the program divides all sizes, for a trial.
Usage: bench/hostile.py [PROGRAM [DIVISOR]]
"""
import tempfile
import time

from connections import Server, Session, many_files
from filters import MODULE as TAGGED, tags, triples, users
from payloads import SPACE, Timer, device, edit, entries, get_config, head, kb, module, ms, row, top, words
from validity import LINK, LISTS, PORT

LIMIT = 30
PATIENCE = 2

USERS = module("ex", """container users {
list user { key name; leaf name { type string; } leaf type { type string; } }
list rule { key name; ordered-by user; leaf name { type string; } leaf type { type string; } }
list port { key "name at"; leaf name { type string; } leaf at { type uint32; } }
}
""")
USER = "<user><name>u#</name><type>admin</type></user>"
PLACES = module("ex", """choice place { case here { list host { key name; leaf name { type string; } leaf type { type string; } } }
case there { leaf far { type string; } } }
""")
HOST = f'<host xmlns="{SPACE}"><name>u#</name><type>admin</type></host>'
RULE = "<rule><name>u#</name></rule>"
PARTIAL = "urn:ietf:params:xml:ns:netconf:partial-lock:1.0"
ACM = "urn:ietf:params:xml:ns:yang:ietf-netconf-acm"


def access_rules(count):
    """So many rules about users, none of which is the peer's."""
    listed = "".join(f"<rule><name>r{at}</name><path xmlns:e=\"urn:ex\">/e:users/e:user[e:name='u{at + 100_000}']</path>"
                     "<access-operations>read</access-operations><action>deny</action></rule>" for at in range(count))
    return (f'<nacm xmlns="{ACM}"><rule-list><name>all</name><group>*</group>{listed}<rule><name>rest</name>'
            "<action>permit</action></rule></rule-list></nacm>")


def partial_lock(at):
    return (f'<partial-lock xmlns="{PARTIAL}"><select xmlns:e="{SPACE}">/e:users/e:user[e:name=\'u{at + 100_000}\']</select>'
            "</partial-lock>")


def prefixes(count, elements):
    bound = "".join(f' xmlns:p{at}="urn:{at}"' for at in range(count))
    return get_config(top("users", "<a/>" * elements, bound))


def long_namespaces(by):
    """Names in a namespace of megabytes, which each name under its prefix has in a few octets."""
    space, count = "u" * (1_900_000 // by), 160_000 // by
    bound = f' xmlns:p="{space}"'
    elements = "".join(f"<p:a{at}/>" for at in range(count))
    yield (f"{count:,} elements of a filter in a namespace of {len(space):,} octets", USERS, None, [],
           [f"<get><filter{bound}>{elements}</filter></get>"])
    matches = "<name>u100001</name>" * 4 + "".join(f"<p:a{at}>b</p:a{at}>" for at in range(count // 2))
    yield (f"{count // 2:,} content matches in it", USERS, users(100), [],
           [get_config(top("users", f"<user>{matches}</user>", bound))])
    attributes = "".join(f' p:a{at}=""' for at in range(count))
    yield f"{count:,} attributes in it", USERS, None, [], [f"<get{bound}{attributes}/>"]
    half = space[: len(space) // 2]
    pairs = "".join(f' p:a{at}="" q:a{at}=""' for at in range(count // 2))
    yield (f"{count // 2:,} pairs of attributes in two namespaces of {len(half):,} octets that differ at their ends", USERS, None, [],
           [f'<get xmlns:p="{half}p" xmlns:q="{half}q"{pairs}/>'])


def messages(by):
    """The messages, each with the modules and the configuration that it meets, and what comes before it."""
    attributes = "".join(f' a{at}=""' for at in range(300_000 // by))
    count = 280_000 // by
    yield f"{count:,} elements that each declare a namespace", USERS, None, [], [get_config('<a xmlns="b"/>' * count)]
    yield (f"{count:,} of them below 55 that do", USERS, None, [],
           [get_config('<a xmlns="b">' * 55 + '<a xmlns="b"/>' * count + "</a>" * 55)])
    yield f"{300_000 // by:,} attributes", USERS, None, [], [f"<get{attributes}/>"]
    yield f"{90_000 // by:,} prefixes above {400_000 // by:,} elements", USERS, None, [], [prefixes(90_000 // by, 400_000 // by)]
    yield from long_namespaces(by)
    yield (f"a filter of {60_000 // by:,} overlapping matches", TAGGED, users(100, tags), [],
           [get_config(top("users", triples("", 60_000 // by)))])
    for count in [1_000 // by, 10_000 // by, 60_000 // by]:
        yield f"a merge of {count:,} new entries", USERS, None, [], [edit(top("users", entries(USER, count, "mixed")))]
    for count in [1_000 // by, 10_000 // by]:
        yield f"a merge of {count:,} new entries in a case", PLACES, None, [], [edit(entries(HOST, count, "mixed"))]
    ordered = [edit(top("users", entries(RULE, 10_000 // by)))]
    yield (f"{10_000 // by:,} entries ordered by the user, merged in reverse", USERS, None, ordered,
           [edit(top("users", entries(RULE, 10_000 // by, "reverse")))])
    moved = entries('<rule yang:insert="first"><name>u#</name></rule>', 10_000 // by)
    yield (f"{10_000 // by:,} of them moved to the front, one by one", USERS, None, ordered,
           [edit(top("users", moved, ' xmlns:yang="urn:ietf:params:xml:ns:yang:1"'))])
    key = "k" * (2_000_000 // by)
    yield (f"{20_000 // by:,} entries below a key of {len(key):,} octets", module("ex", """list outer { key name; leaf name { type string; }
list inner { key at; leaf at { type string; } } }
"""), None, [], [edit(f'<outer xmlns="{SPACE}"><name>{key}</name>{entries("<inner><at>u#</at></inner>", 20_000 // by)}</outer>')])
    count = 10_000 // by
    yield (f"a commit of {count:,} new leafrefs", module("ex", LISTS), entries(PORT, count), [],
           [edit(entries(LINK, count)), "<commit/>"])
    count = 100_000 // by
    yield (f"a commit of an entry beside {count:,} under `unique`", module("ex", LISTS), entries(PORT, count), [],
           [edit(PORT.replace("#", "more")), "<commit/>"])


def governed(by):
    """The same for messages of a user to whom the device's access control applies."""
    users = top("users", entries(USER, 10_000 // by))
    yield (f"a get over {10_000 // by:,} entries under {1_000 // by:,} rules", USERS, access_rules(1_000 // by) + users, [],
           [get_config()])
    for count in [10 // by or 1, 1_000 // by or 1]:
        yield (f"{count:,} merges of a container above {10_000 // by:,} entries", USERS, users, [],
               [edit(f'<users xmlns="{SPACE}"/>' * count)])


def look_at_messages(program, room, by):
    """The rows of the messages; the names of those that took too long."""
    slow = []
    for rules, (name, texts, initial, before, requests) in [(False, it) for it in messages(by)] + [(True, it) for it in governed(by)]:
        timer = Timer(program, device(room, {"ex": texts}, initial), rules)
        seconds, ran = timer.time(requests, before=before, limit=LIMIT)
        taken = f"more than {LIMIT} s" if ran.cut else ms(seconds * len(requests))
        told = "ended" if ran.cut else ran.told or (f"{ran.errors} refused" if ran.errors else "answered")
        row(name, f"{sum(map(len, requests)):,}", taken, kb(ran.memory), told)
        if ran.cut or seconds * len(requests) > PATIENCE:
            slow.append(name)
    return slow


def answer_time(session):
    """The seconds until a small request is answered."""
    begun = time.time()
    session.ask(get_config(f'<none xmlns="{SPACE}"/>'))
    return time.time() - begun


def look_at_connections(program, room, by):
    """Others at the server, beside a session whose small request is timed by the clock."""
    many_files()
    folder = device(room, {"ex": USERS}, access_rules(0) + top("users", entries(USER, 10_000 // by)))
    with Server(program, folder) as server:
        one = Session(server)
        others = [Session(server) for _ in range(63)]
        for it in others:
            it.send(get_config())
        time.sleep(2)
        row(f"63 sessions that do not read {10_000 // by:,} entries", "", f"another is answered in {ms(answer_time(one))}", kb(server.memory()), "")
    with Server(program, folder) as server:
        sessions = [Session(server) for _ in range(64)]
        locks = 64 // by or 1
        asked = [partial_lock(at) for at in range(64 * locks)]
        begun, end, done, refused = server.seconds(), time.time() + LIMIT, 0, 0
        for at, request in enumerate(asked):
            if time.time() > end:
                break
            refused += b"<rpc-error>" in sessions[at % 64].ask(request)
            done += 1
        taken = f"{ms((server.seconds() - begun) / done)} each"
        row(f"{done:,} of {len(asked):,} partial locks of 64 sessions", "", taken, kb(server.memory()), f"{refused} refused" if refused else "answered")
    with Server(program, folder) as server:
        one = Session(server)
        silent = []
        for _ in range(10_000 // by):
            silent.append(server.dial())
        row(f"{len(silent):,} connections that say nothing", "", f"another is answered in {ms(answer_time(one))}", kb(server.memory()), "")


def main():
    program, chosen = words([1])
    head("What comes", "Octets", "Time", "Memory", "Answer")
    with tempfile.TemporaryDirectory() as room:
        slow = look_at_messages(program, room, chosen[0])
        look_at_connections(program, room, chosen[0])
    print(f"\n{len(slow)} took more than {PATIENCE} s" + "".join(f"; {name}" for name in slow))


if __name__ == "__main__":
    main()
