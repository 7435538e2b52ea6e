#!/usr/bin/env python3
"""Times payloads of 1,000, 10,000 and 20,000 list entries, each with a key and a leaf: as the inline configuration of a
copy-config, whose entries come in order, in reverse order, in no order, ordered by the user, and in a case of a choice;
and as edits: a merge of all into nothing, edits of 333 of them, and a replace by entries ordered by the user. Then an entry
with 1,000 keys, a container with 20,000 leafs, and 4,000 entries of 10,000 that are deleted one by one.
Usage: bench/edits.py [PROGRAM [SIZE..]]
"""
import tempfile

from payloads import BASE, Timer, copy, device, edit, entries, head, kb, module, ms, row, top, words

LISTS = "".join(f"list {name} {{ key name; {more} leaf name {{ type string; }} leaf type {{ type string; }} }}\n"
                for name, more in [("user", ""), ("rule", "ordered-by user;")])
MODULE = module("ex", f"""container users {{
{LISTS}choice place {{ case here {{ list host {{ key name; leaf name {{ type string; }} leaf type {{ type string; }} }} }} }}
}}
""")
USER = "<user><name>u#</name><type>admin</type></user>"
RULE = "<rule><name>u#</name><type>admin</type></rule>"
HOST = "<host><name>u#</name><type>admin</type></host>"
TURNED = "<user><type>admin</type><name>u#</name></user>"
OTHER = "<user><name>u#</name><type>other</type></user>"
REPLACE = "<default-operation>replace</default-operation>"


def rows_of(count):
    """The inline configurations of so many entries."""
    for name, element, order in [
        ("in order", USER, "rising"), ("in reverse order", USER, "reverse"), ("in no order", USER, "mixed"),
        ("leafs in another order", TURNED, "rising"), ("ordered by the user", RULE, "rising"),
        ("ordered by the user, mixed", RULE, "mixed"), ("in a case, in no order", HOST, "mixed"),
    ]:
        yield f"copy-config, {name}", [copy(top("users", entries(element, count, order)))], []


def edits_of(count):
    """The edits, and what stands in the candidate before."""
    all_users = edit(top("users", entries(USER, count)))
    yield "edit-config, a merge of all into nothing", [all_users], []
    yield "edit-config, the leaf of 333 of them", [edit(top("users", entries(OTHER, 333)))], [all_users]
    yield ("edit-config, a replace by entries ordered by the user",
           [edit(top("users", entries(RULE, count, "mixed")), REPLACE)], [all_users])


def leafs(count):
    return "".join(f"leaf l{at} {{ type string; }}\n" for at in range(count))


def values(count):
    return "".join(f"<l{at}>v{at}</l{at}>" for at in range(count))


def look_at_wide_nodes(program, room):
    """What has many leafs, and many requests of one deletion each."""
    named = " ".join(f"l{at}" for at in range(1_000))
    many = device(room, {"ex": module("ex", f'list entry {{ key "{named}";\n{leafs(1_000)}}}\n')})
    wide = device(room, {"ex": module("ex", f"container all {{\n{leafs(20_000)}}}\n")})
    users = device(room, {"ex": MODULE})
    gone = [edit(top("users", f'<user xmlns:nc="{BASE}" nc:operation="delete"><name>u{at + 100_000}</name></user>'))
            for at in range(4_000)]
    for count, name, folder, requests, before in [
        (1_000, "edit-config, an entry with so many keys", many, [edit(top("entry", values(1_000)))], []),
        (20_000, "edit-config, so many leafs of a container", wide, [edit(top("all", values(20_000)))], []),
        (10_000, "4,000 of them deleted, a request each", users, gone, [edit(top("users", entries(USER, 10_000)))]),
    ]:
        seconds, ran = Timer(program, folder).time(requests, before=before)
        row(f"{count:,}", name, f"{sum(map(len, requests)):,}", ms(seconds * len(requests)),
            kb(ran.memory) + ", refused" * ran.errors)


def main():
    program, sizes = words([1_000, 10_000, 20_000])
    head("Entries", "Request", "Octets", "Time", "Memory")
    with tempfile.TemporaryDirectory() as room:
        timer = Timer(program, device(room, {"ex": MODULE}))
        for count in sizes:
            for name, requests, before in [*rows_of(count), *edits_of(count)]:
                seconds, ran = timer.time(requests, before=before)
                row(f"{count:,}", name, f"{len(requests[0]):,}", ms(seconds), kb(ran.memory) + ", refused" * ran.errors)
        look_at_wide_nodes(program, room)


main()
