#!/usr/bin/env python3
"""Times get-config with a filter: of 1,000 of 10,000 entries by their keys, and filters of up to 4 MB that are made to be
slow; over 100 entries with 90 of 100 tags each, with an element for each of many triples of tags; over 50 such entries with
90 rows more in a container, with an element for each triple that selects one of them; over 450 entries with the same 20
tags, with an element for each of many sets of seven; and over 10,000 and 40,000 entries with a container each, with an
element for each that names it by its key and asks for what is in the container.
A number after the program divides all sizes, for a trial.
Usage: bench/filters.py [PROGRAM [DIVISOR]]
"""
import itertools
import tempfile

from payloads import Timer, device, entries, get_config, head, kb, module, ms, row, top, words

MODULE = module("ex", """container users {
list user { key name; leaf name { type string; } leaf type { type string; } leaf-list tag { type string; }
container c { leaf-list x { type string; } } }
}
""")

ELEMENTS = [
    ("<user><name>u#</name></user>", 1_000),
    ("<user><name>u#</name></user>", 10_000),
    ("<a/>", 10_000),
    ("<user><a/></user>", 10_000),
    ("<user><name/></user>", 10_000),
    ("<user><type>admin</type><a/></user>", 10_000),
    ("<user><type>admin</type><name>u#</name></user>", 10_000),
    ("<user><type>x#</type><a/></user>", 10_000),
    ("<user><type>x#</type><a/></user>", 100_000),
    ("<user><type>admin</type><name/></user>", 100_000),
    ("<user><type>admin</type><a#/></user>", 100_000),
    ("<user><type>admin</type><a/></user><user><a/><type>admin</type><type> admin</type></user>", 40_000),
    ('<user><type>admin</type><a/></user><user><type xmlns="">admin</type><a/></user>', 40_000),
    ("<user><name>u#</name><type>admin</type><a/></user><user><a/></user>", 40_000),
]
NESTED = "<user><name>u#</name><c><x/></c></user>"


def tag(number):
    return f"<tag>t{number + 100}</tag>"


def has_tag(user, number):
    return (user * 31 + number * 17) * (user + number + 7) % 10 != 0


def users(count, more=lambda user: ""):
    """So many users, each with more in it."""
    return top("users", "".join(f"<user><name>u{at + 100_000}</name><type>admin</type>{more(at)}</user>"
                                for at in range(count)))


def tags(user):
    return "".join(tag(number) for number in range(100) if has_tag(user, number))


def twenty_tags(user):
    return "".join(tag(number) for number in range(20))


def inner(user):
    return "<c>" + "".join(f"<x>t{number + 100}</x>" for number in range(90)) + "</c>"


def triples(more, count):
    """An element for each of so many triples of tags, the later tags outermost."""
    chosen = sorted(itertools.combinations(range(100), 3), key=lambda it: it[::-1])[:count]
    return "".join(f"<user>{tag(a)}{tag(b)}{tag(c)}{more}</user>" for a, b, c in chosen)


def sevens(more, count):
    """An element for each of so many sets of seven of twenty tags."""
    chosen = itertools.islice(itertools.combinations(range(20), 7), count)
    return "".join("<user>" + "".join(map(tag, it)) + more + "</user>" for it in chosen)


def works(by):
    """The configurations, each with filters over it."""
    yield f"{10_000 // by:,} users", users(10_000 // by), [
        (f"{count // by:,} of `{element}`", entries(element, count // by)) for element, count in ELEMENTS]
    yield "100 users with tags", users(100, tags), [
        (f"{count // by:,} triples of tags{more and f', `{more}`'}", triples(more, count // by))
        for more, count in [("", 10_000), ("", 60_000), ("<type/>", 60_000)]]
    yield "50 users with tags and rows", users(50, lambda user: tags(user) + inner(user)), [
        (f"{count // by:,} triples of tags, `{more}`", triples(more, count // by))
        for more, count in [("<c><x>t117</x></c>", 10_000), ("<c><x>t117</x></c>", 50_000), ("<c><x/></c>", 60_000)]]
    yield "450 users with twenty tags", users(450, twenty_tags), [
        (f"{count // by:,} sets of seven tags{more and f', `{more}`'}", sevens(more, count // by))
        for more, count in [("", 10_000), ("", 33_000), ("<c/>", 33_000)]]
    for count in [10_000 // by, 40_000 // by]:
        yield f"{count:,} users with a container", users(count, lambda user: "<c><x>t101</x></c>"), [
            (f"{count:,} of `{NESTED}`", entries(NESTED, count))]


def main():
    program, chosen = words([1])
    head("Over", "Filter", "Octets", "Time", "Memory", "Reply")
    with tempfile.TemporaryDirectory() as room:
        for name, content, filters in works(chosen[0]):
            timer = Timer(program, device(room, {"ex": MODULE}, content))
            for told, elements in filters:
                request = get_config(top("users", elements))
                seconds, ran = timer.time([request])
                row(name, told, f"{len(request):,}", ms(seconds), kb(ran.memory),
                    f"{ran.replied:,} bytes" if ran.size else ran.told)


if __name__ == "__main__":
    main()
