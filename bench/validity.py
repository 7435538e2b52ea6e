#!/usr/bin/env python3
"""Times `validate` of running: lists of 1,000, 10,000 and 100,000 entries with two `unique` statements, `min-elements` and
`max-elements`; the same with as many leafrefs into them; and over 10,000 where the schema has 20,000 data nodes more.
Usage: bench/validity.py [PROGRAM [SIZE..]]
"""
import tempfile

from payloads import SPACE, Timer, device, entries, head, kb, module, ms, row, words

LISTS = """list port { key name; unique tag; unique "tag zone"; min-elements 1; max-elements 200000;
leaf name { type string; } leaf tag { type string; } leaf zone { type string; } }
list link { key port; max-elements 200000; leaf port { type leafref { path "/ex:port/ex:name"; } } }
"""
PORT = f'<port xmlns="{SPACE}"><name>p#</name><tag>p#</tag><zone>z</zone></port>'
LINK = f'<link xmlns="{SPACE}"><port>p#</port></link>'
VALIDATE = "<validate><source><running/></source></validate>"


def others(count):
    """A container that does not stand, and so many leafs in it."""
    return "container others { presence x; " + "".join(f"leaf o{at} {{ type string; }}\n" for at in range(count)) + "}\n"


def main():
    program, sizes = words([1_000, 10_000, 100_000])
    head("Ports", "Links", "Data nodes more", "Start", "validate", "Memory")
    with tempfile.TemporaryDirectory() as room:
        for count, more in [(it, 0) for it in sizes] + [(sizes[len(sizes) // 2], 20_000)]:
            texts = {"ex": module("ex", LISTS + (others(more) if more else ""))}
            for links in [0, count]:
                timer = Timer(program, device(room, texts, entries(PORT, count) + entries(LINK, links)))
                times = max(4, min(40, 40_000 // count))
                seconds, ran = timer.time([VALIDATE] * times)
                assert ran.errors == 0
                row(f"{count:,}", f"{links:,}", f"{more:,}", ms(timer.start.seconds), ms(seconds), kb(ran.memory))


if __name__ == "__main__":
    main()
