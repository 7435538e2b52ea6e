#!/usr/bin/env python3
"""Times the canonical texts of values: edits of a leaf with one string of 1, 2 and 4 MB, one set of bits that is none, and
one union of as much text; and of a leaf-list with 10,000 to 80,000 short integers. The time of an edit of a leaf of no type
that looks at its text, a string of as many octets, is the one to compare with.
A number after the program divides all sizes, for a trial.
Usage: bench/values.py [PROGRAM [DIVISOR]]
"""
import tempfile

from payloads import Timer, device, edit, entries, head, kb, module, ms, row, top, words

BITS = "type bits { " + " ".join(f"bit {name};" for name in "read write exec create delete update".split()) + " }"
MODULE = module("ex", f"""container c {{
leaf chars {{ type string; }} leaf flags {{ {BITS} }}
leaf any {{ type union {{ type int32; {BITS} type string; }} }}
leaf-list numbers {{ type int32; }}
}}
""")


def main():
    program, chosen = words([1])
    by = chosen[0]
    head("Value", "Octets", "Time", "Memory", "Answer")
    with tempfile.TemporaryDirectory() as room:
        timer = Timer(program, device(room, {"ex": MODULE}))

        def show(name, content):
            seconds, ran = timer.time([edit(top("c", content))])
            row(name, f"{len(content):,}", ms(seconds), kb(ran.memory), "refused" if ran.errors else "ok")

        for name, leaf, part in [("a string", "chars", "0123456789"), ("bits that are none", "flags", "no such bi"),
                                 ("a union", "any", "0123456789")]:
            for times in [100_000 // by, 200_000 // by, 400_000 // by]:
                show(name, f"<{leaf}>{part * times}</{leaf}>")
        for count in [10_000 // by, 40_000 // by, 80_000 // by]:
            show(f"{count:,} integers", entries("<numbers>+0#</numbers>", count))


main()
