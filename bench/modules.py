#!/usr/bin/env python3
"""Times what the start of the program takes over generated modules: many nodes, chains of groupings and of typedefs,
groupings that double, chains of imports, wide unions, identities that are values of many leafs, many containers, and
modules of 4 MB.
Usage: bench/modules.py [PROGRAM [WORD..]], where the words choose among the inputs.
"""
import sys
import tempfile

from payloads import Ran, device, head, kb, module, row, words


def nodes(count):
    """Lists of nine leafs each, in a container."""
    lists = "".join(
        f"list l{at} {{ key k; leaf k {{ type string; }} "
        + "".join(f"leaf a{n} {{ type uint32; default {n}; }} " for n in range(8)) + "}\n"
        for at in range(count // 10))
    return {"m": module("m", f"container top {{\n{lists}}}\n")}


def groupings(count):
    chain = "".join(f"grouping g{at} {{ uses g{at + 1}; }}\n" for at in range(count))
    return {"m": module("m", chain + f"grouping g{count} {{ leaf a {{ type string; }} }}\nuses g0;\n")}


def typedefs(count):
    chain = "".join(f"typedef t{at} {{ type t{at + 1}; }}\n" for at in range(count))
    return {"m": module("m", chain + f"typedef t{count} {{ type string; }}\nleaf a {{ type t0; }}\n")}


def identities(count):
    chain = "".join(f"identity i{at} {{ base i{at + 1}; }}\n" for at in range(count))
    return {"m": module("m", chain + f"identity i{count};\nleaf a {{ type identityref {{ base i{count}; }} }}\n")}


def doubled(count):
    chain = "".join(
        f"grouping g{at} {{ container a {{ uses g{at + 1}; }} container b {{ uses g{at + 1}; }} }}\n"
        for at in range(count))
    return {"m": module("m", chain + f"grouping g{count} {{ leaf a {{ type string; }} }}\nuses g0;\n")}


def imports(count):
    texts = {f"m{at:05}": module(f"m{at:05}", f"leaf a{at} {{ type m{at + 1:05}:t; }} typedef t {{ type string; }}\n",
                                 [f"m{at + 1:05}"]) for at in range(count - 1)}
    texts[f"m{count - 1:05}"] = module(f"m{count - 1:05}", "typedef t { type string; }\n")
    return texts


def unions(count):
    members = "".join(f"type int32 {{ range {at}; }} " for at in range(count))
    leafs = "".join(f"leaf a{at} {{ type u; }}\n" for at in range(count))
    return {"m": module("m", f"typedef u {{ type union {{ {members}}} }}\ncontainer top {{\n{leafs}}}\n")}


def identityrefs(count):
    """A thousand identities, each a value of so many leafs."""
    derived = "".join(f"identity i{at} {{ base r; }}\n" for at in range(1000))
    leafs = "".join(f"leaf a{at} {{ type identityref {{ base r; }} }}\n" for at in range(count))
    return {"m": module("m", f"identity r;\n{derived}container top {{\n{leafs}}}\n")}


def containers(count):
    """Containers at the top, each a place that validation visits."""
    return {"m": module("m", "".join(f"container c{at} {{ leaf a {{ type string; }} }}\n" for at in range(count)))}


def leafrefs(count):
    """Each to the leaf before, but every 60th: a value is read through 64 types at most."""
    leafs = "".join(f"leaf a{at} {{ type leafref {{ path ../a{at - 1}; }} }}\n" if at % 60 else f"leaf a{at} {{ type string; }}\n"
                    for at in range(count + 1))
    return {"m": module("m", f"container top {{\n{leafs}}}\n")}


def long_text(size):
    line = '  description "' + "A long text. " * 70 + '";\n'
    leafs, length = [], 0
    while length < size - 2000:
        leafs.append(f"leaf a{len(leafs)} {{ type string;\n{line}}}\n")
        length += len(leafs[-1])
    return {"m": module("m", "".join(leafs))}


def many_leafs(size):
    leafs, length = [], 0
    while length < size - 200:
        leafs.append(f"leaf a{len(leafs)} {{ type string; }}\n")
        length += len(leafs[-1])
    return {"m": module("m", "container top {\n" + "".join(leafs) + "}\n")}


def strings(size):
    """Comments and double-quoted strings over several lines, which are stripped and joined, below a statement that is
    passed over."""
    part = ('  container part {\n    // one of many\n    description\n      "Long lines are joined \\"here\\" and\n'
            '       laid out over several lines,   \n         with indentation." + \'and more\';\n'
            '    list entry { key "name"; leaf name { type string; } leaf-list tag { type uint16; } }\n  }\n')
    return {"m": module("m", "notification big {\n" + part * ((size - 400) // len(part)) + "}\n")}


INPUTS = [
    (nodes, [100, 1000, 10000]),
    (groupings, [1000, 10000, 100000]),
    (typedefs, [1000, 10000, 100000]),
    (identities, [1000, 10000, 100000]),
    (doubled, [10, 20]),
    (imports, [10, 100, 1000]),
    (unions, [500, 5000]),
    (identityrefs, [100, 1000, 10000]),
    (containers, [1000, 10000]),
    (leafrefs, [1000, 10000]),
    (long_text, [4_000_000]),
    (many_leafs, [500_000, 4_000_000]),
    (strings, [4_000_000]),
]


def main():
    chosen = sys.argv[2:]
    del sys.argv[2:]
    program, _ = words([])
    head("Modules", "Size", "Bytes", "Start", "Memory", "Comes to")
    with tempfile.TemporaryDirectory() as room:
        for make, sizes in INPUTS:
            for size in sizes:
                if chosen and make.__name__ not in chosen:
                    continue
                texts = make(size)
                ran = Ran(program, device(room, texts))
                told = ran.told.removeprefix("netconfd: ") or "served"
                row(make.__name__, f"{size:,}", f"{sum(map(len, texts.values())):,}", f"{ran.seconds:.3f} s",
                    kb(ran.memory), told)


main()
