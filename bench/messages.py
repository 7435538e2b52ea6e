#!/usr/bin/env python3
"""Times messages of 1 KB, 100 KB and 4 MB, of elements, of long text, and of attributes with prefixes, in both framings, and
then messages that are made to be slow: MB a second of processor and the peak of memory; xmllint's beside those of one
message, where it is there. Each is an operation that is not offered, so that it is framed, read and answered alone.
A number after the program divides all sizes, for a trial.
Usage: bench/messages.py [PROGRAM [DIVISOR]]
"""
import resource
import shutil
import subprocess
import tempfile

from payloads import Timer, device, entries, head, kb, module, row, words

MODULE = module("ex", "leaf a { type string; }\n")

KINDS = [
    ("elements", "<interface><name>eth0</name></interface>", ""),
    ("text", "some text and a bit &amp; more of it, ", ""),
    ("attributes and prefixes", '<p:b p:c="1" d="2" xmlns:q="urn:y"/>', ' xmlns:p="urn:x"'),
]


def message(attributes, content):
    return f'<x xmlns="urn:x"{attributes}>{content}</x>'


def slow(by):
    """Messages of one element each that ask for much."""
    count = 100_000 // by
    bindings = "".join(f' xmlns:p{at}="u{at}"' for at in range(count))
    yield f"{count:,} bindings above {4 * count:,} elements", message(bindings, "<b/>" * (4 * count))
    twins = "".join(f' k{at}="v"' for at in range(2 * count))
    yield f"two names among {2 * count:,}", message(twins + ' k7="v"', "")
    yield f"{4 * count:,} names", message("", entries("<k#/>", 4 * count))
    yield f"{count + count // 2:,} tags that declare", message("", entries('<b xmlns:p#="u"/>', count + count // 2))


def rate(octets, seconds):
    return f"{octets / 1e6 / max(seconds, 0.001):,.1f} MB/s"


def of_xmllint(room, text):
    """How fast xmllint reads it, where it is there."""
    if shutil.which("xmllint") is None:
        return ""
    with open(f"{room}/message.xml", "w") as file:
        file.write(text)
    before = resource.getrusage(resource.RUSAGE_CHILDREN)
    subprocess.run(["xmllint", "--huge", "--noout", f"{room}/message.xml"], stderr=subprocess.DEVNULL, check=False)
    after = resource.getrusage(resource.RUSAGE_CHILDREN)
    return rate(len(text), after.ru_utime + after.ru_stime - before.ru_utime - before.ru_stime)


def main():
    program, chosen = words([1])
    by = chosen[0]
    head("Message", "Octets", "Messages", "base:1.0", "base:1.1", "Memory", "xmllint")
    with tempfile.TemporaryDirectory() as room:
        timer = Timer(program, device(room, {"ex": MODULE}))

        def show(name, text, times):
            seconds, ran = timer.time([text] * times)
            chunked, _ = timer.time([text] * times, 1)
            row(name, f"{len(text):,}", f"{times:,}", rate(len(text), seconds) if ran.size else ran.told,
                rate(len(text), chunked), kb(ran.memory), of_xmllint(room, text) if times < 10 else "")

        for size in [1_000, 100_000, 4_000_000 // by]:
            times = max(1, 40_000_000 // by // size // (1 if size < 4_000_000 else 10))
            for name, part, attributes in KINDS:
                show(name, message(attributes, part * (size // len(part))), times)
        for name, text in slow(by):
            show(name, text, 1)


main()
