#!/usr/bin/env python3
"""Times sessions on the device of demo/device with 100, 1,000 and 10,000 interfaces, in both framings: what a start and
each request take, the most memory, and the bytes of a reply.
Usage: bench/session.py [PROGRAM [SIZE..]]
"""
import shutil
import tempfile

from payloads import BASE, TOP, Timer, edit, get_config, head, interfaces, kb, ms, row, words

DEVICE = "urn:example:device"


def one(count, mtu=""):
    return (f'<interfaces xmlns="{DEVICE}"><interface><name>p{count // 2:07}</name>{mtu}</interface></interfaces>')


def mtu(number):
    return f"<mtu>{number}</mtu>"


def works(count):
    """What is timed: its name, the requests, and how many of them are one piece of work."""
    times, many = max(4, 2000 // count), 200
    edits = [edit(one(count, mtu(1000 + at))) for at in range(many)]
    whole = interfaces(count, f' xmlns:nc="{BASE}" nc:operation="replace"')
    return [
        ("get-config of all", [get_config()] * times, 1),
        ("one interface by a filter", [get_config(one(count))] * many, 1),
        ("edit-config of one leaf", edits, 1),
        ("that with a commit", [it for one_edit in edits for it in (one_edit, "<commit/>")], 2),
        ("a replace of all of them", [edit(whole)] * 4, 1),
    ]


def main():
    program, sizes = words([100, 1000, 10000])
    head("Interfaces", "What", "base:1.0", "base:1.1", "Memory", "Reply")
    with tempfile.TemporaryDirectory() as room:
        for count in sizes:
            folder = f"{room}/{count}"
            shutil.copytree(f"{TOP}/demo/device", folder)
            with open(f"{folder}/initial.xml", "w") as initial:
                initial.write(f'<config xmlns="{BASE}"><system xmlns="{DEVICE}"><hostname>big</hostname></system>'
                              f"{interfaces(count)}</config>")
            timer = Timer(program, folder)
            row(f"{count:,}", "start", ms(timer.start.seconds), "", kb(timer.start.memory), "")
            for name, requests, of in works(count):
                seconds, ran = timer.time(requests)
                chunked, _ = timer.time(requests, 1)
                assert ran.errors == 0, name
                row("", name, ms(seconds * of), ms(chunked * of), kb(ran.memory),
                    f"{ran.replied * of // len(requests):,} bytes")


main()
