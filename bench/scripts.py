#!/usr/bin/env python3
"""Times `netconfd script` over long scripts: connections one after another, sessions that are killed, readings of the clock,
and one piece of up to 4 MB with many requests. A time is processor time of the program; memory is its peak.
A number after the program divides all sizes, for a trial.
Usage: bench/scripts.py [PROGRAM [DIVISOR]]
"""
import os
import subprocess
import tempfile

from payloads import BASE, SPACE, device, get_config, head, kb, module, ms, row, top, words

MARK = "]]>]]>"
HELLO = (f'<hello xmlns="{BASE}"><capabilities><capability>urn:ietf:params:netconf:base:1.0</capability></capabilities>'
         f"</hello>{MARK}")
MODULE = module("ex", "container users { list user { key name; leaf name { type string; } } }\n")
# A step of a script sends so many octets at most.
PIECE_LIMIT = 4_194_304


def rpc(operation):
    return f'<rpc xmlns="{BASE}" message-id="1">{operation}</rpc>{MARK}'


def send(connection, text):
    return f"send {connection} {len(text)}\n{text}\n"


def connections(count):
    return "".join(f"open {at} alice\nend {at}\n" for at in range(1, count + 1))


def kills(count):
    """One session kills each of so many others, which have said hello."""
    parts = ["recover 1 root\n", send(1, HELLO)]
    for at in range(2, count + 2):
        kill = rpc(f"<kill-session><session-id>{at}</session-id></kill-session>")
        parts.append(f"open {at} alice\n{send(at, HELLO)}{send(1, kill)}")
    return "".join(parts)


def readings(count):
    return "recover 1 root\n" + "".join(f"clock {at}\n" for at in range(1, count + 1))


def piece(octets):
    """So many octets of small requests in one piece."""
    request = rpc(get_config(top("users", "<user><name>none</name></user>")))
    return "recover 1 root\n" + send(1, HELLO + request * ((octets - len(HELLO)) // len(request)))


def scripts(by):
    for count in [10_000 // by, 100_000 // by]:
        yield f"{count:,} connections, one after another", connections(count)
    for count in [1_000 // by, 10_000 // by]:
        yield f"{count:,} sessions, each killed", kills(count)
    for count in [100_000 // by, 1_000_000 // by]:
        yield f"{count:,} readings of the clock", readings(count)
    for octets in [PIECE_LIMIT // (10 * by), PIECE_LIMIT // by]:
        yield f"one piece of {octets:,} octets", piece(octets)


def run(program, folder, script):
    """The seconds of processor time of a script, the peak of memory in kB, and how many octets it wrote."""
    with open(f"{folder}/script", "w") as file:
        file.write(script)
    with open(f"{folder}/told", "w") as told:
        made = subprocess.Popen([program, "script", folder, f"{folder}/script"], stdin=subprocess.DEVNULL, stdout=told)
        _, status, usage = os.wait4(made.pid, 0)
    made.returncode = os.waitstatus_to_exitcode(status)
    assert made.returncode == 0, made.returncode
    return usage.ru_utime + usage.ru_stime, usage.ru_maxrss, os.path.getsize(f"{folder}/told")


def main():
    program, chosen = words([1])
    head("What", "Octets of the script", "Time", "Memory", "Octets told")
    with tempfile.TemporaryDirectory() as room:
        folder = device(room, {"ex": MODULE}, "")
        for name, script in scripts(chosen[0]):
            seconds, memory, told = run(program, folder, script)
            row(name, f"{len(script):,}", ms(seconds), kb(memory), f"{told:,}")


main()
