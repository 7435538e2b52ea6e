"""What two ncclient sessions see of one server on the device of demo/device; checks/clients starts it behind sshd.

Prints a line for each answer that is not the one that is wanted, and then 'N passed, M failed'.
"""
import sys
import time

from ncclient import manager
from ncclient.operations import RPCError
from ncclient.transport.errors import SessionCloseError, TransportError
from ncclient.xml_ import to_ele

BASE = "urn:ietf:params:xml:ns:netconf:base:1.0"
PARTIAL = "urn:ietf:params:xml:ns:netconf:partial-lock:1.0"
ACM = "urn:ietf:params:xml:ns:yang:ietf-netconf-acm"
DEVICE = "urn:example:device"
counts = {True: 0, False: 0}


def says(what, got, wanted):
    counts[got == wanted] += 1
    if got != wanted:
        print(f"ncclient, many sessions: {what}: {got!r} and not {wanted!r}")


def refusal(call):
    """The tag of what refuses a call, or 'ok'."""
    try:
        call()
        return "ok"
    except RPCError as error:
        return error.tag


def connect():
    key, port, user = sys.argv[1:]
    return manager.connect(host="127.0.0.1", port=int(port), username=user, key_filename=key, hostkey_verify=False,
                           allow_agent=False, look_for_keys=False, timeout=60)


def rename(m, name):
    config = f'<config xmlns="{BASE}"><system xmlns="{DEVICE}"><hostname>{name}</hostname></system></config>'
    return refusal(lambda: m.edit_config(config, target="candidate"))


def name(m):
    reply = m.get_config("running", filter=("subtree", f'<system xmlns="{DEVICE}"><hostname/></system>'))
    return reply.data_ele.findtext(f".//{{{DEVICE}}}hostname")


def check_locks(one, two):
    says("a lock", refusal(lambda: one.lock("candidate")), "ok")
    says("a lock that another has", refusal(lambda: two.lock("candidate")), "lock-denied")
    says("an edit under another's lock", rename(two, "two"), "in-use")
    says("an edit under one's own", rename(one, "edge-2"), "ok")
    says("a commit", refusal(one.commit), "ok")
    says("which the other sees", name(two), "edge-2")
    says("an unlock", refusal(lambda: one.unlock("candidate")), "ok")


def check_partial_locks(one, two):
    call = to_ele(f'<partial-lock xmlns="{PARTIAL}"><select xmlns:d="{DEVICE}">/d:system</select></partial-lock>')
    reply = one.dispatch(call)
    lock = to_ele(reply.xml).findtext(f".//{{{PARTIAL}}}lock-id") or to_ele(reply.xml).findtext(".//{*}lock-id")
    says("a partial lock has a number", bool(lock), True)
    says("an edit of what is locked", rename(two, "two"), "ok")
    says("its commit", refusal(two.commit), "in-use")
    two.discard_changes()
    unlock = to_ele(f'<partial-unlock xmlns="{PARTIAL}"><lock-id>{lock}</lock-id></partial-unlock>')
    says("it is given back", refusal(lambda: one.dispatch(unlock)), "ok")


def check_confirmed_commits(one, two):
    says("an edit", rename(one, "edge-3"), "ok")
    says("a confirmed commit", refusal(lambda: one.commit(confirmed=True, timeout="1")), "ok")
    says("which the other sees", name(two), "edge-3")
    time.sleep(1.5)
    says("it is taken back", name(two), "edge-2")
    says("an edit", rename(one, "edge-4"), "ok")
    says("a confirmed commit", refusal(lambda: one.commit(confirmed=True)), "ok")
    says("its confirmation", refusal(one.commit), "ok")
    says("it stays", name(two), "edge-4")


def check_access(one, two):
    rules = '<rule-list nc:operation="delete"><name>administrators</name></rule-list>'
    config = f'<config xmlns="{BASE}"><nacm xmlns="{ACM}" xmlns:nc="{BASE}">{rules}</nacm></config>'
    says("an edit that takes its user's rights", refusal(lambda: one.edit_config(config, target="candidate")), "ok")
    says("its confirmed commit", refusal(lambda: one.commit(confirmed=True, timeout="1")), "ok")
    says("an edit without rights", rename(one, "edge-5"), "access-denied")
    says("a kill-session without rights", refusal(lambda: one.kill_session(two.session_id)), "access-denied")
    says("what may be read", name(two), "edge-4")
    time.sleep(1.5)
    says("an edit once the commit was taken back", rename(one, "edge-5"), "ok")
    says("and its end", refusal(one.discard_changes), "ok")


def check_ends(one, two):
    says("a lock", refusal(lambda: two.lock("running")), "ok")
    says("a session that is killed", refusal(lambda: one.kill_session(two.session_id)), "ok")
    try:
        two.get_config("running")
        says("it goes on", True, False)
    except (SessionCloseError, TransportError):
        says("it is over", True, True)
    says("its lock is free", refusal(lambda: one.lock("running")), "ok")
    says("close-session", refusal(one.close_session), "ok")


def main():
    one, two = connect(), connect()
    says("sessions have numbers of their own", one.session_id != two.session_id, True)
    for check in (check_locks, check_partial_locks, check_confirmed_commits, check_access, check_ends):
        check(one, two)
    print(f"{counts[True]} passed, {counts[False]} failed")
    sys.exit(1 if counts[False] else 0)


main()
