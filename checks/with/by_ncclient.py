"""What ncclient sees of netconfd on the device of demo/device; checks/clients starts it behind sshd.

Prints a line for each answer that is not the one that is wanted, and then 'N passed, M failed'.
"""
import sys

from lxml import etree
from ncclient import manager
from ncclient.operations import RPCError
from ncclient.xml_ import to_ele

BASE = "urn:ietf:params:xml:ns:netconf:base:1.0"
YANG = "urn:ietf:params:xml:ns:yang:1"
DEVICE = "urn:example:device"
ROUTING = "urn:example:routing"
counts = {True: 0, False: 0}


def says(what, got, wanted):
    counts[got == wanted] += 1
    if got != wanted:
        print(f"ncclient: {what}: {got!r} and not {wanted!r}")


def refusal(call):
    """The tag, app-tag and last name of the path of what refuses a call, or 'ok'."""
    try:
        call()
        return "ok"
    except RPCError as error:
        last = (error.path or "").rsplit(":", 1)[-1]
        return " ".join(part for part in (error.tag, error.app_tag, last) if part)


def config(inner):
    return f'<config xmlns="{BASE}" xmlns:nc="{BASE}" xmlns:yang="{YANG}">{inner}</config>'


def interfaces(inner):
    return f'<interfaces xmlns="{DEVICE}">{inner}</interfaces>'


def ports(*names, operation=""):
    said = f' nc:operation="{operation}"' if operation else ""
    return "".join(f"<interface{said}><name>{n}</name><type>ethernet</type></interface>" for n in names)


def gone(name):
    return f'<interface nc:operation="delete"><name>{name}</name></interface>'


def names(m, source="candidate", of="interface"):
    reply = m.get_config(source)
    return [it.findtext(f"{{{DEVICE}}}name") for it in reply.data_ele.iter(f"{{{DEVICE}}}{of}")]


def texts(m, path, source="candidate"):
    return [it.text for it in m.get_config(source).data_ele.iterfind(".//" + "/".join(f"{{{DEVICE}}}{p}" for p in path))]


def edit(m, inner, **how):
    return refusal(lambda: m.edit_config(config(inner), target="candidate", **how))


def check_reading(m):
    says("get", names_of(m.get()), ["ge-0", "lo"])
    says("running", names(m, "running"), ["ge-0", "lo"])
    says("candidate", names(m, "candidate"), ["ge-0", "lo"])
    for what, inner, wanted in [
        ("an entry by its key", interfaces("<interface><name>lo</name></interface>"), ["lo"]),
        ("entries by a leaf", interfaces("<interface><mtu>9000</mtu></interface>"), ["ge-0"]),
        ("a leaf of each entry", interfaces("<interface><mtu/></interface>"), ["ge-0"]),
        ("a container", f'<users xmlns="{DEVICE}"/>', []),
        ("what is not there", interfaces("<interface><name>nope</name></interface>"), []),
    ]:
        says(f"filter: {what}", names_of(m.get_config("running", filter=("subtree", inner))), wanted)
        says(f"get, filter: {what}", names_of(m.get(filter=("subtree", inner))), wanted)
    says("startup", refusal(lambda: m.get_config("startup")), "operation-not-supported")


def names_of(reply):
    return [it.findtext(f"{{{DEVICE}}}name") for it in reply.data_ele.iter(f"{{{DEVICE}}}interface")]


DEFAULTS = [None, "merge", "replace", "none"]
TESTS = [None, "test-then-set", "set", "test-only"]
ERRORS = [None, "stop-on-error", "continue-on-error", "rollback-on-error"]


def left(start, test, error):
    """The ports after the edits 'create a, delete b which is not there, create c'."""
    made = {"continue-on-error": ["a", "c"], "rollback-on-error": []}.get(error, ["a"])
    return sorted(start + ([] if test == "test-only" else made))


def check_options(m):
    for default in DEFAULTS:
        for test in TESTS:
            for error in ERRORS:
                how = {"default_operation": default, "test_option": test, "error_option": error}
                told = " ".join(str(it) for it in how.values())
                m.discard_changes()
                inner = ports("a", operation="create") + gone("b") + ports("c", operation="create")
                root = interfaces(inner)
                start = ["ge-0", "lo"]
                if default == "replace":
                    # the interfaces are not to be replaced themselves
                    root = root.replace("<interfaces ", '<interfaces nc:operation="merge" ')
                says(f"edit {told}", edit(m, root, **how), "data-missing name='b']")
                says(f"after edit {told}", names(m), left(start, test, error))
                m.discard_changes()
                bad = interfaces("<interface><name>x</name></interface>").replace(
                    "<interfaces ", '<interfaces nc:operation="merge" '
                )
                refused = "data-missing type" if test in ("test-then-set", "test-only") else "ok"
                says(f"invalid edit {told}", edit(m, bad, **how), refused)
                kept = ["ge-0", "lo"] + (["x"] if refused == "ok" else [])
                says(f"after invalid edit {told}", names(m), kept)
    m.discard_changes()


def check_operations(m):
    says("create", edit(m, interfaces(ports("a", operation="create"))), "ok")
    says("create again", edit(m, interfaces(ports("a", operation="create"))), "data-exists name='a']")
    says("delete", edit(m, interfaces(gone("a"))), "ok")
    says("delete again", edit(m, interfaces(gone("a"))), "data-missing name='a']")
    says("remove", edit(m, interfaces(gone("a").replace("delete", "remove"))), "ok")
    says("replace", edit(m, interfaces(ports("p")), default_operation="replace"), "ok")
    says("after replace", names(m), ["p"])
    m.discard_changes()
    says("an unknown element", edit(m, interfaces("<port/>")), "unknown-element interfaces")
    says("an unknown namespace", edit(m, '<a xmlns="urn:nope"/>'), "unknown-namespace")
    says("a bad value", edit(m, interfaces("<interface><name>x</name><mtu>1</mtu></interface>")), "invalid-value mtu")
    says("a missing key", edit(m, interfaces("<interface><mtu>100</mtu></interface>")), "missing-element interface")
    server = f'<system xmlns="{DEVICE}"><ntp><server {{}}>{{}}</server></ntp></system>'
    says("insert first", edit(m, server.format('yang:insert="first"', "time.example")), "ok")
    says("insert after", edit(m, server.format('yang:insert="after" yang:value="time.example"', "1.2.3.4")), "ok")
    says("the servers", texts(m, ["ntp", "server"]), ["time.example", "1.2.3.4", "192.0.2.123"])
    says("a fifth server", edit(m, "".join(server.format("", f"s{n}") for n in (1, 2))), "ok")
    says("is too many", refusal(m.commit), "operation-failed too-many-elements server")
    m.discard_changes()
    says("a choice", edit(m, interfaces("<interface><name>ge-0</name><megabits>100</megabits></interface>")), "ok")
    says("another case", edit(m, interfaces("<interface><name>ge-0</name><negotiate/></interface>")), "ok")
    says("the first case", texts(m, ["interface", "megabits"]), [])
    m.discard_changes()


def check_commits(m):
    user = f'<users xmlns="{DEVICE}"><user><name>bob</name><uid>1000</uid></user></users>'
    says("a number that is taken", edit(m, user), "ok")
    says("validate", refusal(lambda: m.validate("candidate")), "operation-failed data-not-unique name='bob']")
    says("commit", refusal(m.commit), "operation-failed data-not-unique name='bob']")
    says("running", names(m, "running", "user"), ["alice"])
    says("a free number", edit(m, user.replace("1000", "1001")), "ok")
    says("commit", refusal(m.commit), "ok")
    says("running", names(m, "running", "user"), ["alice", "bob"])
    route = f'<routing xmlns="{ROUTING}"><static-route><destination>1.1.1.0</destination><prefix-length>24</prefix-length>'
    over = route + "<interface>{}</interface></static-route></routing>"
    says("a route over no port", edit(m, over.format("ge-5")), "ok")
    says("commit", refusal(m.commit), "data-missing instance-required interface")
    says("discard-changes", refusal(m.discard_changes), "ok")
    says("a route over a port", edit(m, over.format("ge-0")), "ok")
    says("commit", refusal(m.commit), "ok")
    says("a route to nowhere", edit(m, (route + "</static-route></routing>").replace("1.1.1.0", "1.1.2.0")), "ok")
    says("commit", refusal(m.commit), "data-missing missing-choice prefix-length='24']")
    m.discard_changes()
    says("delete what a route needs", edit(m, interfaces(gone("ge-0"))), "ok")
    says("commit", refusal(m.commit), "data-missing instance-required interface")
    m.discard_changes()
    says("validate running", refusal(lambda: m.validate("running")), "ok")
    inline = etree.fromstring(config(f'<system xmlns="{DEVICE}"/>'))
    says("validate a text", refusal(lambda: m.validate(inline)), "data-missing hostname")


def check_others(m):
    says("copy to the candidate", refusal(lambda: m.copy_config("running", "candidate")), "ok")
    says("copy to itself", refusal(lambda: m.copy_config("candidate", "candidate")), "invalid-value")
    says("copy to running", refusal(lambda: m.copy_config("candidate", "running")), "operation-not-supported")
    says("a note in many scripts", edit(m, interfaces(
        "<interface><name>ge-0</name><description>&lt;é漢😀&gt; &amp; ]]&gt;]]&gt;</description></interface>")), "ok")
    says("the note", texts(m, ["interface", "description"]), ["<é漢😀> & ]]>]]>"])
    many = ports("ge-0", *(f"p{n:05}" for n in range(9999)))
    whole = interfaces(many).replace("<interfaces ", '<interfaces nc:operation="replace" ')
    says("ten thousand ports", edit(m, whole), "ok")
    says("all of them", len(names(m)), 10000)
    says("commit", refusal(m.commit), "ok")
    for what, wanted in [
        ("<lock><target><candidate/></target></lock>", "ok"),
        ("<unlock><target><candidate/></target></unlock>", "ok"),
        ("<kill-session><session-id>2</session-id></kill-session>", "invalid-value"),
        ("<cancel-commit/>", "operation-failed"),
        ("<delete-config><target><running/></target></delete-config>", "operation-not-supported"),
        ("<edit-config><target><running/></target><config/></edit-config>", "operation-not-supported"),
    ]:
        call = to_ele(what.replace(">", f' xmlns="{BASE}">', 1) if "/>" != what[-2:] else what[:-2] + f' xmlns="{BASE}"/>')
        says(what, refusal(lambda: m.dispatch(call)), wanted)


def main():
    key, port, user = sys.argv[1:]
    m = manager.connect(host="127.0.0.1", port=int(port), username=user, key_filename=key, hostkey_verify=False,
                        allow_agent=False, look_for_keys=False, timeout=60)
    said = list(m.server_capabilities)
    says("base:1.1", "urn:ietf:params:netconf:base:1.1" in said, True)
    says("candidate", "urn:ietf:params:netconf:capability:candidate:1.0" in said, True)
    for check in (check_reading, check_options, check_operations, check_commits, check_others):
        check(m)
    says("close-session", refusal(m.close_session), "ok")
    print(f"{counts[True]} passed, {counts[False]} failed")
    sys.exit(1 if counts[False] else 0)


main()
