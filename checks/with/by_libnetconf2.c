/* What libnetconf2 sees of netconfd on the device of demo/device; checks/clients starts it behind sshd. Words: the folder of
 * the modules, the user, the public key, the private key, the port, and how many sessions there may be. Prints 'N passed,
 * M failed' last. */
#include <stdio.h>
#include <stdlib.h>
#include <string.h>
#include <unistd.h>

#include <libyang/libyang.h>
#include <nc_client.h>

static int passed, failed;

static int accept_key(const char *host, ssh_session ssh, void *unused)
{
    (void)host, (void)ssh, (void)unused;
    return 0;
}

/* Sends a request, and looks for a text in the reply as libyang prints it. */
static void wants(struct nc_session *session, const char *what, struct nc_rpc *rpc, const char *wanted)
{
    struct lyd_node *envelope = NULL, *content = NULL;
    char *text = NULL;
    uint64_t id;

    if (rpc && nc_send_rpc(session, rpc, 10000, &id) == NC_MSG_RPC &&
            nc_recv_reply(session, rpc, id, 10000, &envelope, &content) == NC_MSG_REPLY) {
        lyd_print_mem(&text, content ? content : envelope, LYD_XML, LYD_PRINT_SHRINK);
    }
    if (text && strstr(text, wanted)) {
        passed++;
    } else {
        failed++;
        printf("libnetconf2: %s: %s has no %s\n", what, text ? text : "(no reply)", wanted);
    }
    free(text);
    lyd_free_all(envelope);
    lyd_free_all(content);
    nc_rpc_free(rpc);
}

static struct nc_rpc *edit(NC_RPC_EDIT_TESTOPT test, NC_RPC_EDIT_ERROPT error, const char *inner)
{
    char text[1000];

    snprintf(text, sizeof text, "<interfaces xmlns=\"urn:example:device\"><interface>%s</interface></interfaces>", inner);
    return nc_rpc_edit(NC_DATASTORE_CANDIDATE, NC_RPC_EDIT_DFLTOP_MERGE, test, error, text, NC_PARAMTYPE_DUP_AND_FREE);
}

static struct nc_rpc *running(const char *filter)
{
    return nc_rpc_getconfig(NC_DATASTORE_RUNNING, filter, NC_WD_UNKNOWN, NC_PARAMTYPE_CONST);
}

static struct nc_rpc *rename_to(const char *name)
{
    char text[200];

    snprintf(text, sizeof text, "<system xmlns=\"urn:example:device\"><hostname>%s</hostname></system>", name);
    return nc_rpc_edit(NC_DATASTORE_CANDIDATE, NC_RPC_EDIT_DFLTOP_MERGE, NC_RPC_EDIT_TESTOPT_SET, NC_RPC_EDIT_ERROPT_STOP, text,
            NC_PARAMTYPE_DUP_AND_FREE);
}

static struct nc_rpc *commit(int confirmed, uint32_t seconds)
{
    return nc_rpc_commit(confirmed, seconds, NULL, NULL, NC_PARAMTYPE_CONST);
}

/* Two sessions: a lock, a commit that is taken back and one that is confirmed, and a session that is killed. */
static void check_two(struct nc_session *one, struct nc_session *two)
{
    const char *name = "<system xmlns=\"urn:example:device\"><hostname/></system>";

    wants(one, "lock", nc_rpc_lock(NC_DATASTORE_CANDIDATE), "<ok/>");
    wants(two, "a lock that another has", nc_rpc_lock(NC_DATASTORE_CANDIDATE), "lock-denied");
    wants(two, "an edit under another's lock", rename_to("two"), "in-use");
    wants(one, "an edit under one's own", rename_to("edge-2"), "<ok/>");
    wants(one, "a confirmed commit", commit(1, 1), "<ok/>");
    wants(two, "which the other sees", running(name), "edge-2");
    wants(two, "and may not follow", commit(0, 0), "in-use");
    usleep(1500000);
    wants(two, "it is taken back", running(name), "edge-1");
    wants(one, "an edit", rename_to("edge-3"), "<ok/>");
    wants(one, "a confirmed commit", commit(1, 60), "<ok/>");
    wants(one, "its confirmation", commit(0, 0), "<ok/>");
    wants(two, "it stays", running(name), "edge-3");
    wants(one, "unlock", nc_rpc_unlock(NC_DATASTORE_CANDIDATE), "<ok/>");
    wants(two, "lock", nc_rpc_lock(NC_DATASTORE_RUNNING), "<ok/>");
    wants(one, "kill-session", nc_rpc_kill(nc_session_get_id(two)), "<ok/>");
    wants(one, "its lock is free", nc_rpc_lock(NC_DATASTORE_RUNNING), "<ok/>");
}

/* Rights that a confirmed commit takes away, and that come back with its end. */
static void check_access(struct nc_session *s)
{
    const char *rules = "<nacm xmlns=\"urn:ietf:params:xml:ns:yang:ietf-netconf-acm\"><rule-list "
            "xmlns:nc=\"urn:ietf:params:xml:ns:netconf:base:1.0\" nc:operation=\"delete\"><name>administrators</name></rule-list>"
            "</nacm>";

    wants(s, "an edit that takes its user's rights", nc_rpc_edit(NC_DATASTORE_CANDIDATE, NC_RPC_EDIT_DFLTOP_MERGE,
            NC_RPC_EDIT_TESTOPT_SET, NC_RPC_EDIT_ERROPT_STOP, rules, NC_PARAMTYPE_CONST), "<ok/>");
    wants(s, "its confirmed commit", commit(1, 1), "<ok/>");
    wants(s, "an edit without rights", rename_to("edge-4"), "access-denied");
    usleep(1500000);
    wants(s, "an edit once the commit was taken back", rename_to("edge-4"), "<ok/>");
    wants(s, "discard-changes", nc_rpc_discard(), "<ok/>");
}

int main(int count, char **words)
{
    const char *ports = "<interfaces xmlns=\"urn:example:device\"/>", *port = "<name>ge-9</name><type>ethernet</type>";
    struct nc_session *s, *other;

    if (count != 7) {
        return 2;
    }
    nc_client_init();
    nc_client_set_schema_searchpath(words[1]);
    nc_client_ssh_set_username(words[2]);
    nc_client_ssh_add_keypair(words[3], words[4]);
    nc_client_ssh_set_auth_pref(NC_SSH_AUTH_PUBLICKEY, 3);
    nc_client_ssh_set_auth_hostkey_check_clb(accept_key, NULL);
    s = nc_connect_ssh("127.0.0.1", (uint16_t)atoi(words[5]), NULL);
    other = s && atoi(words[6]) > 1 ? nc_connect_ssh("127.0.0.1", (uint16_t)atoi(words[5]), NULL) : NULL;
    if (!s || (atoi(words[6]) > 1 && !other)) {
        printf("libnetconf2: no session\n0 passed, 1 failed\n");
        return 1;
    }
    wants(s, "get", nc_rpc_get(NULL, NC_WD_UNKNOWN, NC_PARAMTYPE_CONST), "<hostname>edge-1</hostname>");
    wants(s, "get-config", running(ports), "<name>ge-0</name>");
    wants(s, "edit-config", edit(NC_RPC_EDIT_TESTOPT_TESTSET, NC_RPC_EDIT_ERROPT_ROLLBACK, port), "<ok/>");
    wants(s, "a bad value", edit(NC_RPC_EDIT_TESTOPT_SET, NC_RPC_EDIT_ERROPT_STOP, "<name>a</name><mtu>1</mtu>"), "invalid-value");
    wants(s, "validate", nc_rpc_validate(NC_DATASTORE_CANDIDATE, NULL, NC_PARAMTYPE_CONST), "<ok/>");
    wants(s, "commit", nc_rpc_commit(0, 0, NULL, NULL, NC_PARAMTYPE_CONST), "<ok/>");
    wants(s, "running", running(ports), "<name>ge-9</name>");
    wants(s, "no type", edit(NC_RPC_EDIT_TESTOPT_SET, NC_RPC_EDIT_ERROPT_STOP, "<name>bare</name>"), "<ok/>");
    wants(s, "commit", nc_rpc_commit(0, 0, NULL, NULL, NC_PARAMTYPE_CONST), "data-missing");
    wants(s, "discard-changes", nc_rpc_discard(), "<ok/>");
    wants(s, "copy-config", nc_rpc_copy(NC_DATASTORE_CANDIDATE, NULL, NC_DATASTORE_RUNNING, NULL, NC_WD_UNKNOWN, NC_PARAMTYPE_CONST),
            "<ok/>");
    wants(s, "discard-changes", nc_rpc_discard(), "<ok/>");
    if (other) {
        check_two(s, other);
        nc_session_free(other, NULL);
    }
    check_access(s);
    nc_session_free(s, NULL);
    nc_client_destroy();
    printf("%d passed, %d failed\n", passed, failed);
    return failed != 0;
}
