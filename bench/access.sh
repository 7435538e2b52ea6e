#!/usr/bin/env bash
# Times `nc_nacm`: what a policy of so many rules takes to read, an `Access` to make, the rows of a configuration to hide, and
# the decisions on all its rows; with rules that name entries by their keys, with rules of which each gives other keys (of
# values of its own; all of one value, with rows that have it in one key too few; with one key that all give alike), with
# many groups in each of many rule-lists, and with many users in each of many groups.
set -euo pipefail
works=(
    # rules, and entries of three rows each
    'policy 1000 10000' 'policy 2000 10000' 'policy 10000 10000'
    'access 1000 0' 'access 10000 0'
    'visible 1000 10000' 'visible 10000 10000' 'visible 1000 30000'
    'may 1000 10000' 'may 10000 10000' 'may 1000 30000'
    'sees 1000 10000'
    # rules that give other keys each, and entries of one row each
    'shapes-policy 1000 0' 'shapes-policy 2000 0' 'shapes-policy 4000 0'
    'shapes-access 1000 0' 'shapes-access 2000 0' 'shapes-access 4000 0'
    'shapes-visible 250 10000' 'shapes-visible 1000 10000' 'shapes-visible 1000 30000' 'shapes-visible 4000 10000'
    'equal-visible 250 10000' 'equal-visible 1000 10000' 'equal-visible 2000 10000'
    'alike-visible 250 10000' 'alike-visible 1000 10000' 'alike-visible 2000 10000'
    'shapes-may 1000 10000' 'shapes-may 2000 10000' 'shapes-may 4000 10000'
    # rule-lists, and groups of each
    'lists-policy 300 0' 'lists-policy 1000 0' 'lists-access 300 0' 'lists-access 1000 0'
    # groups, and users of each
    'groups-policy 300 0' 'groups-policy 1000 0' 'groups-access 300 0' 'groups-access 1000 0'
    # as many rule-lists, each for as many groups, and groups; at last a decision without an `Access`
    'both-access 300 0' 'both-access 1000 0' 'both-plain 100 0' 'both-plain 300 0'
)
exec "$(dirname "$0")/program" access 'nc_names nc_schema nc_protocol nc_tree nc_nacm' "${works[@]}" <<'RT'
//! Times access control. A line of input has a number of turns, what is done in each, how many rules there are (or rule-lists
//! and groups of each, or groups and users of each), and how many entries.
#![tactic(auto)]

use nc_nacm::{Access, Policy};
use nc_names::{Many, Memory, Module, Path, QName, Right, Row, Step, Text};
use nc_protocol::{Peer, Rights, Sees};
use nc_schema::{Case, Choice, Deny, Kind, Node, Schema};
use nc_tree::Config;
use std::alloc::Global;
use std::io;

const CONTAINER: Kind = Kind::Container { presence: false };

/// Name, parent or 99, kind, how many of the nodes after it are its keys, default, case or 9.
type Entry = (&'static str, u32, Kind, u32, &'static str, u32);

const NODES: &[Entry] = &[
    ("nacm", 99, CONTAINER, 0, "", 9),
    ("enable-nacm", 0, Kind::Leaf, 0, "true", 9),
    ("read-default", 0, Kind::Leaf, 0, "permit", 9),
    ("write-default", 0, Kind::Leaf, 0, "deny", 9),
    ("exec-default", 0, Kind::Leaf, 0, "permit", 9),
    ("enable-external-groups", 0, Kind::Leaf, 0, "true", 9),
    ("groups", 0, CONTAINER, 0, "", 9),
    ("group", 6, Kind::List, 1, "", 9),
    ("name", 7, Kind::Leaf, 0, "", 9),
    ("user-name", 7, Kind::LeafList, 0, "", 9),
    ("rule-list", 0, Kind::List, 1, "", 9),
    ("name", 10, Kind::Leaf, 0, "", 9),
    ("group", 10, Kind::LeafList, 0, "", 9),
    ("rule", 10, Kind::List, 1, "", 9),
    ("name", 13, Kind::Leaf, 0, "", 9),
    ("module-name", 13, Kind::Leaf, 0, "*", 9),
    ("rpc-name", 13, Kind::Leaf, 0, "", 0),
    ("notification-name", 13, Kind::Leaf, 0, "", 1),
    ("path", 13, Kind::Leaf, 0, "", 2),
    ("access-operations", 13, Kind::Leaf, 0, "*", 9),
    ("action", 13, Kind::Leaf, 0, "", 9),
    ("comment", 13, Kind::Leaf, 0, "", 9),
    ("ports", 99, CONTAINER, 0, "", 9),
    ("port", 22, Kind::List, 1, "", 9),
    ("name", 23, Kind::Leaf, 0, "", 9),
    ("mtu", 23, Kind::Leaf, 0, "", 9),
    ("routes", 99, CONTAINER, 0, "", 9),
    ("route", 26, Kind::List, 12, "", 9),
    ("a", 27, Kind::Leaf, 0, "", 9),
    ("b", 27, Kind::Leaf, 0, "", 9),
    ("c", 27, Kind::Leaf, 0, "", 9),
    ("d", 27, Kind::Leaf, 0, "", 9),
    ("e", 27, Kind::Leaf, 0, "", 9),
    ("f", 27, Kind::Leaf, 0, "", 9),
    ("g", 27, Kind::Leaf, 0, "", 9),
    ("h", 27, Kind::Leaf, 0, "", 9),
    ("i", 27, Kind::Leaf, 0, "", 9),
    ("j", 27, Kind::Leaf, 0, "", 9),
    ("k", 27, Kind::Leaf, 0, "", 9),
    ("l", 27, Kind::Leaf, 0, "", 9),
];

fn text(alloc: Global, chars: &str) -> Result<Text, Memory> {
    Text::from_text(alloc, chars)
}

fn keys_after(alloc: Global, number: u32, count: u32) -> Result<Many<u32>, Memory> {
    let mut keys = Many::new(alloc);
    for at in 0..count {
        keys.push(number.wrapping_add(at).wrapping_add(1))?;
    }
    Ok(keys)
}

fn defaults_of(alloc: Global, default: &str) -> Result<Many<Text>, Memory> {
    let mut defaults = Many::new(alloc);
    if !default.is_empty() {
        defaults.push(text(alloc, default)?)?;
    }
    Ok(defaults)
}

fn cases_of(alloc: Global, case: u32) -> Result<Many<Case>, Memory> {
    let mut cases = Many::new(alloc);
    if case < 9 {
        cases.push(Case { choice: 0, case })?;
    }
    Ok(cases)
}

fn name_of(alloc: Global, name: &str, number: u32) -> Result<QName, Memory> {
    Ok(QName {
        space: text(alloc, if number < 22 { "urn:acm" } else { "urn:ex" })?,
        name: text(alloc, name)?,
    })
}

fn node_of(alloc: Global, entry: &Entry, number: u32) -> Result<Node, Memory> {
    Ok(Node {
        name: name_of(alloc, entry.0, number)?,
        module: if number < 22 { 0 } else { 1 },
        parent: if entry.1 == 99 { None } else { Some(entry.1) },
        kind: entry.2,
        kind_of_value: 0,
        keys: keys_after(alloc, number, entry.3)?,
        uniques: Many::new(alloc),
        mandatory: false,
        defaults: defaults_of(alloc, entry.4)?,
        least: 0,
        most: None,
        by_user: false,
        cases: cases_of(alloc, entry.5)?,
        deny: if number == 0 { Deny::All } else { Deny::Nothing },
    })
}

fn put_node(schema: &mut Schema, node: Node) -> Result<(), Memory> {
    let count = schema.nodes();
    if let Some(above) = node.parent
        && above >= count
    {
        return Ok(());
    }
    if count < 100 {
        schema.add_node(node)?;
    }
    Ok(())
}

fn put_module(alloc: Global, schema: &mut Schema, name: &str, space: &str) -> Result<(), Memory> {
    let module = Module {
        name: text(alloc, name)?,
        space: text(alloc, space)?,
        revision: Text::new(alloc),
        features: Many::new(alloc),
    };
    if schema.modules().len() < 100 {
        schema.add_module(module)?;
    }
    Ok(())
}

fn put_choice(alloc: Global, schema: &mut Schema) -> Result<(), Memory> {
    let choice = Choice {
        parent: Some(13),
        mandatory: false,
        default_case: None,
        within: Many::new(alloc),
    };
    if schema.choices().len() < 100 {
        schema.add_choice(choice)?;
    }
    Ok(())
}

fn fill(alloc: Global, schema: &mut Schema) -> Result<(), Memory> {
    put_module(alloc, schema, "ietf-netconf-acm", "urn:acm")?;
    put_module(alloc, schema, "ex", "urn:ex")?;
    put_choice(alloc, schema)?;
    for entry in NODES {
        let node = node_of(alloc, entry, schema.nodes())?;
        put_node(schema, node)?;
    }
    Ok(())
}

fn step(alloc: Global, node: u32, key: &str) -> Result<Step, Memory> {
    let mut keys = Many::new(alloc);
    if !key.is_empty() {
        keys.push(text(alloc, key)?)?;
    }
    Ok(Step { node, keys })
}

fn put(rows: &mut Many<Row>, steps: &[(u32, &str)], value: &str) -> Result<(), Memory> {
    let alloc = rows.alloc();
    let mut path = Many::new(alloc);
    for (node, key) in steps {
        path.push(step(alloc, *node, key)?)?;
    }
    let value = if value.is_empty() { None } else { Some(text(alloc, value)?) };
    rows.push(Row {
        path: Path { steps: path },
        value,
    })
}

fn put_group(rows: &mut Many<Row>, name: &str, users: u32) -> Result<(), Memory> {
    let alloc = rows.alloc();
    put(rows, &[(0, ""), (6, ""), (7, name)], "")?;
    put(rows, &[(0, ""), (6, ""), (7, name), (8, "")], name)?;
    put(rows, &[(0, ""), (6, ""), (7, name), (9, "alice")], "alice")?;
    for at in 0..users {
        let user = format!(in alloc; "user-{at}")?;
        put(rows, &[(0, ""), (6, ""), (7, name), (9, user.as_str())], user.as_str())?;
    }
    Ok(())
}

// A group without the user who asks.
fn put_other_group(rows: &mut Many<Row>, name: &str) -> Result<(), Memory> {
    put(rows, &[(0, ""), (6, ""), (7, name)], "")?;
    put(rows, &[(0, ""), (6, ""), (7, name), (8, "")], name)?;
    put(rows, &[(0, ""), (6, ""), (7, name), (9, "bob")], "bob")
}

fn put_other_groups(rows: &mut Many<Row>, count: u32) -> Result<(), Memory> {
    let alloc = rows.alloc();
    for at in 0..count {
        let name = format!(in alloc; "group-{at}")?;
        put_other_group(rows, name.as_str())?;
    }
    Ok(())
}

fn put_list(rows: &mut Many<Row>, name: &str, groups: u32) -> Result<(), Memory> {
    let alloc = rows.alloc();
    put(rows, &[(0, ""), (10, name)], "")?;
    put(rows, &[(0, ""), (10, name), (11, "")], name)?;
    for at in 0..groups {
        let group = format!(in alloc; "group-{at}")?;
        put(rows, &[(0, ""), (10, name), (12, group.as_str())], group.as_str())?;
    }
    put(rows, &[(0, ""), (10, name), (12, "g")], "g")
}

fn put_rule(rows: &mut Many<Row>, name: &str, path: &str) -> Result<(), Memory> {
    put(rows, &[(0, ""), (10, "l"), (13, name)], "")?;
    put(rows, &[(0, ""), (10, "l"), (13, name), (14, "")], name)?;
    put(rows, &[(0, ""), (10, "l"), (13, name), (18, "")], path)?;
    put(rows, &[(0, ""), (10, "l"), (13, name), (19, "")], "read update")?;
    put(rows, &[(0, ""), (10, "l"), (13, name), (20, "")], "permit")
}

/// A path that gives the keys whose bits are in a number.
fn path_of(alloc: Global, number: u32, value: &str) -> Result<String, Memory> {
    let mut path = String::from_str(alloc, "/ex:routes/ex:route")?;
    let mut rest = number;
    for key in "abcdefghijkl".chars() {
        if rest % 2 == 1 {
            let part = format!(in alloc; "[ex:{key}='{value}']")?;
            path.push_str(part.as_str())?;
        }
        rest /= 2;
    }
    Ok(path)
}

/// The next number that has so many of twelve bits, or more.
fn next_of(number: u32, bits: u32) -> u32 {
    for more in 1..4096u32 {
        let next = number.wrapping_add(more) % 4096;
        if next.count_ones() >= bits {
            return next;
        }
    }
    number
}

/// The path of the rule after one that gives the keys of a number, and its own number.
fn path_after(alloc: Global, kind: &str, number: u32) -> Result<(String, u32), Memory> {
    if kind.starts_with("equal") {
        let next = next_of(number, 6);
        return Ok((path_of(alloc, next, "x")?, next));
    }
    let next = number.wrapping_add(1);
    if kind.starts_with("alike") {
        return Ok((path_of(alloc, next.wrapping_mul(2).wrapping_add(1), "x")?, next));
    }
    let value = format!(in alloc; "{next}")?;
    Ok((path_of(alloc, next, value.as_str())?, next))
}

fn put_shapes(rows: &mut Many<Row>, count: u32, kind: &str) -> Result<(), Memory> {
    let alloc = rows.alloc();
    let mut number = 0u32;
    for at in 0..count {
        let name = format!(in alloc; "p{at}")?;
        let (path, next) = path_after(alloc, kind, number)?;
        number = next;
        put_rule(rows, name.as_str(), path.as_str())?;
    }
    Ok(())
}

fn put_rules(rows: &mut Many<Row>, count: u32) -> Result<(), Memory> {
    let alloc = rows.alloc();
    for at in 0..count {
        let name = format!(in alloc; "p{at}")?;
        let path = format!(in alloc; "/ex:ports/ex:port[ex:name='p{at}']")?;
        put_rule(rows, name.as_str(), path.as_str())?;
    }
    Ok(())
}

fn put_ports(rows: &mut Many<Row>, count: u32) -> Result<(), Memory> {
    let alloc = rows.alloc();
    for at in 0..count {
        let name = format!(in alloc; "p{at}")?;
        put(rows, &[(22, ""), (23, name.as_str())], "")?;
        put(rows, &[(22, ""), (23, name.as_str()), (24, "")], name.as_str())?;
        put(rows, &[(22, ""), (23, name.as_str()), (25, "")], "1500")?;
    }
    Ok(())
}

// The value of a key of a route: its name, or x in the keys whose bits are in a number.
fn put_key(keys: &mut Many<Text>, kind: &str, name: &str, number: u32, at: u32) -> Result<(), Memory> {
    let alloc = keys.alloc();
    if kind.starts_with("shapes") {
        return keys.push(text(alloc, name)?);
    }
    let one = number.wrapping_shr(at) % 2 == 1;
    keys.push(text(alloc, if one { "x" } else { name })?)
}

fn put_route(rows: &mut Many<Row>, kind: &str, name: &str, number: u32) -> Result<(), Memory> {
    let alloc = rows.alloc();
    let mut keys = Many::new(alloc);
    for at in 0..12u32 {
        put_key(&mut keys, kind, name, number, at)?;
    }
    let mut path = Many::new(alloc);
    path.push(step(alloc, 26, "")?)?;
    path.push(Step { node: 27, keys })?;
    rows.push(Row {
        path: Path { steps: path },
        value: None,
    })
}

/// The next number of five of twelve bits.
fn next_five(number: u32) -> u32 {
    for more in 1..4096u32 {
        let next = number.wrapping_add(more) % 4096;
        if next.count_ones() == 5 {
            return next;
        }
    }
    number
}

fn put_routes(rows: &mut Many<Row>, kind: &str, count: u32) -> Result<(), Memory> {
    let alloc = rows.alloc();
    let mut number = 0u32;
    for at in 0..count {
        let name = format!(in alloc; "r{at}")?;
        number = next_five(number);
        let has = if kind.starts_with("equal") { number } else { 1 };
        put_route(rows, kind, name.as_str(), has)?;
    }
    Ok(())
}

fn is_of_shapes(kind: &str) -> bool {
    kind.starts_with("shapes") || kind.starts_with("equal") || kind.starts_with("alike")
}

/// Rows of access control.
fn put_nacm(rows: &mut Many<Row>, kind: &str, size: u32) -> Result<(), Memory> {
    let alloc = rows.alloc();
    if kind.starts_with("groups") {
        for at in 0..size {
            let name = format!(in alloc; "h{at}")?;
            put_group(rows, name.as_str(), size)?;
        }
    }
    if kind.starts_with("both") {
        put_other_groups(rows, size)?;
    }
    put_group(rows, "g", 0)?;
    if kind.starts_with("lists") || kind.starts_with("both") {
        for at in 0..size {
            let name = format!(in alloc; "l{at}")?;
            put_list(rows, name.as_str(), size)?;
        }
        return Ok(());
    }
    put_list(rows, "l", 0)?;
    if kind.starts_with("groups") {
        return Ok(());
    }
    if is_of_shapes(kind) {
        return put_shapes(rows, size, kind);
    }
    put_rules(rows, size)
}

fn config(alloc: Global, kind: &str, size: u32, ports: u32) -> Result<Config, Memory> {
    let mut rows = Many::new(alloc);
    put_nacm(&mut rows, kind, size)?;
    if is_of_shapes(kind) {
        put_routes(&mut rows, kind, ports)?;
    } else {
        put_ports(&mut rows, ports)?;
    }
    Config::from_rows(rows)
}

fn peer(alloc: Global) -> Result<Peer, Memory> {
    Ok(Peer {
        user: text(alloc, "alice")?,
        groups: Many::new(alloc),
        recovery: false,
    })
}

fn asked(access: &Access<'_>, alloc: Global, config: &Config) -> Result<u64, Memory> {
    let mut permitted: u64 = 0;
    for row in config.rows(alloc)?.as_slice() {
        if access.may(&row.path, Right::Update)?.permit {
            permitted = permitted.wrapping_add(1);
        }
    }
    Ok(permitted)
}

fn seen(access: &Access<'_>, alloc: Global, config: &Config) -> Result<u64, Memory> {
    let mut seen: u64 = 0;
    for row in config.rows(alloc)?.as_slice() {
        if access.sees(&row.path) {
            seen = seen.wrapping_add(1);
        }
    }
    Ok(seen)
}

fn read_often(alloc: Global, schema: &Schema, config: &Config, times: u32) -> Result<u64, Memory> {
    let peer = peer(alloc)?;
    let mut open: u64 = 0;
    for _ in 0..times {
        if Policy::of(alloc, schema, config)?.is_open(&peer) {
            open = open.wrapping_add(1);
        }
    }
    Ok(open)
}

fn made_often(alloc: Global, schema: &Schema, policy: &Policy, times: u32) -> Result<u64, Memory> {
    let peer = peer(alloc)?;
    let mut made: u64 = 0;
    for _ in 0..times {
        let _access = policy.access(alloc, schema, &peer)?;
        made = made.wrapping_add(1);
    }
    Ok(made)
}

// Whether a port is seen, without an `Access`.
fn seen_plainly(alloc: Global, schema: &Schema, policy: &Policy, times: u32) -> Result<u64, Memory> {
    let peer = peer(alloc)?;
    let mut rows = Many::new(alloc);
    put_ports(&mut rows, 1)?;
    let mut seen: u64 = 0;
    for _ in 0..times {
        for row in rows.as_slice() {
            if policy.may_see(schema, &peer, &row.path) {
                seen = seen.wrapping_add(1);
            }
        }
    }
    Ok(seen)
}

fn once(access: &Access<'_>, alloc: Global, kind: &str, config: &Config) -> Result<u64, Memory> {
    if kind.ends_with("may") {
        return asked(access, alloc, config);
    }
    if kind.ends_with("sees") {
        return seen(access, alloc, config);
    }
    Ok(access.visible(alloc, config)?.len())
}

fn asked_often(
    alloc: Global,
    schema: &Schema,
    policy: &Policy,
    config: &Config,
    kind: &str,
    times: u32,
) -> Result<u64, Memory> {
    let peer = peer(alloc)?;
    let access = policy.access(alloc, schema, &peer)?;
    let mut found: u64 = 0;
    for _ in 0..times {
        found = once(&access, alloc, kind, config)?;
    }
    Ok(found)
}

fn work(alloc: Global, times: u32, kind: &str, size: u32, ports: u32) -> Result<u64, Memory> {
    let mut schema = Schema::new(alloc);
    fill(alloc, &mut schema)?;
    let config = config(alloc, kind, size, ports)?;
    if kind.ends_with("policy") {
        return read_often(alloc, &schema, &config, times);
    }
    let policy = Policy::of(alloc, &schema, &config)?;
    if kind.ends_with("access") {
        return made_often(alloc, &schema, &policy, times);
    }
    if kind.ends_with("plain") {
        return seen_plainly(alloc, &schema, &policy, times);
    }
    asked_often(alloc, &schema, &policy, &config, kind, times)
}

fn number(words: &[&str], at: usize) -> u32 {
    match words.get(at) {
        Some(word) => word.parse::<u32>().unwrap_or(0),
        None => 0,
    }
}

fn word<'a>(words: &[&'a str], at: usize) -> &'a str {
    match words.get(at) {
        Some(word) => *word,
        None => "",
    }
}

fn done(alloc: Global, line: &str) -> Result<u64, Memory> {
    let mut words = Vec::new(alloc);
    for word in line.split(' ') {
        words.push(word)?;
    }
    let words = words.as_slice();
    work(alloc, number(words, 0), word(words, 1), number(words, 2), number(words, 3))
}

fn main(rt: HostRuntime) -> io::Result<()> {
    let alloc = rt.alloc();
    for line in rt.lines(alloc) {
        match done(alloc, line?.as_str()) {
            Ok(count) => println!(rt; "{count}")?,
            Err(_) => println!(rt; "out of memory")?,
        }
    }
    Ok(())
}
RT
