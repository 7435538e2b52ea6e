#!/usr/bin/env bash
# Times partial locks, of 64 sessions: how long it takes to grant them all and to end the sessions, to grant and to release
# one lock more beside them, to tell of so many changed nodes which lock covers each, and what a request with so many
# selects takes: they are read, looked for in a configuration, and their nodes are locked and released.
set -euo pipefail
works=(
    # locks, and nodes of each
    'held 4096 1 0' 'held 4096 8 0' 'held 64 512 0'
    # the same, and nodes of one lock more
    'more 4096 8 1' 'more 4096 8 1000' 'more 4096 8 10000' 'more 4096 8 30000'
    # the same, and changed nodes, which the locks cover or not
    'covered 4096 8 1000' 'covered 4096 8 10000' 'covered 4096 8 30000'
    'apart 4096 8 1000' 'apart 4096 8 10000' 'apart 4096 8 30000'
    # the same, and selects of as many entries, of three rows each, and of a leaf in each
    'selects 4096 8 1000' 'selects 4096 8 10000' 'selects 4096 8 30000' 'selects 4096 8 60000'
)
exec "$(dirname "$0")/program" locks 'nc_names nc_message nc_schema nc_protocol nc_tree nc_partial' "${works[@]}" <<'RT'
//! Times partial locks over the entries of a list in a container. A line of input has a number of turns, what is done in
//! each, how many locks are held, how many nodes each of them has, and a size.
#![tactic(auto)]
ghost use Rattle.std.specs.Prelude.{ℕ, IfOk};
ghost use Rattle.nc_schema.specs.Tables.{NamesPatterns};

use nc_message::Bounds;
use nc_names::{Bound, Copies, Many, Memory, Module, Path, QName, Row, Step, Text};
use nc_partial::{PartialLocks, nodes_seen, paths_selected};
use nc_protocol::{Select, Unchecked};
use nc_schema::{Between, Deny, Kind, Node, Schema, ValueType};
use nc_tree::Config;
use std::alloc::Global;
use std::io;

// So many sessions hold locks.
const SESSIONS: u32 = 64;

// Nodes that no lock has are numbered from here on.
const APART: u32 = 5_000_000;

/// Name, the number of the node above or 99, kind, the number of its key or 99.
const NODES: &[(&str, u32, Kind, u32)] = &[
    ("ports", 99, Kind::Container { presence: false }, 99),
    ("port", 0, Kind::List, 2),
    ("name", 1, Kind::Leaf, 99),
    ("mtu", 1, Kind::Leaf, 99),
];

fn text(alloc: Global, chars: &str) -> Result<Text, Memory> {
    Text::from_text(alloc, chars)
}

fn keys_of(alloc: Global, key: u32) -> Result<Many<u32>, Memory> {
    let mut keys = Many::new(alloc);
    if key != 99 {
        keys.push(key)?;
    }
    Ok(keys)
}

fn name_of(alloc: Global, name: &str) -> Result<QName, Memory> {
    Ok(QName {
        space: text(alloc, "urn:ex")?,
        name: text(alloc, name)?,
    })
}

fn node_of(alloc: Global, entry: &(&str, u32, Kind, u32)) -> Result<Node, Memory> {
    Ok(Node {
        name: name_of(alloc, entry.0)?,
        module: 0,
        parent: if entry.1 == 99 { None } else { Some(entry.1) },
        kind: entry.2,
        kind_of_value: 0,
        keys: keys_of(alloc, entry.3)?,
        uniques: Many::new(alloc),
        mandatory: false,
        defaults: Many::new(alloc),
        least: 0,
        most: None,
        by_user: false,
        cases: Many::new(alloc),
        deny: Deny::Nothing,
    })
}

fn put_node(schema: &mut Schema, node: Node) -> Result<(), Memory> {
    let count = schema.nodes();
    if let Some(above) = node.parent
        && above >= count
    {
        return Ok(());
    }
    if count < 100 {
        schema.add_node(node)?;
    }
    Ok(())
}

fn put_module(alloc: Global, schema: &mut Schema) -> Result<(), Memory> {
    let module = Module {
        name: text(alloc, "ex")?,
        space: text(alloc, "urn:ex")?,
        revision: Text::new(alloc),
        features: Many::new(alloc),
    };
    if schema.modules().len() < 100 {
        schema.add_module(module)?;
    }
    Ok(())
}

fn string(alloc: Global) -> Result<ValueType, Memory>
    ensures { IfOk result (λ it. (count : ℕ) → NamesPatterns count it) }
{
    let mut lengths = Many::new(alloc);
    lengths.push(Between {
        least: 0,
        most: 18446744073709551615,
    })?;
    Ok(ValueType::Chars {
        lengths,
        patterns: Many::new(alloc),
        starless: false,
    })
}

fn put_string(alloc: Global, schema: &mut Schema) -> Result<(), Memory> {
    if schema.types().len() < 100 {
        schema.add_type(string(alloc)?)?;
    }
    Ok(())
}

fn fill(alloc: Global, schema: &mut Schema) -> Result<(), Memory> {
    put_module(alloc, schema)?;
    put_string(alloc, schema)?;
    for entry in NODES {
        put_node(schema, node_of(alloc, entry)?)?;
    }
    Ok(())
}

fn key(alloc: Global, number: u32) -> Result<Many<Text>, Memory> {
    let name = format!(in alloc; "interface-{number}")?;
    let mut keys = Many::new(alloc);
    keys.push(Text::from_string(name)?)?;
    Ok(keys)
}

fn push_step(steps: &mut Many<Step>, node: u32, keys: Many<Text>) -> Result<(), Memory> {
    steps.push(Step { node, keys })
}

// The entry of that number, or, where `leaf` is not 0, the leaf of that number in it.
fn path(alloc: Global, number: u32, leaf: u32) -> Result<Path, Memory> {
    let mut steps = Many::new(alloc);
    push_step(&mut steps, 0, Many::new(alloc))?;
    push_step(&mut steps, 1, key(alloc, number)?)?;
    if leaf != 0 {
        push_step(&mut steps, leaf, Many::new(alloc))?;
    }
    Ok(Path { steps })
}

// So many entries from one number on, or a leaf of each.
fn paths(alloc: Global, from: u32, count: u32, leaf: u32) -> Result<Many<Path>, Memory> {
    let mut paths = Many::new(alloc);
    for number in 0..count {
        paths.push(path(alloc, from.wrapping_add(number), leaf)?)?;
    }
    Ok(paths)
}

// Grants a session so many locks, on so many entries each.
fn grant_to(alloc: Global, locks: &mut PartialLocks, session: u32, count: u32, each: u32) -> Result<(), Memory> {
    for number in 0..count {
        let first = session.wrapping_mul(count).wrapping_add(number).wrapping_mul(each);
        let nodes = paths(alloc, first, each, 0)?;
        if locks.grant(session, nodes).is_err() {
            return Err(Memory);
        }
    }
    Ok(())
}

// So many locks of all sessions.
fn granted(alloc: Global, count: u32, each: u32) -> Result<PartialLocks, Memory> {
    let mut locks = PartialLocks::new(alloc);
    for session in 1..=SESSIONS {
        grant_to(alloc, &mut locks, session, count / SESSIONS, each)?;
    }
    Ok(locks)
}

// All sessions get their locks, and end.
fn held(alloc: Global, count: u32, each: u32) -> Result<u64, Memory> {
    let mut locks = granted(alloc, count, each)?;
    for session in 1..=SESSIONS {
        locks.end(session);
    }
    Ok(count as u64)
}

// Another session is told what it would get, gets it and releases it.
fn more(locks: &mut PartialLocks, nodes: Many<Path>) -> Result<u64, Memory> {
    let count = nodes.len() as u64;
    if locks.next_id(65, &nodes).is_err() {
        return Err(Memory);
    }
    match locks.grant(65, nodes) {
        Ok(id) => {
            locks.release(id, 65);
            Ok(count)
        }
        Err(_) => Err(Memory),
    }
}

fn covered(locks: &PartialLocks, paths: &[Path]) -> u64 {
    let mut count = 0u64;
    for path in paths {
        if locks.covering(path, 65).is_some() {
            count = count.wrapping_add(1);
        }
    }
    count
}

// An entry has three rows: its own, its key's, and that of a leaf.
fn put_entry(rows: &mut Many<Row>, number: u32) -> Result<(), Memory> {
    let alloc = rows.alloc();
    rows.push(Row {
        path: path(alloc, number, 0)?,
        value: None,
    })?;
    rows.push(Row {
        path: path(alloc, number, 2)?,
        value: Some(Text::from_string(format!(in alloc; "interface-{number}")?)?),
    })?;
    rows.push(Row {
        path: path(alloc, number, 3)?,
        value: Some(text(alloc, "1500")?),
    })
}

fn config(alloc: Global, entries: u32) -> Result<Config, Memory> {
    let mut rows = Many::new(alloc);
    for number in 0..entries {
        put_entry(&mut rows, APART.wrapping_add(number))?;
    }
    Config::from_rows(rows)
}

fn bounds(alloc: Global) -> Result<Bounds, Memory> {
    let mut bounds = Many::new(alloc);
    bounds.push(Bound {
        prefix: text(alloc, "e")?,
        space: text(alloc, "urn:ex")?,
    })?;
    Bounds::from_many(alloc, &bounds)
}

fn select(alloc: Global, number: u32, more: &str, bounds: &Bounds) -> Result<Select, Memory> {
    let number = APART.wrapping_add(number);
    let chars = format!(in alloc; "/e:ports/e:port[e:name='interface-{number}']{more}")?;
    Ok(Select {
        text: Text::from_string(chars)?,
        bounds: bounds.copy()?,
    })
}

// Of each entry two selects: itself, and a leaf in it.
fn selects(alloc: Global, count: u32) -> Result<Many<Select>, Memory> {
    let bounds = bounds(alloc)?;
    let mut selects = Many::new(alloc);
    for number in 0..count / 2 {
        selects.push(select(alloc, number, "", &bounds)?)?;
        selects.push(select(alloc, number, "/e:mtu", &bounds)?)?;
    }
    Ok(selects)
}

// What a request for a partial lock takes of nc_partial.
fn asked(
    alloc: Global,
    schema: &Schema,
    config: &Config,
    locks: &mut PartialLocks,
    selects: &[Select],
) -> Result<u64, Memory> {
    let Some(paths) = paths_selected(alloc, schema, selects)? else {
        return Ok(0);
    };
    let nodes = nodes_seen(alloc, schema, &Unchecked, config, paths.as_slice())?;
    more(locks, nodes)
}

fn asked_often(alloc: Global, turns: u32, locks: &mut PartialLocks, size: u32) -> Result<u64, Memory> {
    let mut schema = Schema::new(alloc);
    fill(alloc, &mut schema)?;
    let config = config(alloc, size / 2)?;
    let selects = selects(alloc, size)?;
    let mut count = 0u64;
    for _ in 0..turns {
        count = asked(alloc, &schema, &config, locks, selects.as_slice())?;
    }
    Ok(count)
}

fn more_often(alloc: Global, turns: u32, locks: &mut PartialLocks, size: u32) -> Result<u64, Memory> {
    let mut count = 0u64;
    for _ in 0..turns {
        count = more(locks, paths(alloc, APART, size, 0)?)?;
    }
    Ok(count)
}

fn covered_often(locks: &PartialLocks, turns: u32, paths: &[Path]) -> u64 {
    let mut count = 0u64;
    for _ in 0..turns {
        count = covered(locks, paths);
    }
    count
}

fn held_often(alloc: Global, turns: u32, count: u32, each: u32) -> Result<u64, Memory> {
    let mut done = 0u64;
    for _ in 0..turns {
        done = held(alloc, count, each)?;
    }
    Ok(done)
}

fn beside(alloc: Global, turns: u32, kind: &str, locks: &mut PartialLocks, size: u32) -> Result<u64, Memory> {
    match kind {
        "more" => more_often(alloc, turns, locks, size),
        "selects" => asked_often(alloc, turns, locks, size),
        "covered" => Ok(covered_often(locks, turns, paths(alloc, 64, size, 3)?.as_slice())),
        _ => Ok(covered_often(locks, turns, paths(alloc, APART, size, 3)?.as_slice())),
    }
}

fn work(alloc: Global, turns: u32, kind: &str, sizes: (u32, u32, u32)) -> Result<u64, Memory> {
    let (count, each, size) = sizes;
    if kind == "held" {
        return held_often(alloc, turns, count, each);
    }
    let mut locks = granted(alloc, count, each)?;
    beside(alloc, turns, kind, &mut locks, size)
}

fn number(words: &[&str], at: usize) -> u32 {
    match words.get(at) {
        Some(word) => word.parse::<u32>().unwrap_or(0),
        None => 0,
    }
}

fn word<'a>(words: &[&'a str], at: usize) -> &'a str {
    match words.get(at) {
        Some(word) => *word,
        None => "",
    }
}

fn done(alloc: Global, line: &str) -> Result<u64, Memory> {
    let mut words = Vec::new(alloc);
    for word in line.split(' ') {
        words.push(word)?;
    }
    let words = words.as_slice();
    let sizes = (number(words, 2), number(words, 3), number(words, 4));
    work(alloc, number(words, 0), word(words, 1), sizes)
}

fn main(rt: HostRuntime) -> io::Result<()> {
    let alloc = rt.alloc();
    for line in rt.lines(alloc) {
        match done(alloc, line?.as_str()) {
            Ok(count) => println!(rt; "{count}")?,
            Err(_) => println!(rt; "out of memory")?,
        }
    }
    Ok(())
}
RT
