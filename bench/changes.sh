#!/usr/bin/env bash
# Times `changes` between two configurations: entries ordered by the user that stand in reverse order, of which the first
# has gone to the end, or each of which has another value, among entries of a list that the system orders; and one entry,
# one leaf or all of those that differ.
set -euo pipefail
works=(
    # entries ordered by the user, of two rows each, and other entries, of two rows each
    'reversed 1000 14000' 'reversed 3000 12000' 'reversed 10000 5000' 'reversed 30000 15000'
    'rotated 1000 14000' 'rotated 10000 5000'
    'valued 1000 14000' 'valued 10000 5000'
    'last 0 1500' 'last 0 15000' 'last 0 50000'
    'others 0 1500' 'others 0 15000' 'others 0 50000'
    'new 500 1000' 'new 5000 10000' 'gone 5000 10000'
)
exec "$(dirname "$0")/program" changes 'nc_names nc_schema nc_protocol nc_tree nc_changes' "${works[@]}" <<'RT'
//! Times the changes between two configurations. A line of input has a number of turns, how the two differ, how many
//! entries that the user orders they have, and how many others.
#![tactic(auto)]

use nc_changes::changes;
use nc_names::{Many, Memory, Path, QName, Row, Step, Text};
use nc_schema::{Deny, Kind, Node, Schema};
use nc_tree::Config;
use std::alloc::Global;
use std::io;

/// Name, the number of the node above or 99, kind, the number of its key or 99, and whether the user orders it.
const NODES: &[(&str, u32, Kind, u32, bool)] = &[
    ("all", 99, Kind::Container { presence: false }, 99, false),
    ("rule", 0, Kind::List, 2, true),
    ("name", 1, Kind::Leaf, 99, false),
    ("action", 1, Kind::Leaf, 99, false),
    ("port", 0, Kind::List, 5, false),
    ("name", 4, Kind::Leaf, 99, false),
    ("mtu", 4, Kind::Leaf, 99, false),
];

fn text(alloc: Global, chars: &str) -> Result<Text, Memory> {
    Text::from_text(alloc, chars)
}

fn keys_of(alloc: Global, key: u32) -> Result<Many<u32>, Memory> {
    let mut keys = Many::new(alloc);
    if key != 99 {
        keys.push(key)?;
    }
    Ok(keys)
}

fn name_of(alloc: Global, name: &str) -> Result<QName, Memory> {
    Ok(QName {
        space: text(alloc, "urn:ex")?,
        name: text(alloc, name)?,
    })
}

fn node_of(alloc: Global, entry: &(&str, u32, Kind, u32, bool)) -> Result<Node, Memory> {
    Ok(Node {
        name: name_of(alloc, entry.0)?,
        module: 0,
        parent: if entry.1 == 99 { None } else { Some(entry.1) },
        kind: entry.2,
        kind_of_value: 0,
        keys: keys_of(alloc, entry.3)?,
        uniques: Many::new(alloc),
        mandatory: false,
        defaults: Many::new(alloc),
        least: 0,
        most: None,
        by_user: entry.4,
        cases: Many::new(alloc),
        deny: Deny::Nothing,
    })
}

fn put_node(schema: &mut Schema, node: Node) -> Result<(), Memory> {
    let count = schema.nodes();
    if let Some(above) = node.parent
        && above >= count
    {
        return Ok(());
    }
    if count < 100 {
        schema.add_node(node)?;
    }
    Ok(())
}

fn fill(alloc: Global, schema: &mut Schema) -> Result<(), Memory> {
    for entry in NODES {
        put_node(schema, node_of(alloc, entry)?)?;
    }
    Ok(())
}

fn push_step(steps: &mut Many<Step>, node: u32, key: &str) -> Result<(), Memory> {
    let alloc = steps.alloc();
    let mut keys = Many::new(alloc);
    if !key.is_empty() {
        keys.push(text(alloc, key)?)?;
    }
    steps.push(Step { node, keys })
}

fn path(alloc: Global, list: u32, key: &str, leaf: u32) -> Result<Path, Memory> {
    let mut steps = Many::new(alloc);
    push_step(&mut steps, 0, "")?;
    push_step(&mut steps, list, key)?;
    if leaf != 0 {
        push_step(&mut steps, leaf, "")?;
    }
    Ok(Path { steps })
}

// An entry of the list of that number, with a leaf.
fn put_entry(rows: &mut Many<Row>, list: u32, number: u32, value: &str) -> Result<(), Memory> {
    let alloc = rows.alloc();
    let key = format!(in alloc; "entry-{}", number.wrapping_add(1_000_000))?;
    rows.push(Row {
        path: path(alloc, list, key.as_str(), 0)?,
        value: None,
    })?;
    rows.push(Row {
        path: path(alloc, list, key.as_str(), list.wrapping_add(2))?,
        value: Some(text(alloc, value)?),
    })
}

// The number of the entry that the user has put at that place, from 0, of so many: they fall.
fn placed(kind: &str, at: u32, count: u32) -> u32 {
    match kind {
        "reversed" => at.wrapping_add(1),
        "rotated" => if at.wrapping_add(1) == count { count } else { count.wrapping_sub(at).wrapping_sub(1) },
        _ => count.wrapping_sub(at),
    }
}

fn put_ordered(rows: &mut Many<Row>, kind: &str, count: u32) -> Result<(), Memory> {
    let value = if kind == "valued" { "deny" } else { "permit" };
    for at in 0..count {
        put_entry(rows, 1, placed(kind, at, count), value)?;
    }
    Ok(())
}

// The value of the entry at that place, of so many.
fn value_at(kind: &str, at: u32, count: u32) -> &'static str {
    match kind {
        "others" => "9000",
        "last" => if at.wrapping_add(1) == count { "9000" } else { "1500" },
        _ => "1500",
    }
}

fn put_others(rows: &mut Many<Row>, kind: &str, count: u32) -> Result<(), Memory> {
    for at in 0..count {
        put_entry(rows, 4, at, value_at(kind, at, count))?;
    }
    Ok(())
}

fn config(alloc: Global, kind: &str, ordered: u32, others: u32) -> Result<Config, Memory> {
    let mut rows = Many::new(alloc);
    put_ordered(&mut rows, kind, ordered)?;
    put_others(&mut rows, kind, others)?;
    Config::from_rows(rows)
}

// How many paths are created, updated and deleted.
fn count(alloc: Global, schema: &Schema, old: &Config, new: &Config) -> Result<u64, Memory> {
    let found = changes(alloc, schema, old, new)?;
    let some = (found.created.len() as u64).wrapping_add(found.updated.len() as u64);
    Ok(some.wrapping_add(found.deleted.len() as u64))
}

fn count_often(alloc: Global, turns: u32, schema: &Schema, old: &Config, new: &Config) -> Result<u64, Memory> {
    let mut found = 0u64;
    for _ in 0..turns {
        found = count(alloc, schema, old, new)?;
    }
    Ok(found)
}

fn work(alloc: Global, turns: u32, kind: &str, ordered: u32, others: u32) -> Result<u64, Memory> {
    let mut schema = Schema::new(alloc);
    fill(alloc, &mut schema)?;
    let before = config(alloc, "", ordered, others)?;
    let after = config(alloc, kind, ordered, others)?;
    let nothing = Config::empty(alloc);
    match kind {
        "new" => count_often(alloc, turns, &schema, &nothing, &before),
        "gone" => count_often(alloc, turns, &schema, &before, &nothing),
        _ => count_often(alloc, turns, &schema, &before, &after),
    }
}

fn number(words: &[&str], at: usize) -> u32 {
    match words.get(at) {
        Some(word) => word.parse::<u32>().unwrap_or(0),
        None => 0,
    }
}

fn word<'a>(words: &[&'a str], at: usize) -> &'a str {
    match words.get(at) {
        Some(word) => *word,
        None => "",
    }
}

fn done(alloc: Global, line: &str) -> Result<u64, Memory> {
    let mut words = Vec::new(alloc);
    for word in line.split(' ') {
        words.push(word)?;
    }
    let words = words.as_slice();
    work(alloc, number(words, 0), word(words, 1), number(words, 2), number(words, 3))
}

fn main(rt: HostRuntime) -> io::Result<()> {
    let alloc = rt.alloc();
    for line in rt.lines(alloc) {
        match done(alloc, line?.as_str()) {
            Ok(count) => println!(rt; "{count}")?,
            Err(_) => println!(rt; "out of memory")?,
        }
    }
    Ok(())
}
RT
