#!/usr/bin/env bash
# Times a turn: taken where nobody else wants it, and by 2, 8 and 64 threads that want it at once; beside each a lock of
# std's Mutex, by as many threads. In a turn a counter is raised and an entry written, under the lock a number is raised.
set -euo pipefail
exec "$(dirname "$0")/program" turn 'nc_names nc_schema nc_model nc_turn trials_turn' <<'RT'
//! Times turns beside locks.
#![tactic(auto)]

use std::alloc::Global;
use std::io;
use std::sync::{Mutex, Wait};
use std::thread::{self, Threads};
use std::time::{Duration, Instant};
use trials_turn::enter_by_many;

// So many threads, and how often each takes the turn.
const CASES: &[(u32, u64)] = &[(1, 4_000_000), (2, 200_000), (8, 25_000), (64, 1_000)];

// Raises a number so often, under its lock each time.
fn raise<R: Wait>(rt: &R, number: &Mutex<u64>, times: u64) -> u64 {
    for _ in 0..times {
        let mut held = number.lock(rt);
        *held = held.wrapping_add(1);
    }
    times
}

fn raise_by_many<R: Threads + Wait + Sync>(rt: &R, alloc: Global, threads: u32, times: u64) -> Option<u64> {
    let number = Mutex::new(0u64);
    let raise_one = |_: usize| -> u64 { raise(rt, &number, times) };
    thread::map_indices(rt, alloc, threads as usize, &raise_one).ok()?;
    Some(number.into_inner())
}

fn tell(rt: &HostRuntime, what: &str, threads: u32, events: u64, took: Duration) -> io::Result<()> {
    let each = took.as_nanos().checked_div(u128::from(events)).unwrap_or(0);
    println!(rt; "| {what} | {threads} | {events} | {each} ns |")
}

fn time_turns<R: Threads + Wait + Sync>(rt: &R, host: &HostRuntime, threads: u32, times: u64) -> io::Result<()> {
    let start = Instant::now(host)?;
    let Some(crowd) = enter_by_many(rt, host.alloc(), threads, times) else {
        return println!(host; "out of memory");
    };
    let took = start.elapsed(host)?;
    tell(host, "a turn", threads, crowd.counter.count, took)
}

fn time_locks<R: Threads + Wait + Sync>(rt: &R, host: &HostRuntime, threads: u32, times: u64) -> io::Result<()> {
    let start = Instant::now(host)?;
    let Some(count) = raise_by_many(rt, host.alloc(), threads, times) else {
        return println!(host; "out of memory");
    };
    let took = start.elapsed(host)?;
    tell(host, "a lock", threads, count, took)
}

fn main(rt: HostRuntime) -> io::Result<()> {
    println!(rt; "| What | Threads | How often in all | Time of each |\n|---|---|---|---|")?;
    for (threads, times) in CASES {
        time_locks(&rt, &rt, *threads, *times)?;
        time_turns(&rt, &rt, *threads, *times)?;
    }
    Ok(())
}
RT
