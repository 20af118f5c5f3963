#!/bin/sh
# Measures a turn of the group lock beside a turn of std's mutex over the same value, about 1 KB, which the lock hands out on the heap: 1, 2, 4 and 6 threads,
# turns that last 0, 3 and 10 microseconds. A turn adds an entry to the value, and a thread does nothing between two turns.
# Usage: bench/turns.sh [TURNS]: so many turns of all threads together, 200000 if not given. It builds a small program in a temporary
# folder, which is proved first; that takes a minute or two. It warns where the machine is busy.
set -eu
turns=${1:-200000}
top=$(cd "$(dirname "$0")/.." && pwd)
awk -v processors="$(nproc)" '{ if ($1 > processors) print "turns.sh: the machine is busy: load " $1 " on " processors " processors" }' /proc/loadavg >&2
work=$(mktemp -d)
trap 'rm -rf "$work"' EXIT
mkdir -p "$work/crates/turns/src" "$work/crates/turns/specs"
cp "$top/HANDLES" "$work/"
for crate in fdp_base fdp_lock fdp_lock_tests; do
    mkdir "$work/crates/$crate"
    for part in src specs proofs; do
        if [ -d "$top/crates/$crate/$part" ]; then cp -r "$top/crates/$crate/$part" "$work/crates/$crate/"; fi
    done
done
cat > "$work/crates.txt" <<'LIST'
fdp_base:
fdp_lock: fdp_base atomic_table
fdp_lock_tests: fdp_base fdp_lock
turns: anyhow fdp_base fdp_lock fdp_lock_tests
LIST
cat > "$work/crates/turns/src/main.rt" <<'CODE'
#![tactic(auto)]

ghost use Rattle.std.specs.Prelude.{◌≡◌, [], IfOk};
ghost use Rattle.fdp_lock_tests.specs.Tally.{IsFresh, IsBack};

use anyhow::Error;
use fdp_lock::{Boxed, GroupLock, Seat};
use fdp_lock_tests::{Load, Tally, linger, work, work_both, work_four};
use std::alloc::{AllocError, Global};
use std::sync::{Mutex, Wait};
use std::thread::{Threads, join};
use std::time::Instant;

fn one<R: Wait>(rt: &R, alloc: Global, load: Load) -> Result<usize, AllocError> {
    let tally = Boxed::new(alloc, Tally::with_room(alloc, 0, load.turns as usize)?)?;
    let Ok((lock, mut first)) = GroupLock::new(alloc, tally, 2) else { return Ok(0) };
    let a = lock.split(&mut first, 1);
    let a = work(rt, &lock, a, load);
    Ok(lock.close(vec![in alloc; first, a]?).value.numbers.len())
}

fn two<R: Threads + Wait + Sync>(rt: &R, alloc: Global, load: Load) -> Result<usize, AllocError> {
    let tally = Boxed::new(alloc, Tally::with_room(alloc, 0, load.turns as usize * 2)?)?;
    let Ok((lock, mut first)) = GroupLock::new(alloc, tally, 3) else { return Ok(0) };
    let a = lock.split(&mut first, 1);
    let b = lock.split(&mut first, 2);
    let (a, b) = work_both(rt, &lock, a, b, load);
    Ok(lock.close(vec![in alloc; first, a, b]?).value.numbers.len())
}

fn four<R: Threads + Wait + Sync>(rt: &R, alloc: Global, load: Load) -> Result<usize, AllocError> {
    let tally = Boxed::new(alloc, Tally::with_room(alloc, 0, load.turns as usize * 4)?)?;
    let Ok((lock, mut first)) = GroupLock::new(alloc, tally, 5) else { return Ok(0) };
    let a = lock.split(&mut first, 1);
    let b = lock.split(&mut first, 2);
    let c = lock.split(&mut first, 3);
    let d = lock.split(&mut first, 4);
    let ((a, b), (c, d)) = work_four(rt, &lock, a, b, c, d, load);
    Ok(lock.close(vec![in alloc; first, a, b, c, d]?).value.numbers.len())
}

type Pair = (Seat<Boxed<Tally>>, Seat<Boxed<Tally>>);

fn work_six<R: Threads + Wait + Sync>(
    rt: &R,
    lock: &GroupLock<Boxed<Tally>>,
    a: Seat<Boxed<Tally>>,
    b: Seat<Boxed<Tally>>,
    c: Seat<Boxed<Tally>>,
    d: Seat<Boxed<Tally>>,
    e: Seat<Boxed<Tally>>,
    f: Seat<Boxed<Tally>>,
    load: Load,
) -> (Pair, (Pair, Pair))
    requires front { IsFresh lock.now a × IsFresh lock.now b }
    requires middle { IsFresh lock.now c × IsFresh lock.now d }
    requires back { IsFresh lock.now e × IsFresh lock.now f }
    ensures front { IsBack lock.now a result.0.0 × IsBack lock.now b result.0.1 }
    ensures middle { IsBack lock.now c result.1.0.0 × IsBack lock.now d result.1.0.1 }
    ensures back { IsBack lock.now e result.1.1.0 × IsBack lock.now f result.1.1.1 }
{
    join(
        rt,
        || -> Pair
            requires { IsFresh lock.now a × IsFresh lock.now b }
            ensures { IsBack lock.entry.now a result.0 × IsBack lock.entry.now b result.1 }
        { work_both(rt, lock, a, b, load) },
        || -> (Pair, Pair)
            requires { (IsFresh lock.now c × IsFresh lock.now d) × (IsFresh lock.now e × IsFresh lock.now f) }
            ensures front { IsBack lock.entry.now c result.0.0 × IsBack lock.entry.now d result.0.1 }
            ensures back { IsBack lock.entry.now e result.1.0 × IsBack lock.entry.now f result.1.1 }
        { work_four(rt, lock, c, d, e, f, load) },
    )
}

fn six<R: Threads + Wait + Sync>(rt: &R, alloc: Global, load: Load) -> Result<usize, AllocError> {
    let tally = Boxed::new(alloc, Tally::with_room(alloc, 0, load.turns as usize * 6)?)?;
    let Ok((lock, mut first)) = GroupLock::new(alloc, tally, 7) else { return Ok(0) };
    let a = lock.split(&mut first, 1);
    let b = lock.split(&mut first, 2);
    let c = lock.split(&mut first, 3);
    let d = lock.split(&mut first, 4);
    let e = lock.split(&mut first, 5);
    let f = lock.split(&mut first, 6);
    let ((a, b), ((c, d), (e, f))) = work_six(rt, &lock, a, b, c, d, e, f, load);
    Ok(lock.close(vec![in alloc; first, a, b, c, d, e, f]?).value.numbers.len())
}

fn add<R: Wait>(rt: &R, shared: &Mutex<Tally>, load: Load) {
    for _ in 0..load.turns {
        let mut tally = shared.lock(rt);
        linger(load.rounds);
        let _ = tally.numbers.push(1);
    }
}

fn add_both<R: Threads + Wait + Sync>(rt: &R, shared: &Mutex<Tally>, load: Load) {
    join(rt, || add(rt, shared, load), || add(rt, shared, load));
}

fn add_four<R: Threads + Wait + Sync>(rt: &R, shared: &Mutex<Tally>, load: Load) {
    join(rt, || add_both(rt, shared, load), || add_both(rt, shared, load));
}

fn add_six<R: Threads + Wait + Sync>(rt: &R, shared: &Mutex<Tally>, load: Load) {
    join(rt, || add_both(rt, shared, load), || add_four(rt, shared, load));
}

/// The rounds of a microsecond, by the quickest of five runs.
fn rounds_of_a_microsecond(rt: HostRuntime) -> Result<u32, Error> {
    let mut least: u128 = u128::MAX;
    for _ in 0..5u32 {
        let start = Instant::now(&rt)?;
        linger(100_000);
        least = least.min(start.elapsed(&rt)?.as_nanos());
    }
    Ok(u32::try_from(100_000_000 / least.max(1)).unwrap_or(u32::MAX))
}

fn by_lock<R: Threads + Wait + Sync>(rt: &R, alloc: Global, threads: u32, load: Load) -> Result<usize, AllocError> {
    match threads {
        1 => one(rt, alloc, load),
        2 => two(rt, alloc, load),
        4 => four(rt, alloc, load),
        _ => six(rt, alloc, load),
    }
}

fn by_mutex<R: Threads + Wait + Sync>(rt: &R, shared: &Mutex<Tally>, threads: u32, load: Load) {
    match threads {
        1 => add(rt, shared, load),
        2 => add_both(rt, shared, load),
        4 => add_four(rt, shared, load),
        _ => add_six(rt, shared, load),
    }
}

fn main(rt: HostRuntime) -> Result<(), Error> {
    let turns: u32 = TURNS;
    let rounds = rounds_of_a_microsecond(rt)?;
    for hold in [0u32, 3, 10] {
        for threads in [1u32, 2, 4, 6] {
            let load = Load { turns: turns / threads.max(1), rounds: rounds.saturating_mul(hold) };
            let shared = Mutex::new(Tally::with_room(rt.alloc(), 0, turns as usize)?);
            let start = Instant::now(&rt)?;
            let made = by_lock(&rt, rt.alloc(), threads, load)?;
            let lock = start.elapsed(&rt)?.as_nanos();
            let start = Instant::now(&rt)?;
            by_mutex(&rt, &shared, threads, load);
            let mutex = start.elapsed(&rt)?.as_nanos();
            let all = u128::from(turns).max(1);
            println!(rt; "{hold} us, {threads} threads, {made} entries: {} ns a turn, {} ns by a mutex", lock / all, mutex / all)?;
        }
    }
    Ok(())
}
CODE
sed -i "s/= TURNS;/= $turns;/" "$work/crates/turns/src/main.rt"
cd "$work/crates/turns"
rt run
