#!/bin/sh
# Measures a round of a data unit among 64 and among 131,072 units of two pages: the victim is found and erased, and the lowest
# free unit is found and filled, which is seven changes of units.
# Usage: bench/units.sh [ROUNDS]: so many rounds, 1000000 if not given. It builds a small program in a temporary folder, which
# is proved first; that takes a minute or two.
set -eu
rounds=${1:-1000000}
top=$(cd "$(dirname "$0")/.." && pwd)
work=$(mktemp -d)
trap 'rm -rf "$work"' EXIT
mkdir -p "$work/crates/rounds/src" "$work/crates/rounds/specs"
cp "$top/HANDLES" "$work/"
for crate in fdp_base fdp_rules fdp_least fdp_units; do
    mkdir "$work/crates/$crate"
    for part in src specs proofs; do
        if [ -d "$top/crates/$crate/$part" ]; then cp -r "$top/crates/$crate/$part" "$work/crates/$crate/"; fi
    done
done
cat > "$work/crates.txt" <<'LIST'
fdp_base:
fdp_rules: fdp_base
fdp_least:
fdp_units: fdp_base fdp_rules fdp_least
rounds: anyhow fdp_base fdp_rules fdp_least fdp_units
LIST
cat > "$work/crates/rounds/src/main.rt" <<'CODE'
#![tactic(auto)]

use anyhow::Error;
use fdp_base::Geometry;
use fdp_units::{UnitState, Units};
use std::time::Instant;

fn turn(units: &mut Units, unit: u32, to: UnitState) {
    if unit < units.count() && units.get(unit).may_turn(to) {
        units.turn(unit, to);
    }
}

fn use_page(units: &mut Units, unit: u32) {
    if unit < units.count() && units.get(unit).state.is_open() {
        units.use_page(unit);
    }
}

fn raise(units: &mut Units, unit: u32) {
    if unit < units.count() && units.get(unit).live < units.get(unit).next {
        units.raise(unit);
    }
}

fn lower(units: &mut Units, unit: u32) {
    if unit < units.count() && 1 <= units.get(unit).live {
        units.lower(unit);
    }
}

/// Fills the lowest free unit, with a live page.
fn fill(units: &mut Units) -> u32 {
    if units.groups() == 0 {
        return 0;
    }
    match units.lowest_free(0) {
        Some(unit) => {
            turn(units, unit, UnitState::Referenced);
            use_page(units, unit);
            raise(units, unit);
            use_page(units, unit);
            1
        }
        None => 0,
    }
}

/// Erases the victim.
fn empty(units: &mut Units) -> u32 {
    if units.groups() == 0 {
        return 0;
    }
    match units.victim(0) {
        Some(unit) => {
            lower(units, unit);
            turn(units, unit, UnitState::Free);
            1
        }
        None => 0,
    }
}

fn main(rt: HostRuntime) -> Result<(), Error> {
    for count in [64u32, 131072] {
        let geometry = Geometry {
            block: 512,
            unit_pages: 2,
            groups: 1,
            units: count,
            area_units: 0,
        };
        let mut units = Units::new(rt.alloc(), geometry)?;
        for _ in 0..count {
            let _ = fill(&mut units);
        }
        let start = Instant::now(&rt)?;
        let mut emptied = 0u64;
        for _ in 0..ROUNDSu32 {
            emptied = emptied.saturating_add(u64::from(empty(&mut units)));
            let _ = fill(&mut units);
        }
        let took = start.elapsed(&rt)?.as_nanos();
        println!(rt; "{count} units, {emptied} rounds: {} ns a round", took / ROUNDSu128)?;
    }
    Ok(())
}
CODE
sed -i "s/ROUNDSu/${rounds}u/g" "$work/crates/rounds/src/main.rt"
cd "$work/crates/rounds"
rt run
