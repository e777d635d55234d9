#!/bin/bash
# Measures the classes and the excluded sets on the effect graph of the generated program, for 10, 100 and 1,000 functions.
# The program is written here, proved and built in a folder of its own: bench/ has no source of the repository.
set -e
top=$(cd "$(dirname "$0")/.." && pwd)
work=$(mktemp -d)
mkdir -p "$work/crates/measure/src"
for crate in ckpt_base cell_sets path_laws exclusion_equations; do
    mkdir -p "$work/crates/$crate"
    for part in src specs proofs; do
        if [ -d "$top/crates/$crate/$part" ]; then cp -r "$top/crates/$crate/$part" "$work/crates/$crate/"; fi
    done
done
grep -E '^(ckpt_base|cell_sets|path_laws|exclusion_equations):' "$top/crates.txt" > "$work/crates.txt"
echo 'measure: ckpt_base cell_sets path_laws exclusion_equations anyhow' >> "$work/crates.txt"
cat > "$work/crates/measure/src/main.rt" <<'SOURCE'
#![tactic(auto)]
//! Excluded sets of the generated program's graph.
ghost use Rattle.std.specs.Prelude.{◌≡◌, IfOk};
ghost use Rattle.cell_sets.specs.Sets.{universe_of};

use cell_sets::CellSet;
use ckpt_base::NoMemory;
use exclusion_equations::{Classes, find_exclusions};
use path_laws::{EffectGraph, Mark};
use std::alloc::Global;
use std::time::Instant;

fn span(alloc: Global, cells: u32, first: u32, count: u32) -> Result<CellSet, NoMemory>
    ensures universe { IfOk result (λ s. universe_of s ≡ cells) }
{
    if first <= cells && count <= cells - first {
        CellSet::range(alloc, cells, first, count)
    } else {
        CellSet::empty(alloc, cells)
    }
}

fn both(alloc: Global, cells: u32, first: u32, count: u32, one: u32) -> Result<CellSet, NoMemory>
    ensures universe { IfOk result (λ s. universe_of s ≡ cells) }
{
    let mut all = span(alloc, cells, first, count)?;
    let more = span(alloc, cells, one, 1)?;
    all.union_with(&more)?;
    Ok(all)
}

fn node(
    alloc: Global,
    graph: &mut EffectGraph,
    next: (Option<u32>, Option<u32>),
    mark: Mark,
    reads: (u32, u32, u32),
    writes: (u32, u32, u32),
    kills: (u32, u32),
) -> Result<(), NoMemory> {
    if graph.nodes() >= 1_000_000 {
        return Err(NoMemory);
    }
    let cells = graph.cells();
    let r = both(alloc, cells, reads.0, reads.1, reads.2)?;
    let w = both(alloc, cells, writes.0, writes.1, writes.2)?;
    let k = span(alloc, cells, kills.0, kills.1)?;
    graph.add(next, mark, r, w, k)?;
    Ok(())
}

fn none(cells: u32) -> (u32, u32, u32) {
    (cells, 0, cells)
}

fn one(cells: u32, c: u32) -> (u32, u32, u32) {
    (c, 1, cells)
}

fn made(alloc: Global, n: u16) -> Result<EffectGraph, NoMemory> {
    let count = n as u32;
    let t = 65 * count;
    let r = t + 1;
    let w = t + 2;
    let cells = t + 3;
    let no = none(cells);
    let mut g = EffectGraph::start(alloc, cells, 0)?;
    node(
        alloc,
        &mut g,
        (Some(1), None),
        Mark::Plain,
        no,
        one(cells, t),
        (t, 1),
    )?;
    node(
        alloc,
        &mut g,
        (Some(2), None),
        Mark::Plain,
        no,
        one(cells, r),
        (r, 1),
    )?;
    node(
        alloc,
        &mut g,
        (Some(3), None),
        Mark::Plain,
        no,
        one(cells, w),
        (w, 1),
    )?;
    node(
        alloc,
        &mut g,
        (Some(4), None),
        Mark::Plain,
        no,
        one(cells, w),
        (w, 1),
    )?;
    node(
        alloc,
        &mut g,
        (Some(5), None),
        Mark::Exclude(1),
        no,
        no,
        (cells, 0),
    )?;
    node(
        alloc,
        &mut g,
        (Some(6), None),
        Mark::Plain,
        no,
        one(cells, t),
        (t, 1),
    )?;
    node(
        alloc,
        &mut g,
        (Some(8), Some(9 + 2 * count)),
        Mark::Plain,
        one(cells, t),
        no,
        (cells, 0),
    )?;
    node(
        alloc,
        &mut g,
        (Some(6), None),
        Mark::Plain,
        one(cells, t),
        one(cells, t),
        (t, 1),
    )?;
    for k in 0..count {
        let at = 8 + 2 * k;
        node(
            alloc,
            &mut g,
            (Some(at + 1), None),
            Mark::Plain,
            (65 * k, 65, t),
            (65 * k, 65, r),
            (r, 1),
        )?;
        node(
            alloc,
            &mut g,
            (Some(at + 2), None),
            Mark::Plain,
            (r, 2, cells),
            one(cells, w),
            (w, 1),
        )?;
    }
    node(
        alloc,
        &mut g,
        (Some(7), None),
        Mark::Checkpoint,
        no,
        no,
        (cells, 0),
    )?;
    node(
        alloc,
        &mut g,
        (Some(10 + 2 * count), None),
        Mark::Plain,
        one(cells, w),
        no,
        (cells, 0),
    )?;
    node(
        alloc,
        &mut g,
        (Some(11 + 2 * count), None),
        Mark::Plain,
        no,
        no,
        (cells, 0),
    )?;
    node(alloc, &mut g, (None, None), Mark::Plain, no, no, (cells, 0))?;
    Ok(g)
}

fn measure(rt: &(impl Print + std::rt::Clock), alloc: Global, n: u16) -> anyhow::Result<()> {
    let graph = made(alloc, n)?;
    if !graph.is_whole() || graph.excludes() == 0 {
        return Ok(());
    }
    let start = Instant::now(rt)?;
    let classes = Classes::of(alloc, &graph)?;
    let first = start.elapsed(rt)?.as_micros();
    let sets = find_exclusions(alloc, &graph)?;
    let all = start.elapsed(rt)?.as_micros();
    let dead = sets.dead(1).runs()?.len();
    let read_only = sets.read_only(1).runs()?.len();
    let nodes = graph.nodes();
    let count = classes.count();
    println!(rt;
        "N {n}: nodes {nodes}, classes {count}, dead runs {dead}, read-only runs {read_only}; classes {first} us, then sets {all} us"
    )?;
    Ok(())
}

fn main(rt: HostRuntime) -> anyhow::Result<()> {
    measure(&rt, rt.alloc(), 10)?;
    measure(&rt, rt.alloc(), 100)?;
    measure(&rt, rt.alloc(), 1000)?;
    Ok(())
}
SOURCE
cd "$work/crates/measure"
rt run --jobs 1 > "$work/log" 2>&1 || { tail -20 "$work/log"; exit 1; }
/usr/bin/time -v out/measure 2>&1 | grep -E '^N|Maximum resident'
rm -rf "$work"
