#!/bin/bash
# Times an append of a record of 1,048,709 bytes, and the opening of a chain of 16 of them, against plain C with the same calls.
# The program is written here, proved and built in a folder of its own: bench/ has no source of the repository.
# Prints the least and the middle time of each, in microseconds. With a word, the stores are made in a new folder in that one.
set -e
top=$(cd "$(dirname "$0")/.." && pwd)
work=$(mktemp -d)
stores=$(mktemp -d -p "${1:-/tmp}")
mkdir -p "$work/crates/measure/src"
crates="ckpt_base page_frames cell_sets disk_model host_edge image_format image_chain"
for crate in $crates; do
    mkdir -p "$work/crates/$crate"
    for part in src specs proofs; do
        if [ -d "$top/crates/$crate/$part" ]; then cp -r "$top/crates/$crate/$part" "$work/crates/$crate/"; fi
    done
    grep "^$crate:" "$top/crates.txt" >> "$work/crates.txt"
done
echo "measure: $crates anyhow" >> "$work/crates.txt"
cat > "$work/crates/measure/src/main.rt" <<'SOURCE'
#![tactic(auto)]
//! Times appends and openings on a real directory.
ghost use Rattle.std.specs.Prelude.{◌≡◌, IfOk};
ghost use Rattle.image_format.specs.Image.{Image};
ghost use Rattle.image_chain.specs.Append.{Spells};

use cell_sets::Run;
use ckpt_base::{Bytes, NoMemory, Text};
use disk_model::Disk;
use host_edge::DirDisk;
use image_chain::{Chain, ChainRoom, Kept};
use image_format::{Fields, Marks, write_record};
use page_frames::Frames;
use std::time::Instant;

const FIELDS: Fields = Fields {
    marks: Marks {
        source: [0x11; 32],
        input: [0x22; 32],
    },
    node: 7,
    steps: 7,
    input_place: 0,
    output_length: 0,
    directive: 0,
    left_out: false,
    number: 1,
};

const RUNS: [Run; 3] = [
    Run { first: 0, count: 43690 },
    Run { first: 50000, count: 43691 },
    Run { first: 100000, count: 43691 },
];

// A record of 131,072 cells in three runs.
fn written(rt: &HostRuntime) -> Result<Bytes, NoMemory>
    ensures { IfOk result (λ bytes. (r : Image) × Spells r bytes.list) }
{
    let memory = Frames::new(rt.alloc(), 281, 0)?;
    let mut out = Bytes::with_room(rt.alloc(), 1_048_709)?;
    write_record(&FIELDS, RUNS.as_slice(), &memory, &mut out);
    Ok(out)
}

fn time_append(rt: &HostRuntime, disk: &mut DirDisk, image: &[u8]) -> anyhow::Result<()>
    requires image { (r : Image) × Spells r image.now }
{
    let mut chain = Chain::start(disk, 1, 16)?;
    let start = Instant::now(rt)?;
    chain.append(disk, image)?;
    let spent = start.elapsed(rt)?.as_micros();
    println!(rt; "append {spent}")?;
    Ok(())
}

fn time_open(rt: &HostRuntime, disk: &mut DirDisk) -> anyhow::Result<()> {
    let mut room = ChainRoom::new(rt.alloc())?;
    let mut kept = Kept::new(rt.alloc())?;
    let start = Instant::now(rt)?;
    let found = Chain::open(disk, &mut room, &mut kept)?;
    let spent = start.elapsed(rt)?.as_micros();
    let count = match found {
        Some(chain) => chain.count(),
        None => 0,
    };
    println!(rt; "open {spent} records {count}")?;
    Ok(())
}

fn main(rt: HostRuntime) -> anyhow::Result<()> {
    let image = written(&rt)?;
    let mut disk = DirDisk::new(rt);
    let name = Text::of(rt.alloc(), "append")?;
    disk.enter(&name)?;
    for _ in 0..50 {
        time_append(&rt, &mut disk, image.as_slice())?;
    }
    let name = Text::of(rt.alloc(), "open")?;
    disk.enter(&name)?;
    for _ in 0..50 {
        time_open(&rt, &mut disk)?;
    }
    Ok(())
}
SOURCE
gcc -O2 -o "$work/yardstick" "$top/bench/chain.c"
cd "$work/crates/measure"
rt run --jobs 1 > "$work/log" 2>&1 || { tail -20 "$work/log"; exit 1; }
cd "$stores"
"$work/yardstick" store open
for _ in 1 2 3; do
    "$work/crates/measure/out/measure"
    "$work/yardstick" append append_c
    "$work/yardstick" read open
done > "$work/times"
for kind in "append" "C append" "open" "C read"; do
    grep "^$kind " "$work/times" | sed "s/^$kind //" | cut -d' ' -f1 | sort -n > "$work/sorted"
    count=$(wc -l < "$work/sorted")
    echo "$kind: least $(head -1 "$work/sorted") us, middle $(sed -n "$(((count + 1) / 2))p" "$work/sorted") us, of $count"
done
rm -rf "$work" "$stores"
