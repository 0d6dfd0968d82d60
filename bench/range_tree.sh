#!/bin/sh
# Times a million searches in a tree of 262,144 intervals, and counts the nodes that they are shown.
# It works on a copy of the crates in a temporary folder, in which `Steps` counts at run time too. The
# copy is checked, since only what is proved is built: that takes some minutes.
set -eu
top=$(cd "$(dirname "$0")/.." && pwd)
work=$(mktemp -d)
trap 'rm -rf "$work"' EXIT
mkdir -p "$work/crates/range_bench/src" "$work/crates/range_bench/proofs/measure"
for crate in cv_values cv_keys range_tree; do
    mkdir "$work/crates/$crate"
    for part in src specs proofs; do
        cp -r "$top/crates/$crate/$part" "$work/crates/$crate/"
    done
done
grep -E '^(cv_values|cv_keys|range_tree):' "$top/crates.txt" > "$work/crates.txt"
echo 'range_bench: range_tree cv_keys cv_values' >> "$work/crates.txt"
sed -i -e 's/^    share: Share<L>,/    share: Share<L>,\n    shown: u64,/' \
    -e 's/Steps { book, share }/Steps { book, share, shown: 0 }/' \
    -e 's/^    \/\/\/ Counts one node\./    pub fn shown(\&self) -> u64 {\n        self.shown\n    }\n\n&/' \
    -e 's/^        self.book.add/        self.shown = self.shown.wrapping_add(1);\n        self.book.add/' \
    "$work/crates/range_tree/src/nodes/steps.rt"
sed -e '1,/^# main.rt$/d' -e '/^# proof$/,$d' "$0" > "$work/crates/range_bench/src/main.rt"
sed -e '1,/^# proof$/d' "$0" > "$work/crates/range_bench/proofs/measure/Invariants.antt"
cd "$work/crates/range_bench"
rt run
exit
# main.rt
#![tactic(auto)]

ghost use Rattle.std.specs.Prelude.{◌≡◌, ◌<◌};

use cv_keys::{Interval, Key, key_of};
use cv_values::{Memory, Val};
use range_tree::{RangeNode, RangeTree, Steps, Visit};
use std::alloc::Global;
use std::io;
use std::marker::Brand;
use std::process::ExitCode;
use std::sync::ledger::{Blank, Ledger};
use std::time::Instant;

const NODES: u64 = 262_144;
const STABS: u64 = 1_000_000;

#[derive(Drop)]
struct Count {
    hits: u64,
}

impl Visit for Count {
    ghost has_seen = { λ _ _. Unit {0} };

    fn hit(&mut self, _owner: u64) {
        self.hits = self.hits.wrapping_add(1);
    }
}

fn key(alloc: Global, n: u64) -> Result<Key, Memory>
    requires { n < 1000000 }
{
    key_of(alloc, &Val::Int(n as i64))
}

// The intervals [2j, 2j + length) of one index.
fn tree_of(alloc: Global, length: u64) -> Result<RangeTree, Memory>
    requires { length < 1000 }
{
    let mut tree = RangeTree::new();
    for j in 0..NODES {
        let interval = Interval {
            table: 0,
            index: 2,
            lo: key(alloc, 2 * j)?,
            hi: key(alloc, 2 * j + length)?,
        };
        // This removal finds nothing: after it the node is known to be absent.
        let found = tree.remove(&interval, j).is_some();
        if found || tree.len() as u64 >= NODES {
            return Err(Memory);
        }
        let Ok(node) = RangeNode::new(alloc, interval, j) else {
            return Err(Memory);
        };
        tree.insert(node);
    }
    Ok(tree)
}

// The keys that are searched for, made beforehand.
fn keys(alloc: Global) -> Result<Vec<Key>, Memory> {
    let mut keys = Vec::new(alloc);
    for i in 0..STABS {
        keys.push(key(alloc, i * 7919 % (2 * NODES))?)?;
    }
    Ok(keys)
}

// Hits, nodes shown, and the most that one search is shown.
fn stab_all<L: Ledger>(tree: &RangeTree, keys: &[Key], blank: Blank) -> (u64, u64, u64)
    requires name { blank.name ≡ L.name }
    requires parts { blank.parts ≡ L.parts }
    requires some { 0 < blank.parts }
{
    let mut count = Count { hits: 0 };
    let mut steps = Steps::<L>::new(blank);
    let mut most = 0;
    for key in keys {
        let before = steps.shown();
        tree.stab(0, 2, key, &mut count, &mut steps);
        most = most.max(steps.shown().wrapping_sub(before));
    }
    (count.hits, steps.shown(), most)
}

fn measure(rt: &HostRuntime, length: u64, keys: &[Key]) -> io::Result<()>
    requires { length < 1000 }
{
    let start = Instant::now(rt)?;
    let Ok(tree) = tree_of(rt.alloc(), length) else {
        return Err(io::Error::from(io::ErrorKind::OutOfMemory));
    };
    let built = start.elapsed(rt)?.as_millis();
    let start = Instant::now(rt)?;
    let (hits, shown, most) = stab_all::<Brand>(&tree, keys, Blank::new(1));
    let searched = start.elapsed(rt)?.as_millis();
    println!(rt; "length {length}: {NODES} removals that find nothing and insertions in {built} ms, {STABS} searches in {searched} ms, {hits} hits, {shown} nodes shown, at most {most} at once")
}

fn run(rt: &HostRuntime) -> io::Result<()> {
    let Ok(keys) = keys(rt.alloc()) else {
        return Err(io::Error::from(io::ErrorKind::OutOfMemory));
    };
    measure(rt, 1, keys.as_slice())?;
    measure(rt, 2, keys.as_slice())?;
    measure(rt, 20, keys.as_slice())
}

fn main(rt: HostRuntime) -> ExitCode {
    match run(&rt) {
        Ok(()) => ExitCode::SUCCESS,
        Err(_) => ExitCode::FAILURE,
    }
}
# proof
use Rattle.range_bench.proofs.measure.Given as goal

abbrev pub ghosts-stab_all : goal.ghosts-stab_all
ghosts-stab_all a = record { name = a.blank.name; parts = a.blank.parts }
