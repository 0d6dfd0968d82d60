#!/bin/sh
# Counts the instructions of reading a Mutation of 200 bytes, and of writing a Transition with one changed query
# of 200 documents, by callgrind: the difference between runs of 1,100 and of 100 times, over 1,000. It works on
# a copy of the crates in a temporary folder. The copy is checked, since only what is proved is built.
set -eu
top=$(cd "$(dirname "$0")/.." && pwd)
work=$(mktemp -d)
trap 'rm -rf "$work"' EXIT
mkdir -p "$work/crates/msgs_bench/src"
for crate in cv_values cv_json cv_keys fn_ops fn_tree sync_msgs; do
    mkdir "$work/crates/$crate"
    for part in src specs proofs; do
        cp -r "$top/crates/$crate/$part" "$work/crates/$crate/"
    done
done
grep -E '^(cv_values|cv_json|cv_keys|fn_ops|fn_tree|sync_msgs):' "$top/crates.txt" > "$work/crates.txt"
echo 'msgs_bench: sync_msgs cv_json cv_values serde_json' >> "$work/crates.txt"
sed -e '1,/^# main.rt$/d' "$0" > "$work/crates/msgs_bench/src/main.rt"
cd "$work/crates/msgs_bench"
rt run >&2 || true

# instructions WORD TIMES
instructions() {
    valgrind --tool=callgrind --callgrind-out-file=/dev/null out/msgs_bench "$1" "$2" 2>&1 >/dev/null |
        sed -n 's/.*Collected : //p'
}

for word in decode encode; do
    few=$(instructions "$word" 100)
    many=$(instructions "$word" 1100)
    echo "$word $(((many - few) / 1000))"
done
exit
# main.rt
//! Reads or writes one message so many times.
#![tactic(auto)]

use cv_json::from_json;
use cv_values::{Memory, Text, Val};
use serde_json::Value;
use std::alloc::Global;
use std::{env, io};
use std::process::ExitCode;
use sync_msgs::{ServerMsg, Shown, Version, decode, encode};

const MUTATION: &str = "{\"type\":\"Mutation\",\"requestId\":1,\"udfPath\":\"chat:send\",\"args\":[{\"body\":\"abcdefghijabcdefghijabcdefghijabcdefghij\",\"channel\":\"x\",\"count\":{\"$integer\":\"AQAAAAAAAAA=\"},\"more\":[true,null,\"abcdefghijkl\"]}]}";

const DOCUMENT: &str = "{\"_creationTime\":{\"$integer\":\"BQAAAAAAAAA=\"},\"_id\":\"000000000000000000000000000000000002000000010000\",\"body\":\"abcdefghijabcdefghijabcdefghijabcdefghij\",\"channel\":\"x\"}";

fn documents(alloc: Global) -> Result<Val, Memory> {
    let mut text = String::from_str(alloc, "[")?;
    for i in 0..200 {
        if i > 0 {
            text.push(',')?;
        }
        text.push_str(DOCUMENT)?;
    }
    text.push(']')?;
    let Ok(tree) = Value::from_str(alloc, text.as_str()) else {
        return Err(Memory);
    };
    match from_json(alloc, &tree) {
        Ok(value) => Ok(value),
        Err(_) => Err(Memory),
    }
}

fn read_all(alloc: Global, times: u64) -> Result<u64, Memory> {
    let text = Text::of(alloc, MUTATION)?;
    let mut good = 0;
    for _ in 0..times {
        if decode(alloc, &text).is_ok() {
            good = u64::wrapping_add(good, 1);
        }
    }
    Ok(good)
}

fn write_all(alloc: Global, times: u64) -> Result<u64, Memory> {
    let version = Version {
        query_set: 1,
        identity: 0,
        ts: 7,
    };
    let shown = Shown::QueryUpdated {
        id: 0,
        value: documents(alloc)?,
    };
    let m = ServerMsg::Transition {
        start: version,
        end: version,
        changes: vec![in alloc; shown]?,
    };
    let mut bytes = 0;
    for _ in 0..times {
        if let Ok(text) = encode(alloc, &m) {
            bytes = u64::wrapping_add(bytes, text.as_str().len() as u64);
        }
    }
    Ok(bytes)
}

fn run(rt: &HostRuntime) -> io::Result<()> {
    let mut words = env::args(rt)?.skip(1);
    let word = words.next();
    let times = match words.next() {
        Some(times) => times.as_str().parse::<u64>().unwrap_or(0),
        None => 0,
    };
    let done = match word {
        Some(word) if word.as_str() == "encode" => write_all(rt.alloc(), times),
        _ => read_all(rt.alloc(), times),
    };
    let Ok(done) = done else {
        return Err(io::Error::from(io::ErrorKind::OutOfMemory));
    };
    println!(rt; "{done}")
}

fn main(rt: HostRuntime) -> ExitCode {
    match run(&rt) {
        Ok(()) => ExitCode::SUCCESS,
        Err(_) => ExitCode::FAILURE,
    }
}
