#!/bin/sh
# Times `read_file` and `print_tree` on a model of 20 MB, and serde_json's reader on a JSON text of that size, in one run. A
# measurement, not a test: it builds a program in a folder of its own, which proves it first.
crates='lk_val lk_utf8 lk_read'
uses='lk_val lk_read json serde_json'
. "$(dirname "$0")/workspace.sh"
cat >"$work/crates/timing/src/main.rt" <<'END'
//! Times `read_file`, `print_tree` and serde_json.
#![tactic(auto)]

use lk_read::{print_tree, read_file};
use lk_val::NoMemory;
use serde_json::Value;
use std::alloc::Global;
use std::io;
use std::time::{Duration, Instant};

const SIZE: usize = 20_000_000;

const FIELD: &[u8] = b"  dimension: total {\n    type: number\n    label: \"Total in \\\"euro\\\"\"\n    tags: [a, \"b c\", d]\n    sql: ${TABLE}.total / 100 ;;\n  }\n";

const OBJECT: &[u8] = b"  {\"dimension\": {\"name\": \"total\", \"type\": \"number\", \"label\": \"Total in \\\"euro\\\"\", \"tags\": [\"a\", \"b c\", \"d\"], \"sql\": \"${TABLE}.total / 100\"}},\n";

// The part again and again up to the size, between a front and an end.
fn repeated(alloc: Global, front: &[u8], part: &[u8], end: &[u8]) -> Result<Vec<u8>, NoMemory> {
    let mut text = Vec::new(alloc);
    text.extend_from_slice(front)?;
    for _ in 0..SIZE {
        if text.len() >= SIZE {
            break;
        }
        text.extend_from_slice(part)?;
    }
    text.extend_from_slice(end)?;
    Ok(text)
}

fn tell(rt: &HostRuntime, what: &str, bytes: usize, took: Duration) -> io::Result<()> {
    let micros = took.as_micros().max(1);
    let rate = bytes as u128 / micros;
    println!(rt; "{what}: {bytes} bytes in {} ms, {rate} MB/s", micros / 1000)
}

fn main(rt: HostRuntime) -> io::Result<()> {
    let alloc = rt.alloc();
    let Ok(model) = repeated(alloc, b"view: orders {\n", FIELD, b"}\n") else {
        return Ok(());
    };
    let Ok(objects) = repeated(alloc, b"[\n", OBJECT, b"  0\n]\n") else {
        return Ok(());
    };
    if model.len() >= 30_000_000 {
        return Ok(());
    }
    let begun = Instant::now(&rt)?;
    let Ok(tree) = read_file(alloc, model.as_slice()) else {
        return println!(rt; "the model is refused");
    };
    tell(&rt, "read_file", model.len(), begun.elapsed(&rt)?)?;
    let begun = Instant::now(&rt)?;
    let Ok(text) = print_tree(alloc, &tree) else {
        return Ok(());
    };
    tell(&rt, "print_tree", model.len(), begun.elapsed(&rt)?)?;
    println!(rt; "printed as it was read: {}", text.as_slice() == model.as_slice())?;
    let begun = Instant::now(&rt)?;
    let Ok(_value) = Value::from_slice(alloc, objects.as_slice()) else {
        return println!(rt; "the JSON text is refused");
    };
    tell(&rt, "serde_json", objects.len(), begun.elapsed(&rt)?)
}
END
cd "$work/crates/timing" && touch stdin && rt run
