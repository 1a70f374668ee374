#!/bin/sh
# Times `read_expr` on right texts of 1 KB to 1 MB, and on the same texts with a fault at their end. A measurement, not a
# test: it builds a program in a folder of its own, which proves it first.
crates='lk_val lk_postfix lk_types lk_grammar lk_utf8 lk_expr_token lk_expr_tree lk_expr_text lk_expr_place'
uses='lk_val lk_expr_place'
. "$(dirname "$0")/workspace.sh"
cat >"$work/crates/timing/src/main.rt" <<'END'
//! Times `read_expr` on right texts and on refused ones.
#![tactic(auto)]

use lk_expr_place::{ExprFault, read_expr};
use lk_val::NoMemory;
use std::alloc::Global;
use std::io;
use std::time::Instant;

const SIZES: [usize; 4] = [1_024, 4_096, 65_536, 1_048_576];

const PART: &[u8] = b"${a} * 2 + ${b} > 100 AND ${s} LIKE '%x%' OR ";

const LAST: &[u8] = b"${a}";

// What makes a right text a refused one, at its end.
const FAULTS: [(&str, &[u8]); 7] = [
    ("a sign at the end", b" +"),
    ("an unclosed text", b" = 'x"),
    ("a bracket too much", b")"),
    ("an unknown character", b" #"),
    ("two comparisons", b" = = 1"),
    ("a misspelt keyword", b" adn ${b}"),
    ("a missing sign", b" ${b}"),
];

// The part again and again up to the size, and the end.
fn text_of(alloc: Global, size: usize, end: &[u8]) -> Result<Vec<u8>, NoMemory> {
    let mut text = Vec::new(alloc);
    for _ in 0..size {
        if text.len() >= size {
            break;
        }
        text.extend_from_slice(PART)?;
    }
    text.extend_from_slice(LAST)?;
    text.extend_from_slice(end)?;
    Ok(text)
}

// The place of a fault, and none where the text is read.
fn place_in(alloc: Global, text: &[u8]) -> Option<u32> {
    match read_expr(alloc, text) {
        Err(ExprFault::E1(place) | ExprFault::E2(place)) => Some(place),
        _ => None,
    }
}

// How often a text of this size is read.
fn rounds_of(size: usize) -> usize {
    match size {
        0..2_000 => 200,
        2_000..10_000 => 50,
        10_000..100_000 => 10,
        _ => 3,
    }
}

// How long a read of the text takes at least, in microseconds, and the place of its fault.
fn time_text(rt: &HostRuntime, text: &[u8], rounds: usize) -> io::Result<(u128, Option<u32>)> {
    let alloc = rt.alloc();
    let mut least = u128::MAX;
    let mut place = None;
    for _ in 0..rounds {
        let begun = Instant::now(rt)?;
        place = place_in(alloc, text);
        least = least.min(begun.elapsed(rt)?.as_micros());
    }
    Ok((least.max(1), place))
}

fn time_size(rt: &HostRuntime, size: usize) -> io::Result<()> {
    let alloc = rt.alloc();
    let Ok(right) = text_of(alloc, size, b"") else {
        return Ok(());
    };
    let rounds = rounds_of(size);
    let (read, _) = time_text(rt, right.as_slice(), rounds)?;
    println!(rt; "{} bytes, read: {read} microseconds", right.len())?;
    for (what, end) in FAULTS {
        let Ok(text) = text_of(alloc, size, end) else {
            return Ok(());
        };
        if let (took, Some(place)) = time_text(rt, text.as_slice(), rounds)? {
            let tenths = took.saturating_mul(10) / read.max(1);
            println!(rt; "  {what}, at {place}: {took} microseconds, {}.{} times", tenths / 10, tenths % 10)?;
        }
    }
    Ok(())
}

fn main(rt: HostRuntime) -> io::Result<()> {
    for size in SIZES {
        time_size(&rt, size)?;
    }
    Ok(())
}
END
cd "$work/crates/timing" && touch stdin && rt run
