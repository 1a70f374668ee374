#!/bin/sh
# Times the interning of 1,000,000 texts of ten bytes, 1,000 of them different, in a region of `lk_region`, beside plain Rust: a
# `HashMap` from texts to numbers over a `Vec<u8>` that holds each text once. A measurement, not a test: it builds a program in
# a folder of its own, which proves it first, unless PROGRAM names one that was built of the source below.
crates='lk_val lk_region'
uses='lk_val lk_region'
. "$(dirname "$0")/workspace.sh"
cat >"$work/crates/timing/src/main.rt" <<'END'
//! Times interning: each line of the standard input is one run.
#![tactic(auto)]

use lk_region::Region;
use lk_val::{Bytes, NoMemory};
use std::alloc::Global;
use std::io;
use std::time::Instant;

// 1,000 texts of ten bytes, one behind the other.
fn texts(alloc: Global) -> Result<Bytes, NoMemory> {
    let mut bytes = Bytes::new(alloc);
    for number in 0..1_000u32 {
        let number = 1_000_000_000 + number;
        bytes.append(format!(in alloc; "{number}")?.as_bytes())?;
    }
    Ok(bytes)
}

// The sum of the marks of so many texts, and how many texts are kept.
fn interned(alloc: Global, texts: &Bytes, count: u32) -> Result<(u64, u64), NoMemory> {
    let mut region = Region::new(alloc);
    let mut sum = 0u64;
    for i in 0..count {
        let place = (i % 1_000) as usize * 10;
        if let Some(text) = texts.as_slice().get(place..place + 10) {
            sum = sum.wrapping_add(region.intern(text)?.0);
        }
    }
    Ok((sum, region.len()))
}

fn main(rt: HostRuntime) -> io::Result<()> {
    let Ok(given) = texts(rt.alloc()) else {
        return Ok(());
    };
    for line in rt.lines(rt.alloc()) {
        let _line = line?;
        let begun = Instant::now(&rt)?;
        let (sum, kept) = interned(rt.alloc(), &given, 1_000_000).unwrap_or((0, 0));
        let took = begun.elapsed(&rt)?.as_micros();
        println!(rt; "a region: {took} us, {kept} texts, {sum}")?;
    }
    Ok(())
}
END
cat >"$work/plain.rs" <<'END'
// The same in plain Rust.
use std::collections::HashMap;
use std::time::Instant;

struct Arena {
    bytes: Vec<u8>,
    ends: Vec<usize>,
    marks: HashMap<Vec<u8>, u64>,
}

impl Arena {
    fn intern(&mut self, text: &[u8]) -> u64 {
        if let Some(mark) = self.marks.get(text) {
            return *mark;
        }
        let mark = self.ends.len() as u64;
        self.bytes.extend_from_slice(text);
        self.ends.push(self.bytes.len());
        self.marks.insert(text.to_vec(), mark);
        mark
    }
}

fn main() {
    let texts: Vec<u8> = (0..1_000u32).flat_map(|n| (1_000_000_000 + n).to_string().into_bytes()).collect();
    for _ in 0..3 {
        let begun = Instant::now();
        let mut arena = Arena { bytes: Vec::new(), ends: Vec::new(), marks: HashMap::new() };
        let mut sum = 0u64;
        for i in 0..1_000_000usize {
            let place = i % 1_000 * 10;
            sum = sum.wrapping_add(arena.intern(std::hint::black_box(&texts[place..place + 10])));
        }
        println!("plain Rust: {} us, {} texts, {sum}", begun.elapsed().as_micros(), arena.ends.len());
    }
}
END
(cd "$work" && rustc -O -o plain plain.rs) || exit 1
if [ -z "$PROGRAM" ]; then
    (cd "$work/crates/timing" && touch stdin && rt run) >"$work/build.log" 2>&1
    PROGRAM=$work/crates/timing/out/timing
    [ -x "$PROGRAM" ] || { tail -n 40 "$work/build.log"; exit 1; }
fi
printf 'once\nagain\nand again\n' | "$PROGRAM"
"$work/plain"
