#!/bin/sh
# Times an accumulator of a count, an average and a sum over keys on 1,000,000 rows in 1, 1,000 and 100,000 groups, and
# plain Rust that does the same with ordered maps of groups and of keys. The keys come ascending twice, or scattered, or
# ascending as texts of eight bytes, which both write anew for each row. Where the accumulator is not finished, its memory
# is seen without the answer's.
# With each line stands the most memory that its process took. A measurement, not a test: it builds a program in a
# folder of its own, which proves it first.
crates='lk_val lk_postfix lk_types lk_semantics lk_agg'
uses='lk_val lk_types lk_agg'
. "$(dirname "$0")/workspace.sh"
cat >"$work/crates/timing/src/main.rt" <<'END'
//! Times an accumulator on rows in so many groups, with keys that ascend or are scattered, as the standard input says.
#![tactic(auto)]

use lk_agg::{Acc, AccShape, AggFault, KeyRef, Op};
use lk_val::{Items, NoMemory, Num, ValueRef};
use std::alloc::Global;
use std::io;
use std::time::Instant;

const ROWS: u32 = 1_000_000;

const KEYS: u32 = 500_000;

fn accumulator(alloc: Global) -> Result<Acc, NoMemory> {
    let mut ops = Items::new(alloc);
    ops.push(Op::Count)?;
    ops.push(Op::Average)?;
    ops.push(Op::Sum)?;
    Acc::new(alloc, AccShape { dims: 1, ops })
}

fn number(count: u32) -> ValueRef<'static> {
    ValueRef::Num(Num(i64::from(count) * 10_000))
}

// The group of a key, scattered over so many.
fn group_of(key: u32, groups: u32) -> u32 {
    let place = key.checked_rem(groups).unwrap_or(0);
    place.wrapping_mul(7_919).checked_rem(groups).unwrap_or(0)
}

#[derive(Clone, Copy)]
enum Keys {
    Ascending,
    Scattered,
    Texts,
}

fn keys_of(word: &str) -> Keys {
    if word == "scattered" {
        Keys::Scattered
    } else if word == "texts" {
        Keys::Texts
    } else {
        Keys::Ascending
    }
}

// Two rows have each key.
fn key_of(row: u32, keys: Keys) -> u32 {
    let key = row % KEYS;
    match keys {
        Keys::Scattered => key.wrapping_mul(7_919) % KEYS,
        Keys::Ascending | Keys::Texts => key,
    }
}

// The value is the same at both rows of a key.
fn give(
    acc: &mut Acc,
    groups: u32,
    number_of_key: u32,
    key: ValueRef<'_>,
    row: u32,
) -> Result<(), NoMemory> {
    let group = [number(group_of(number_of_key, groups))];
    let cells = [
        KeyRef { key: None, value: ValueRef::Null, counts: true },
        KeyRef { key: None, value: number(row % 1_000), counts: true },
        KeyRef { key: Some(key), value: number(number_of_key % 1_000), counts: true },
    ];
    acc.add_refs(&group, &cells, u64::from(row))
}

fn add_row(
    alloc: Global,
    acc: &mut Acc,
    groups: u32,
    keys: Keys,
    row: u32,
) -> Result<(), NoMemory> {
    let key = key_of(row, keys);
    match keys {
        Keys::Ascending | Keys::Scattered => give(acc, groups, key, number(key), row),
        Keys::Texts => {
            let eight_digits = key.wrapping_add(10_000_000);
            let text = format!(in alloc; "{eight_digits}")?;
            give(acc, groups, key, ValueRef::Text(text.as_str()), row)
        }
    }
}

fn add_rows(alloc: Global, acc: &mut Acc, groups: u32, keys: Keys) -> Result<(), NoMemory> {
    for row in 0..ROWS {
        add_row(alloc, acc, groups, keys, row)?;
    }
    Ok(())
}

// How many groups come of the rows; none where they are not finished.
fn groups_of(
    alloc: Global,
    groups: u32,
    keys: Keys,
    is_finished: bool,
) -> Result<usize, AggFault> {
    let mut acc = accumulator(alloc)?;
    add_rows(alloc, &mut acc, groups, keys)?;
    if !is_finished {
        return Ok(0);
    }
    Ok(acc.finish()?.len())
}

fn main(rt: HostRuntime) -> io::Result<()> {
    for line in rt.lines(rt.alloc()) {
        let line = line?;
        let (groups, keys) = line.split_once(' ').unwrap_or((line.as_str(), "ascending"));
        let (keys, is_finished) = match keys.split_once(' ') {
            Some((keys, _)) => (keys, false),
            None => (keys, true),
        };
        let groups = groups.parse::<u32>().unwrap_or(1).max(1);
        let begun = Instant::now(&rt)?;
        let found = groups_of(rt.alloc(), groups, keys_of(keys), is_finished);
        let took = begun.elapsed(&rt)?.as_millis();
        match found {
            Ok(count) => println!(&rt; "lk_agg: {count} groups, {keys} keys, {took} ms")?,
            Err(_) => println!(&rt; "lk_agg: no answer")?,
        }
    }
    Ok(())
}
END
cat >"$work/plain.rs" <<'END'
// The same in plain Rust.
use std::collections::BTreeMap;
use std::time::Instant;

const ROWS: u32 = 1_000_000;

const KEYS: u32 = 500_000;

#[derive(Clone, Copy, PartialEq, Eq, PartialOrd, Ord)]
enum Value {
    #[allow(dead_code)]
    Null,
    Num(i64),
}

fn number(count: u32) -> Value {
    Value::Num(i64::from(count) * 10_000)
}

#[derive(PartialEq, Eq, PartialOrd, Ord)]
enum Key {
    Num(i64),
    Text(String),
}

#[derive(Default)]
struct Group {
    count: u64,
    sum: i128,
    values: u64,
    keys: BTreeMap<Key, Value>,
    conflict: bool,
}

fn main() {
    let mut line = String::new();
    std::io::stdin().read_line(&mut line).unwrap();
    let (groups, keys) = line.trim().split_once(' ').unwrap();
    let groups: u32 = groups.parse().unwrap();
    let (scattered, texts) = (keys == "scattered", keys == "texts");
    let begun = Instant::now();
    let mut all: BTreeMap<Vec<Value>, Group> = BTreeMap::new();
    for row in 0..ROWS {
        let key = row % KEYS;
        let key = if scattered { key.wrapping_mul(7_919) % KEYS } else { key };
        let name = vec![number((key % groups).wrapping_mul(7_919) % groups)];
        let group = all.entry(name).or_default();
        group.count += 1;
        if let Value::Num(n) = number(row % 1_000) {
            group.sum += i128::from(n);
            group.values += 1;
        }
        let value = number(key % 1_000);
        let key = if texts { Key::Text((key + 10_000_000).to_string()) } else { Key::Num(i64::from(key) * 10_000) };
        if *group.keys.entry(key).or_insert(value) != value {
            group.conflict = true;
        }
    }
    let mut total = 0i128;
    for group in all.values() {
        total += group.sum / i128::from(group.values.max(1)) + i128::from(group.count);
        total += group.keys.values().map(|v| if let Value::Num(n) = v { i128::from(*n) } else { 0 }).sum::<i128>();
        assert!(!group.conflict);
    }
    println!("plain Rust: {} groups, {keys} keys, {} ms, {total}", all.len(), begun.elapsed().as_millis());
}
END
(cd "$work" && rustc -O -o plain plain.rs) || exit 1
(cd "$work/crates/timing" && touch stdin && rt run) >"$work/build.log" 2>&1 || { tail -n 40 "$work/build.log"; exit 1; }
for groups in 1 1000 100000; do
    for keys in ascending scattered texts; do
        for program in "$work/crates/timing/out/timing" "$work/plain"; do
            echo "$groups $keys" | /usr/bin/time -f '  at most %M KB of memory' "$program"
        done
    done
done
for keys in ascending scattered texts; do
    echo "100000 $keys unfinished" | /usr/bin/time -f '  at most %M KB of memory' "$work/crates/timing/out/timing"
done
