#!/bin/sh
# Times tables: the reading of a batch of 400,000 rows in three columns (16 MB), an append of 1,000 rows to 1,000,000,
# a look at each of 1,000,000 numbers beside plain Rust over a `Vec<Option<i64>>`, and batches that are made to be
# costly; one of them, 8,000,000 records of one byte over 64 columns, is loaded until its cells are found to be over the
# limit. Then it fills tables of 4,000,000 numbers and of 4,000,000 texts, 1,000 of them different, by 16 loads; what a
# table takes is the most memory of that process less that of one which reads a batch and keeps none. With each line stands
# the most memory that its process took. A measurement, not a test: it builds a program in a folder of its own, which proves it
# first, unless PROGRAM names one that was built of the source below.
crates='lk_val lk_postfix lk_types lk_time lk_cell lk_csv lk_region lk_table'
uses='lk_val lk_types lk_table'
. "$(dirname "$0")/workspace.sh"
cat >"$work/crates/timing/src/main.rt" <<'END'
//! Times tables; each line of the standard input names what is timed.
#![tactic(auto)]

ghost use Rattle.std.specs.Prelude.{IfOk, map};
ghost use Rattle.lk_table.specs.Contents.{kind_of};
ghost use Rattle.lk_table.specs.Versions.{IsShaped};

use lk_table::{BatchFault, CellRef, TableVersion, apply, read_batch, rows, size};
use lk_types::{ColumnDef, Kind, TableDef};
use lk_val::{Bytes, Items, NoMemory, Text};
use std::alloc::Global;
use std::io;
use std::time::Instant;

fn column(alloc: Global, name: &str, kind: Kind) -> Result<ColumnDef, NoMemory> {
    Ok(ColumnDef {
        name: Text::from_str(alloc, name)?,
        kind,
    })
}

fn orders(alloc: Global) -> Result<TableDef, NoMemory> {
    let mut columns = Items::new(alloc);
    columns.push(column(alloc, "id", Kind::Number)?)?;
    columns.push(column(alloc, "region", Kind::Text)?)?;
    columns.push(column(alloc, "total", Kind::Number)?)?;
    Ok(TableDef {
        name: Text::from_str(alloc, "orders")?,
        columns,
        key: Some(0),
    })
}

// So many rows of 40 bytes, by their ids.
fn batch(alloc: Global, first: u32, count: u32) -> Result<Bytes, NoMemory> {
    let mut text = Bytes::from_slice(alloc, b"id,region,total\n")?;
    for i in 0..count {
        let id = first.wrapping_add(i);
        let region = id % 1_000;
        text.append(format!(in alloc; "{id},customers-of-region-{region},{id}.25\n")?.as_bytes())?;
    }
    Ok(text)
}

// A table of one column that is no key.
fn single(alloc: Global, kind: Kind) -> Result<TableDef, NoMemory> {
    let mut columns = Items::new(alloc);
    columns.push(column(alloc, "cell", kind)?)?;
    Ok(TableDef {
        name: Text::from_str(alloc, "cells")?,
        columns,
        key: None,
    })
}

// 250,000 cells of ten bytes, 1,000 of them different.
fn cells(alloc: Global) -> Result<Bytes, NoMemory> {
    let mut text = Bytes::from_slice(alloc, b"cell\n")?;
    for i in 0..250_000u32 {
        let cell = 1_000_000_000 + i % 1_000;
        text.append(format!(in alloc; "{cell}\n")?.as_bytes())?;
    }
    Ok(text)
}

fn repeated(alloc: Global, front: &[u8], piece: &[u8], count: u32) -> Result<Bytes, NoMemory> {
    let mut text = Bytes::from_slice(alloc, front)?;
    for _ in 0..count {
        text.append(piece)?;
    }
    Ok(text)
}

fn text_of(alloc: Global, what: &str) -> Result<Bytes, NoMemory> {
    if what == "batch" {
        batch(alloc, 100_000, 400_000)
    } else if what == "records" {
        repeated(alloc, b"id,region,total\n", b"x\n", 8_000_000)
    } else if what == "record" {
        repeated(alloc, b"id,region,total\n", b"x,", 8_000_000)
    } else if what == "quote" {
        repeated(alloc, b"id,region,total\n1,\"", b"x\n", 8_000_000)
    } else if what == "lines" {
        repeated(alloc, b"id,region,total\n", b"\n", 1_000_000)
    } else {
        repeated(alloc, b"id", b",region", 100_000)
    }
}

fn load(
    alloc: Global,
    def: &TableDef,
    table: &TableVersion,
    text: &Bytes,
) -> Result<TableVersion, BatchFault>
    requires { IsShaped (map kind_of def.now.columns) def.now.key table.now }
    ensures { IfOk result (λ version. IsShaped (map kind_of def.now.columns) def.now.key version) }
{
    let read = read_batch(alloc, def, text.as_slice())?;
    apply(alloc, table, &read, false)
}

// The table after so many loads of the text.
fn grown(
    alloc: Global,
    def: &TableDef,
    table: TableVersion,
    text: &Bytes,
    loads: u32,
) -> Result<TableVersion, BatchFault>
    requires { IsShaped (map kind_of def.now.columns) def.now.key table }
{
    if loads == 0 {
        return Ok(table);
    }
    let more = load(alloc, def, &table, text)?;
    grown(alloc, def, more, text, loads - 1)
}

fn filled(alloc: Global, kind: Kind, loads: u32) -> Result<u64, BatchFault> {
    let def = single(alloc, kind)?;
    let text = cells(alloc)?;
    let _read = read_batch(alloc, &def, text.as_slice())?;
    let table = grown(alloc, &def, TableVersion::empty(alloc, &def)?, &text, loads)?;
    Ok(size(&table).cells)
}

// A table of 64 columns, of all kinds in turn, that has no key.
fn wide(alloc: Global) -> Result<TableDef, NoMemory> {
    let kinds = [
        Kind::Text,
        Kind::Number,
        Kind::Truth,
        Kind::Day,
        Kind::Moment,
    ];
    let mut columns = Items::new(alloc);
    for i in 0..64usize {
        let name = format!(in alloc; "column_{i}")?;
        columns.push(column(alloc, name.as_str(), kinds[i % 5])?)?;
    }
    Ok(TableDef {
        name: Text::from_str(alloc, "wide")?,
        columns,
        key: None,
    })
}

// The cells of a table after the text is loaded.
fn widened(alloc: Global, def: &TableDef, text: &Bytes) -> Result<u64, BatchFault> {
    let table = load(alloc, def, &TableVersion::empty(alloc, def)?, text)?;
    Ok(size(&table).cells)
}

fn refuse(rt: &HostRuntime) -> io::Result<()> {
    let alloc = rt.alloc();
    let (Ok(def), Ok(text)) = (
        wide(alloc),
        repeated(alloc, b"column_0\n", b"x\n", 8_000_000),
    ) else {
        return Ok(());
    };
    let begun = Instant::now(rt)?;
    let cells = widened(alloc, &def, &text).unwrap_or(0);
    let took = begun.elapsed(rt)?.as_millis();
    let is_over = cells > 4_000_000;
    println!(rt; "wide: {cells} cells in {took} ms, over the limit: {is_over}")
}

fn total(table: &TableVersion) -> i64 {
    let all = rows(table);
    let mut sum = 0i64;
    for row in 0..all.len() {
        if let CellRef::Num(number) = all.cell(row, 2) {
            sum = sum.wrapping_add(number.0);
        }
    }
    sum
}

fn look(rt: &HostRuntime, table: &TableVersion) -> io::Result<()> {
    let begun = Instant::now(rt)?;
    let sum = total(table);
    let took = begun.elapsed(rt)?.as_micros();
    println!(rt; "1,000,000 numbers of a table: {took} us, {sum}")
}

fn million(alloc: Global, def: &TableDef) -> Result<TableVersion, BatchFault>
    ensures { IfOk result (λ version. IsShaped (map kind_of def.now.columns) def.now.key version) }
{
    let text = batch(alloc, 0, 1_000_000)?;
    let empty = TableVersion::empty(alloc, def)?;
    load(alloc, def, &empty, &text)
}

fn append(rt: &HostRuntime) -> io::Result<()> {
    let alloc = rt.alloc();
    let (Ok(def), Ok(more)) = (orders(alloc), batch(alloc, 1_000_000, 1_000)) else {
        return Ok(());
    };
    let Ok(table) = million(alloc, &def) else {
        return Ok(());
    };
    let begun = Instant::now(rt)?;
    let is_appended = load(alloc, &def, &table, &more).is_ok();
    let took = begun.elapsed(rt)?.as_micros();
    println!(rt; "1,000 rows behind 1,000,000: {took} us, appended: {is_appended}")?;
    look(rt, &table)
}

fn fill(rt: &HostRuntime, kind: &str, loads: &str) -> io::Result<()> {
    let column = if kind == "numbers" {
        Kind::Number
    } else {
        Kind::Text
    };
    let loads = loads.parse::<u32>().unwrap_or(0);
    let cells = filled(rt.alloc(), column, loads).unwrap_or(0);
    println!(rt; "{kind}, {loads} loads: {cells} cells")
}

fn read(rt: &HostRuntime, what: &str) -> io::Result<()> {
    let (Ok(def), Ok(text)) = (orders(rt.alloc()), text_of(rt.alloc(), what)) else {
        return Ok(());
    };
    let size = text.len();
    let begun = Instant::now(rt)?;
    let is_read = read_batch(rt.alloc(), &def, text.as_slice()).is_ok();
    let took = begun.elapsed(rt)?.as_millis();
    println!(rt; "{what}: {size} bytes in {took} ms, read: {is_read}")
}

fn run(rt: &HostRuntime, what: &str) -> io::Result<()> {
    if what == "append" {
        return append(rt);
    }
    if what == "wide" {
        return refuse(rt);
    }
    match what.split_once(" ") {
        Some((kind, loads)) => fill(rt, kind, loads),
        None => read(rt, what),
    }
}

fn main(rt: HostRuntime) -> io::Result<()> {
    for line in rt.lines(rt.alloc()) {
        let line = line?;
        run(&rt, line.as_str())?;
    }
    Ok(())
}
END
mkdir -p "$work/crates/timing/proofs/+grown"
cat >"$work/crates/timing/proofs/+grown/Invariants.antt" <<'END'
use Rattle.timing.proofs.+grown.Given as goal

abbrev pub decreases-grown : goal.decreases-grown
decreases-grown l = l.loads
END
cat >"$work/plain.rs" <<'END'
// The same numbers in plain Rust.
use std::time::Instant;

fn main() {
    let numbers: Vec<Option<i64>> = (0..1_000_000i64).map(|id| Some(id * 10_000 + 2_500)).collect();
    let begun = Instant::now();
    let mut sum = 0i64;
    for row in 0..std::hint::black_box(numbers.len()) {
        if let Some(number) = std::hint::black_box(&numbers)[row] {
            sum = sum.wrapping_add(number);
        }
    }
    println!("plain Rust: {} us, {sum}", begun.elapsed().as_micros());
}
END
(cd "$work" && rustc -O -o plain plain.rs) || exit 1
if [ -z "$PROGRAM" ]; then
    (cd "$work/crates/timing" && touch stdin && rt run) >"$work/build.log" 2>&1
    PROGRAM=$work/crates/timing/out/timing
    [ -x "$PROGRAM" ] || { tail -n 40 "$work/build.log"; exit 1; }
fi
for what in batch append records record quote lines names wide 'numbers 0' 'numbers 16' 'texts 0' 'texts 16'; do
    echo "$what" | /usr/bin/time -f '  at most %M KB of memory' "$PROGRAM"
done
/usr/bin/time -f '  at most %M KB of memory' "$work/plain"
