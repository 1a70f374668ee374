#!/bin/sh
# Times `passes` on 1,000,000 values and filters of five tests, one kind of value after the other, and a plain Rust program
# with the same tests. A measurement, not a test: it builds a program in a folder of its own, which proves it first.
crates='lk_val lk_postfix lk_types lk_grammar lk_filter_number lk_filter_text lk_filter_date lk_filter'
uses='lk_val lk_types lk_filter'
. "$(dirname "$0")/workspace.sh"
cat >"$work/crates/timing/src/main.rt" <<'END'
//! Times `passes`.
#![tactic(auto)]

use lk_filter::passes;
use lk_types::{Comparison, Days, Edge, End, Filter, Piece, Test};
use lk_val::{Items, NoMemory, Num, Text, Value};
use std::alloc::Global;
use std::io;
use std::time::Instant;

const COUNT: u32 = 1_000_000;

fn filter(alloc: Global, tests: Vec<Test>) -> Filter {
    Filter {
        include: Items::from_vec(tests),
        exclude: Items::new(alloc),
        relative: false,
    }
}

// A pattern in which `%` is any characters.
fn like(alloc: Global, pattern: &str) -> Result<Test, NoMemory> {
    let mut pieces = Items::new(alloc);
    for byte in pattern.as_bytes() {
        pieces.push(if *byte == b'%' {
            Piece::Any
        } else {
            Piece::Byte(*byte)
        })?;
    }
    Ok(Test::Like(pieces))
}

fn texts(alloc: Global) -> Result<Filter, NoMemory> {
    let tests = vec![in alloc;
        like(alloc, "complete")?,
        like(alloc, "order 77%")?,
        like(alloc, "%9999")?,
        like(alloc, "%1%2%3%")?,
        Test::Null
    ]?;
    Ok(filter(alloc, tests))
}

fn numbers(alloc: Global) -> Result<Filter, NoMemory> {
    let between = vec![in alloc; (Comparison::Greater, Num(5_000_000)), (Comparison::Less, Num(6_000_000))]?;
    let low = End {
        edge: Edge::At(Num(7_000_000)),
        closed: true,
    };
    let high = End {
        edge: Edge::At(Num(8_000_000)),
        closed: false,
    };
    let tests = vec![in alloc;
        Test::Is(Num(50_000)),
        Test::Compare(Items::from_vec(between)),
        Test::To(Some(Num(100_000)), Some(Num(200_000))),
        Test::Range(low, high),
        Test::Null
    ]?;
    Ok(filter(alloc, tests))
}

fn span(from: i32, up_to: i32) -> Days {
    Days { from, up_to }
}

fn dates(alloc: Global) -> Result<Filter, NoMemory> {
    let tests = vec![in alloc;
        Test::In(span(19_754, 19_783)),
        Test::Before(span(365, 730)),
        Test::After(span(39_000, 39_001)),
        Test::FromTo(span(10_000, 10_001), span(11_000, 11_001)),
        Test::Null
    ]?;
    Ok(filter(alloc, tests))
}

fn truths(alloc: Global) -> Result<Filter, NoMemory> {
    let tests = vec![in alloc; Test::Null, Test::Empty, Test::Null, Test::Empty, Test::Truth(true)]?;
    Ok(filter(alloc, tests))
}

fn text_values(alloc: Global) -> Result<Vec<Value>, NoMemory> {
    let mut values = Vec::new(alloc);
    for i in 0..COUNT {
        values.push(Value::Text(Text::from_string(format!(in alloc; "order {i}")?)))?;
    }
    Ok(values)
}

fn number_values(alloc: Global) -> Result<Vec<Value>, NoMemory> {
    let mut values = Vec::new(alloc);
    for i in 0..COUNT {
        values.push(Value::Num(Num(i64::from(i) * 100)))?;
    }
    Ok(values)
}

fn date_values(alloc: Global) -> Result<Vec<Value>, NoMemory> {
    let mut values = Vec::new(alloc);
    for i in 0..COUNT {
        values.push(Value::Day((i % 40_000) as i32))?;
    }
    Ok(values)
}

fn truth_values(alloc: Global) -> Result<Vec<Value>, NoMemory> {
    let mut values = Vec::new(alloc);
    for i in 0..COUNT {
        values.push(Value::Truth(i % 2 == 0))?;
    }
    Ok(values)
}

fn time(rt: &HostRuntime, kind: &str, filter: &Filter, values: &[Value]) -> io::Result<()> {
    let begun = Instant::now(rt)?;
    let passed = values.iter().filter(|value| passes(filter, value)).count();
    let took = begun.elapsed(rt)?.as_micros();
    println!(rt; "lk_filter {kind}: {passed} pass, {took} microseconds")
}

fn main(rt: HostRuntime) -> io::Result<()> {
    let alloc = rt.alloc();
    if let (Ok(filter), Ok(values)) = (texts(alloc), text_values(alloc)) {
        time(&rt, "texts", &filter, values.as_slice())?;
    }
    if let (Ok(filter), Ok(values)) = (numbers(alloc), number_values(alloc)) {
        time(&rt, "numbers", &filter, values.as_slice())?;
    }
    if let (Ok(filter), Ok(values)) = (dates(alloc), date_values(alloc)) {
        time(&rt, "dates", &filter, values.as_slice())?;
    }
    if let (Ok(filter), Ok(values)) = (truths(alloc), truth_values(alloc)) {
        time(&rt, "truth values", &filter, values.as_slice())?;
    }
    Ok(())
}
END
cat >"$work/plain.rs" <<'END'
use std::time::Instant;

enum Value {
    Text(String),
    Num(i64),
    Truth(bool),
    Day(i32),
}

enum Test {
    Null,
    Like(&'static str),
    Is(i64),
    Between(i64, i64),
    To(i64, i64),
    Range(i64, i64),
    In(i32, i32),
    Before(i32),
    After(i32),
    Truth(bool),
}

fn like(pattern: &[u8], text: &[u8]) -> bool {
    let (mut p, mut t, mut back) = (0, 0, None);
    while t < text.len() {
        if p < pattern.len() && pattern[p] == b'%' {
            back = Some((p, t));
            p += 1;
        } else if p < pattern.len() && pattern[p] == text[t] {
            p += 1;
            t += 1;
        } else if let Some((q, u)) = back {
            back = Some((q, u + 1));
            p = q + 1;
            t = u + 1;
        } else {
            return false;
        }
    }
    pattern[p..].iter().all(|c| *c == b'%')
}

fn meets(value: &Value, test: &Test) -> bool {
    match (value, test) {
        (Value::Text(t), Test::Like(p)) => like(p.as_bytes(), t.as_bytes()),
        (Value::Num(n), Test::Is(m)) => n == m,
        (Value::Num(n), Test::Between(a, b)) => a < n && n < b,
        (Value::Num(n), Test::To(a, b)) => a <= n && n <= b,
        (Value::Num(n), Test::Range(a, b)) => a <= n && n < b,
        (Value::Day(d), Test::In(a, b)) => a <= d && d < b,
        (Value::Day(d), Test::Before(a)) => d < a,
        (Value::Day(d), Test::After(a)) => a <= d,
        (Value::Truth(v), Test::Truth(b)) => v == b,
        _ => false,
    }
}

fn time(kind: &str, tests: &[Test], values: &[Value]) {
    let begun = Instant::now();
    let passed = values.iter().filter(|v| tests.iter().any(|t| meets(v, t))).count();
    println!("plain Rust {kind}: {passed} pass, {} microseconds", begun.elapsed().as_micros());
}

fn main() {
    let n = 1_000_000;
    let texts = [Test::Like("complete"), Test::Like("order 77%"), Test::Like("%9999"), Test::Like("%1%2%3%"), Test::Null];
    time("texts", &texts, &(0..n).map(|i| Value::Text(format!("order {i}"))).collect::<Vec<_>>());
    let numbers = [Test::Is(50_000), Test::Between(5_000_000, 6_000_000), Test::To(100_000, 200_000), Test::Range(7_000_000, 8_000_000), Test::Null];
    time("numbers", &numbers, &(0..n).map(|i| Value::Num(i * 100)).collect::<Vec<_>>());
    let dates = [Test::In(19_754, 19_783), Test::Before(365), Test::After(39_000), Test::In(10_000, 11_000), Test::Null];
    time("dates", &dates, &(0..n).map(|i| Value::Day((i % 40_000) as i32)).collect::<Vec<_>>());
    let truths = [Test::Null, Test::Null, Test::Null, Test::Null, Test::Truth(true)];
    time("truth values", &truths, &(0..n).map(|i| Value::Truth(i % 2 == 0)).collect::<Vec<_>>());
}
END
(cd "$work" && rustc -O -o plain plain.rs && ./plain)
cd "$work/crates/timing" && touch stdin && rt run
