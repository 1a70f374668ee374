#!/bin/sh
# Times `eval` of `${a} * 2 + ${b} > 100 AND ${s} LIKE '%x%'` on 1,000,000 rows, and a plain Rust program that evaluates the
# same tree. A measurement, not a test: it builds a program in a folder of its own, which proves it first.
crates='lk_val lk_postfix lk_types lk_time lk_eval'
uses='lk_val lk_types lk_eval'
. "$(dirname "$0")/workspace.sh"
cat >"$work/crates/timing/src/main.rt" <<'END'
//! Times `eval`.
#![tactic(auto)]

use lk_eval::{are_literals_dated, eval, is_row_dated};
use lk_types::{Arithmetic, Comparison, Expr, Joined, Node, Piece};
use lk_val::{Items, NoMemory, Num, Text, Value};
use std::alloc::Global;
use std::io;
use std::time::Instant;

const ROWS: u32 = 1_000;

const ROUNDS: u32 = 1_000;

fn number(alloc: Global, count: i64) -> Result<Expr, NoMemory> {
    Expr::leaf(alloc, Node::Literal(Value::Num(Num(count))))
}

fn condition(alloc: Global) -> Result<Expr, NoMemory> {
    let a = Expr::leaf(alloc, Node::Column(0, 0))?;
    let b = Expr::leaf(alloc, Node::Column(0, 1))?;
    let s = Expr::leaf(alloc, Node::Column(0, 2))?;
    let twice = Expr::binary(Node::Number(Arithmetic::Times), a, number(alloc, 20_000)?)?;
    let sum = Expr::binary(Node::Number(Arithmetic::Plus), twice, b)?;
    let more = Expr::binary(Node::Compare(Comparison::Greater), sum, number(alloc, 1_000_000)?)?;
    let mut pieces = Items::new(alloc);
    pieces.push(Piece::Any)?;
    pieces.push(Piece::Byte(b'x'))?;
    pieces.push(Piece::Any)?;
    let like = Expr::unary(Node::Like(pieces), s)?;
    Expr::binary(Node::And, more, like)
}

fn rows(alloc: Global) -> Result<Vec<Joined>, NoMemory> {
    let mut rows = Vec::new(alloc);
    for i in 0..ROWS {
        let letter = if i % 3 == 0 { "x" } else { "y" };
        let mut cells = Items::new(alloc);
        cells.push(Value::Num(Num(i64::from(i) * 1_000)))?;
        cells.push(Value::Num(Num(i64::from(i % 7) * 10_000)))?;
        cells.push(Value::Text(Text::from_string(format!(in alloc; "order {letter} {i}")?)))?;
        let mut parts = Items::new(alloc);
        parts.push(Some(cells))?;
        rows.push(Joined { parts })?;
    }
    Ok(rows)
}

// How many rows meet the condition; 0 more for a row with a day out of range.
fn meeting(alloc: Global, e: &Expr, rows: &[Joined]) -> Result<usize, NoMemory> {
    let mut count = 0usize;
    if !are_literals_dated(e) {
        return Ok(count);
    }
    for row in rows {
        if is_row_dated(row) {
            if let Value::Truth(true) = eval(alloc, e, row)? {
                count = count.saturating_add(1);
            }
        }
    }
    Ok(count)
}

fn main(rt: HostRuntime) -> io::Result<()> {
    let alloc = rt.alloc();
    if let (Ok(e), Ok(rows)) = (condition(alloc), rows(alloc)) {
        let begun = Instant::now(&rt)?;
        let mut count = 0usize;
        for _ in 0..ROUNDS {
            if let Ok(more) = meeting(alloc, &e, rows.as_slice()) {
                count = count.saturating_add(more);
            }
        }
        let took = begun.elapsed(&rt)?.as_micros();
        println!(rt; "lk_eval: {count} rows, {took} microseconds")?;
    }
    Ok(())
}
END
cat >"$work/plain.rs" <<'END'
use std::convert::TryFrom;
use std::time::Instant;

#[derive(Clone)]
enum Value {
    Null,
    Text(String),
    Num(i64),
    Truth(bool),
}

enum Node {
    Column(usize, usize),
    Literal(Value),
    And(Box<Node>, Box<Node>),
    Greater(Box<Node>, Box<Node>),
    Like(Box<Node>, Vec<Piece>),
    Times(Box<Node>, Box<Node>),
    Plus(Box<Node>, Box<Node>),
}

enum Piece {
    Any,
    Byte(u8),
}

fn matches(pattern: &[Piece], text: &[u8]) -> bool {
    match pattern.split_first() {
        None => text.is_empty(),
        Some((Piece::Any, rest)) => (0..=text.len()).any(|n| matches(rest, &text[n..])),
        Some((Piece::Byte(b), rest)) => text.first() == Some(b) && matches(rest, &text[1..]),
    }
}

fn number(v: Option<i64>) -> Value {
    v.map_or(Value::Null, Value::Num)
}

fn rounded(product: i128) -> Option<i64> {
    let half = if product < 0 { -5_000 } else { 5_000 };
    i64::try_from((product + half) / 10_000).ok()
}

fn truth(v: &Value) -> Option<bool> {
    match v {
        Value::Truth(b) => Some(*b),
        _ => None,
    }
}

fn eval(node: &Node, row: &[Option<Vec<Value>>]) -> Value {
    match node {
        Node::Column(part, column) => match &row[*part] {
            Some(cells) => cells[*column].clone(),
            None => Value::Null,
        },
        Node::Literal(v) => v.clone(),
        Node::And(a, b) => match (truth(&eval(a, row)), truth(&eval(b, row))) {
            (Some(false), _) | (_, Some(false)) => Value::Truth(false),
            (Some(true), Some(true)) => Value::Truth(true),
            _ => Value::Null,
        },
        Node::Greater(a, b) => match (eval(a, row), eval(b, row)) {
            (Value::Num(a), Value::Num(b)) => Value::Truth(a > b),
            _ => Value::Null,
        },
        Node::Like(a, pattern) => match eval(a, row) {
            Value::Text(t) => Value::Truth(matches(pattern, t.as_bytes())),
            _ => Value::Null,
        },
        Node::Times(a, b) => match (eval(a, row), eval(b, row)) {
            (Value::Num(a), Value::Num(b)) => number(rounded(i128::from(a) * i128::from(b))),
            _ => Value::Null,
        },
        Node::Plus(a, b) => match (eval(a, row), eval(b, row)) {
            (Value::Num(a), Value::Num(b)) => number(a.checked_add(b)),
            _ => Value::Null,
        },
    }
}

fn main() {
    let twice = Node::Times(Box::new(Node::Column(0, 0)), Box::new(Node::Literal(Value::Num(20_000))));
    let sum = Node::Plus(Box::new(twice), Box::new(Node::Column(0, 1)));
    let more = Node::Greater(Box::new(sum), Box::new(Node::Literal(Value::Num(1_000_000))));
    let like = Node::Like(Box::new(Node::Column(0, 2)), vec![Piece::Any, Piece::Byte(b'x'), Piece::Any]);
    let e = Node::And(Box::new(more), Box::new(like));
    let rows: Vec<Vec<Option<Vec<Value>>>> = (0..1_000i64)
        .map(|i| {
            let letter = if i % 3 == 0 { "x" } else { "y" };
            vec![Some(vec![Value::Num(i * 1_000), Value::Num(i % 7 * 10_000), Value::Text(format!("order {letter} {i}"))])]
        })
        .collect();
    let begun = Instant::now();
    let mut count = 0;
    for _ in 0..1_000 {
        count += rows.iter().filter(|row| truth(&eval(&e, row)) == Some(true)).count();
    }
    println!("plain Rust: {count} rows, {} microseconds", begun.elapsed().as_micros());
}
END
(cd "$work" && rustc -O -o plain plain.rs && ./plain)
cd "$work/crates/timing" && touch stdin && rt run
