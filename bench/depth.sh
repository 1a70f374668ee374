#!/bin/sh
# Evaluates expressions of 10,000 nodes of several shapes, takes their kinds, copies and drops them, within 1 MB of stack.
# A measurement, not a test: it builds a program in a folder of its own, which proves it first.
crates='lk_val lk_postfix lk_types lk_time lk_eval'
uses='lk_val lk_postfix lk_types lk_eval'
. "$(dirname "$0")/workspace.sh"
cat >"$work/crates/timing/src/main.rt" <<'END'
//! Builds an expression for each line of the standard input, by a shape and how often it repeats, and shows its value.
#![tactic(auto)]

use lk_eval::{Clash, are_literals_dated, eval, is_row_dated, kind_of};
use lk_types::{Arithmetic, Comparison, Expr, Joined, Kind, Leaves, Node};
use lk_val::{Copied, Items, NoMemory, Num, Value};
use std::alloc::Global;
use std::io;
use std::time::Instant;

fn number(count: i64) -> Node {
    Node::Literal(Value::Num(Num(count)))
}

// The column is so much.
fn compare(nodes: &mut Items<Node>, count: i64) -> Result<(), NoMemory> {
    nodes.push(Node::Column(0, 0))?;
    nodes.push(number(count))?;
    nodes.push(Node::Compare(Comparison::Equal))
}

// The nodes of a shape, so often; the column holds 3.
fn nodes_of(alloc: Global, shape: &str, times: usize) -> Result<Items<Node>, NoMemory> {
    let mut nodes = Items::new(alloc);
    match shape {
        // FALSE OR FALSE .. OR TRUE, with so many ORs
        "ors" => {
            nodes.push(Node::Literal(Value::Truth(false)))?;
            for _ in 1..times {
                nodes.push(Node::Literal(Value::Truth(false)))?;
                nodes.push(Node::Or)?;
            }
            nodes.push(Node::Literal(Value::Truth(true)))?;
            nodes.push(Node::Or)?;
        }
        // 3 = 1 OR 3 = 1 .. OR 3 = 3
        "or" => {
            compare(&mut nodes, 10_000)?;
            for _ in 1..times {
                compare(&mut nodes, 10_000)?;
                nodes.push(Node::Or)?;
            }
            compare(&mut nodes, 30_000)?;
            nodes.push(Node::Or)?;
        }
        // 1 + (1 + (.. 1)), as deep as there are ones
        "sum" => {
            for _ in 0..times {
                nodes.push(number(10_000))?;
            }
            for _ in 1..times {
                nodes.push(Node::Number(Arithmetic::Plus))?;
            }
        }
        // NOT NOT .. NOT TRUE
        "not" => {
            nodes.push(Node::Literal(Value::Truth(true)))?;
            for _ in 0..times {
                nodes.push(Node::Not)?;
            }
        }
        // 3 IN (1, 1, .. 3)
        "in" => {
            nodes.push(Node::Column(0, 0))?;
            for _ in 1..times {
                nodes.push(number(10_000))?;
            }
            nodes.push(number(30_000))?;
            nodes.push(Node::In(times.saturating_add(1)))?;
        }
        // CASE WHEN FALSE THEN 1 .. WHEN FALSE THEN 1 ELSE 3 END
        _ => {
            for _ in 0..times {
                nodes.push(Node::Literal(Value::Truth(false)))?;
                nodes.push(number(10_000))?;
            }
            nodes.push(Node::Column(0, 0))?;
            nodes.push(Node::Case(times.saturating_mul(2).saturating_add(1)))?;
        }
    }
    Ok(nodes)
}

fn row(alloc: Global) -> Result<Joined, NoMemory> {
    let mut cells = Items::new(alloc);
    cells.push(Value::Num(Num(30_000)))?;
    let mut parts = Items::new(alloc);
    parts.push(Some(cells))?;
    Ok(Joined { parts })
}

fn leaves(alloc: Global) -> Result<Leaves, NoMemory> {
    let mut columns = Items::new(alloc);
    columns.push(Kind::Number)?;
    let mut kinds = Items::new(alloc);
    kinds.push(columns)?;
    Ok(Leaves { kinds })
}

// The kind and the value of a copy of the expression.
fn answer(alloc: Global, e: &Expr) -> Result<String, NoMemory> {
    let copy = e.copied(alloc)?;
    let row = row(alloc)?;
    let kind = match kind_of(alloc, &copy, &leaves(alloc)?) {
        Ok(Some(Kind::Truth)) => "a truth value",
        Ok(Some(Kind::Number)) => "a number",
        Ok(_) => "another kind",
        Err(Clash::E3) => "a clash",
        Err(Clash::NoMemory) => return Err(NoMemory),
    };
    if !are_literals_dated(&copy) || !is_row_dated(&row) {
        return Ok(String::from_str(alloc, "out of the years")?);
    }
    let value = match eval(alloc, &copy, &row)? {
        Value::Truth(true) => String::from_str(alloc, "yes")?,
        Value::Truth(false) => String::from_str(alloc, "no")?,
        Value::Num(Num(count)) => format!(in alloc; "{count} / 10000")?,
        _ => String::from_str(alloc, "another value")?,
    };
    Ok(format!(in alloc; "{kind}, {value}")?)
}

fn main(rt: HostRuntime) -> io::Result<()> {
    for line in rt.lines(rt.alloc()) {
        let line = line?;
        let (shape, times) = line.split_once(' ').unwrap_or((line.as_str(), "1"));
        if let Ok(nodes) = nodes_of(rt.alloc(), shape, times.parse::<usize>().unwrap_or(1)) {
            let count = nodes.len();
            if let Some(e) = Expr::from_nodes(nodes) {
                let begun = Instant::now(&rt)?;
                let answer = answer(rt.alloc(), &e);
                let took = begun.elapsed(&rt)?.as_micros();
                match answer {
                    Ok(answer) => println!(rt; "{line}: {count} nodes, {answer}, {took} us")?,
                    Err(NoMemory) => println!(rt; "{line}: no memory")?,
                }
            }
        }
    }
    Ok(())
}
END
(cd "$work/crates/timing" && touch stdin && rt run) >"$work/build.log" 2>&1 || { tail -n 40 "$work/build.log"; exit 1; }
# Each line runs alone, so that one that dies shows no more than itself.
while IFS= read -r line; do
    echo "$line" | (ulimit -s 1024 && timeout 300 "$work/crates/timing/out/timing") || echo "$line: ended with status $?"
done <<END
ors 4999
or 2499
sum 5000
not 9999
in 9997
case 4999
END
