#!/bin/sh
# Reads long and deep expressions within 1 MB of stack, and wrong ones, and shows what comes of each. The word is the number
# of bytes of the longest sum, 60,000,000 if there is none: a byte takes some 142 bytes of memory. A measurement, not a
# test: it builds a program in a folder of its own, which proves it first.
crates='lk_val lk_postfix lk_utf8 lk_grammar lk_types lk_expr_token lk_expr_tree lk_expr_text lk_expr_place'
uses='lk_val lk_postfix lk_types lk_grammar lk_utf8 lk_expr_token lk_expr_tree lk_expr_text lk_expr_place'
. "$(dirname "$0")/workspace.sh"
cat >"$work/crates/timing/src/main.rt" <<'END'
//! Reads the text that each line of the standard input describes by a shape, how often it repeats, and what stands at
//! its end: as `sum 2 )` for `1+1+1 )`.
#![tactic(auto)]

use lk_expr_place::{ExprFault, read_expr};
use lk_expr_tree::is_measure;
use lk_val::NoMemory;
use std::alloc::Global;
use std::io;
use std::time::Instant;

// A text: its front, what opens so often, what stands in the middle, what closes as often, and its end.
#[derive(Clone, Copy)]
struct Shape {
    front: &'static str,
    opening: &'static str,
    middle: &'static str,
    closing: &'static str,
    end: &'static str,
}

fn shape_of(name: &str) -> Option<Shape> {
    let (front, opening, middle, closing, end) = match name {
        "sum" => ("1", "+1", "", "", ""),
        "or" => ("a = 1", " OR a = 1", "", "", ""),
        "brackets" => ("", "(1 + 2 * ", "3", " - 4 + 5)", ""),
        "in" => ("x IN (0", ", 1", "", "", ")"),
        "case" => ("CASE", " WHEN a = 1 THEN 2", "", "", " END"),
        "not" => ("", "NOT ", "a", "", ""),
        "minus" => ("", "- ", "a", "", ""),
        "calls" => ("", "COALESCE(1, ", "2", ", 3)", ""),
        "cases" => ("", "CASE WHEN a = 1 THEN ", "2", " ELSE 3 END", ""),
        _ => return None,
    };
    Some(Shape {
        front,
        opening,
        middle,
        closing,
        end,
    })
}

fn text_of(alloc: Global, shape: Shape, times: usize, fault: &str) -> Result<String, NoMemory> {
    let mut text = String::from_str(alloc, shape.front)?;
    for _ in 0..times {
        text.push_str(shape.opening)?;
    }
    text.push_str(shape.middle)?;
    for _ in 0..times {
        text.push_str(shape.closing)?;
    }
    text.push_str(shape.end)?;
    text.push_str(fault)?;
    Ok(text)
}

// What comes of a text: the number of its nodes, which are walked and dropped too, or its fault.
fn answer(alloc: Global, text: &str) -> Result<String, NoMemory> {
    match read_expr(alloc, text.as_bytes()) {
        Ok(e) => {
            let kind = if is_measure(&e) { "a measure" } else { "no measure" };
            let nodes = e.nodes().len();
            Ok(format!(in alloc; "read, {nodes} nodes, {kind}")?)
        }
        Err(ExprFault::E1(place)) => Ok(format!(in alloc; "E1 at byte {place}")?),
        Err(ExprFault::E2(place)) => Ok(format!(in alloc; "E2 at byte {place}")?),
        Err(ExprFault::NoMemory) => Err(NoMemory),
    }
}

fn described(alloc: Global, line: &str) -> Result<Option<String>, NoMemory> {
    let (name, rest) = line.split_once(' ').unwrap_or((line, ""));
    let (times, fault) = rest.split_once(' ').unwrap_or((rest, ""));
    match (shape_of(name), times.parse::<usize>()) {
        (Some(shape), Ok(times)) => Ok(Some(text_of(alloc, shape, times, fault)?)),
        _ => Ok(None),
    }
}

fn main(rt: HostRuntime) -> io::Result<()> {
    for line in rt.lines(rt.alloc()) {
        let line = line?;
        match described(rt.alloc(), line.as_str()) {
            Ok(Some(text)) => {
                let bytes = text.len();
                let begun = Instant::now(&rt)?;
                let answer = answer(rt.alloc(), text.as_str());
                let took = begun.elapsed(&rt)?.as_millis();
                match answer {
                    Ok(answer) => println!(rt; "{line}: {bytes} bytes, {answer}, {took} ms")?,
                    Err(NoMemory) => println!(rt; "{line}: {bytes} bytes, no memory, {took} ms")?,
                }
            }
            Ok(None) => println!(rt; "{line}: no such shape")?,
            Err(NoMemory) => println!(rt; "{line}: no memory for the text")?,
        }
    }
    Ok(())
}
END
(cd "$work/crates/timing" && touch stdin && rt run) >"$work/build.log" 2>&1 || { tail -n 40 "$work/build.log"; exit 1; }
# Each line runs alone, for five minutes at most, so that one that dies shows no more than itself.
while IFS= read -r line; do
    echo "$line" | (ulimit -s 1024 && timeout 300 "$work/crates/timing/out/timing") || echo "$line: ended with status $?"
done <<END
or 4999
or 4999  )
or 4999  +
brackets 100
brackets 100  )
brackets 101
in 4999
in 4999  )
case 5000
case 5000  END
not 100
not 100  )
not 101
minus 100
calls 100
calls 100  )
calls 101
cases 100
cases 101
sum $((${1:-60000000} / 2))
sum $((${1:-60000000} / 2))  )
END
