#!/bin/sh
# Times `judge` on refused texts of 4,096 bytes of the number filters' grammar. A measurement, not a test: it builds a program
# in a folder of its own, which proves it first.
crates='lk_val lk_grammar'
uses='lk_val lk_grammar'
. "$(dirname "$0")/workspace.sh"
cat >"$work/crates/timing/src/numbers.rt" <<'END'
//! The grammar of number filters, as a form.
use lk_grammar::Form;
use lk_val::NoMemory;
use std::alloc::Global;

fn word(alloc: Global, small: &[u8]) -> Result<Form, NoMemory> {
    Form::word(alloc, b" ", small)
}

fn digits(alloc: Global) -> Result<Form, NoMemory> {
    let more = Form::many(alloc, Ok(Form::range(b'0', b'9')));
    Form::seq(alloc, Ok(Form::range(b'0', b'9')), more)
}

fn number(alloc: Global) -> Result<Form, NoMemory> {
    let sign = Form::optional(alloc, Ok(Form::byte(b'-')))?;
    let places = Form::seq(alloc, Ok(Form::byte(b'.')), digits(alloc));
    let places = Form::optional(alloc, places)?;
    let parts = vec![in alloc; sign, digits(alloc)?, places]?;
    Form::free(alloc, b" ", Form::sequence(alloc, parts))
}

fn comparison(alloc: Global) -> Result<Form, NoMemory> {
    let words = vec![in alloc;
        word(alloc, b"<=")?,
        word(alloc, b">=")?,
        word(alloc, b"<")?,
        word(alloc, b">")?,
    ]?;
    Form::seq(alloc, Form::choice(alloc, words), number(alloc))
}

fn comparisons(alloc: Global) -> Result<Form, NoMemory> {
    let more = Form::seq(alloc, word(alloc, b"and"), comparison(alloc));
    Form::seq(alloc, comparison(alloc), Form::many(alloc, more))
}

fn end(alloc: Global) -> Result<Form, NoMemory> {
    let inf = word(alloc, b"inf")?;
    let minus_inf = word(alloc, b"-inf")?;
    Form::choice(alloc, vec![in alloc; number(alloc)?, inf, minus_inf]?)
}

fn interval(alloc: Global) -> Result<Form, NoMemory> {
    let open = Form::either(alloc, word(alloc, b"["), word(alloc, b"("))?;
    let close = Form::either(alloc, word(alloc, b"]"), word(alloc, b")"))?;
    let comma = word(alloc, b",")?;
    Form::sequence(
        alloc,
        vec![in alloc; open, end(alloc)?, comma, end(alloc)?, close]?,
    )
}

fn from_number(alloc: Global) -> Result<Form, NoMemory> {
    let upto = Form::optional(alloc, number(alloc));
    let to = Form::seq(alloc, word(alloc, b"to"), upto);
    Form::seq(alloc, number(alloc), Form::optional(alloc, to))
}

fn range(alloc: Global) -> Result<Form, NoMemory> {
    let to_number = Form::seq(alloc, word(alloc, b"to"), number(alloc))?;
    let ranges = vec![in alloc;
        from_number(alloc)?,
        comparisons(alloc)?,
        to_number,
        interval(alloc)?,
    ]?;
    Form::choice(alloc, ranges)
}

fn item(alloc: Global) -> Result<Form, NoMemory> {
    let not = Form::optional(alloc, word(alloc, b"not"));
    let tested = Form::either(alloc, range(alloc), word(alloc, b"null"));
    let differs = Form::either(alloc, word(alloc, b"<>"), word(alloc, b"!="));
    let differs = Form::seq(alloc, differs, number(alloc));
    Form::either(alloc, Form::seq(alloc, not, tested), differs)
}

pub fn numbers(alloc: Global) -> Result<Form, NoMemory> {
    let comma = Form::either(alloc, word(alloc, b","), word(alloc, b"or"));
    let more = Form::many(alloc, Form::seq(alloc, comma, item(alloc)))?;
    let items = vec![in alloc; item(alloc)?, more, Form::spaces(alloc, b" ")?]?;
    Form::either(
        alloc,
        Form::spaces(alloc, b" "),
        Form::sequence(alloc, items),
    )
}
END
cat >"$work/crates/timing/src/main.rt" <<'END'
//! Times `judge`.
#![tactic(auto)]

mod numbers;

use lk_grammar::{Form, judge};
use lk_val::NoMemory;
use std::alloc::Global;
use std::io;
use std::time::Instant;

// The part again and again, and an exclamation mark at 4,095.
fn refused(alloc: Global, part: &[u8]) -> Result<Vec<u8>, NoMemory> {
    let mut text = Vec::new(alloc);
    for _ in 0..4096 {
        text.extend_from_slice(part)?;
        if text.len() >= 4095 {
            text.truncate(4095);
            break;
        }
    }
    text.push(b'!')?;
    Ok(text)
}

fn time_ten(alloc: Global, form: &Form, text: &[u8]) -> Result<usize, NoMemory> {
    let mut place = 0;
    for _ in 0..10 {
        place = judge(alloc, form, text)?.unwrap_or(4096);
    }
    Ok(place)
}

fn main(rt: HostRuntime) -> io::Result<()> {
    let alloc = rt.alloc();
    let Ok(form) = numbers::numbers(alloc) else {
        return Ok(());
    };
    let parts: [&[u8]; 7] = [b" ", b"5,", b"5", b"5 to 7 or ", b">=5 and <7,", b"not [5, inf),", b"5          ,"];
    for part in parts {
        let Ok(text) = refused(alloc, part) else {
            return Ok(());
        };
        let begun = Instant::now(&rt)?;
        if let Ok(place) = time_ten(alloc, &form, text.as_slice()) {
            println!(rt; "refused at {place}: {} microseconds", begun.elapsed(&rt)?.as_micros() / 10)?;
        }
    }
    Ok(())
}
END
cd "$work/crates/timing" && touch stdin && rt run
