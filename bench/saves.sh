# For what is tried on a store of loads in a file: a program that saves loads. Sourced; gives `work`, a folder that goes when
# the script ends, and PROGRAM, the program, which is built there and proved first, unless PROGRAM names one that was built of
# the source below.
crates='lk_val lk_io lk_ledger lk_keep'
uses='lk_val lk_io lk_keep thiserror sqlite'
. "$(dirname "$0")/workspace.sh"
cat >"$work/crates/timing/src/main.rt" <<'PROGRAM'
//! Saves one load after the other into the store at the path of its first word, and prints the number of each as
//! soon as it is saved. After a fault it tries the same number once more, as it was and as a check, and ends.
#![tactic(auto)]

use lk_keep::{Command, KeepFault, Keeper, SqlKeeper};
use lk_val::{Bytes, NoMemory, Text};
use std::alloc::Global;
use std::env;
use std::io;

// The load of a number. Each seventh takes the place of its table's rows.
fn load(alloc: Global, number: u64) -> Result<Command, NoMemory> {
    Ok(Command {
        number,
        id: Text::from_string(format!(in alloc; "load-{number}")?),
        table: Text::from_str(alloc, table(number))?,
        replace: number % 7 == 0,
        rows: rows(number),
        body: body(alloc, number)?,
    })
}

fn table(number: u64) -> &'static str {
    match number % 3 {
        0 => "items",
        1 => "orders",
        _ => "users",
    }
}

fn rows(number: u64) -> u64 {
    number.wrapping_mul(37) % 2_000
}

fn body(alloc: Global, number: u64) -> Result<Bytes, NoMemory> {
    let mut text = Bytes::from_slice(alloc, b"id\n")?;
    for row in 0..rows(number) {
        text.append(format!(in alloc; "{number}.{row}\n")?.as_bytes())?;
    }
    Ok(text)
}

// Each eleventh number is one of a check.
fn save(alloc: Global, keeper: &mut SqlKeeper, number: u64) -> Result<(), KeepFault> {
    if number % 11 == 0 {
        return keeper.save_check(alloc, number);
    }
    let command = load(alloc, number)?;
    keeper.save_load(alloc, &command)
}

fn path(rt: &HostRuntime) -> io::Result<Text> {
    match env::args(rt)?.nth(1) {
        Some(word) => Ok(Text::from_string(word)),
        None => Ok(Text::new(rt.alloc())),
    }
}

fn try_again(rt: &HostRuntime, keeper: &mut SqlKeeper, number: u64) -> io::Result<()> {
    let is_saved = save(rt.alloc(), keeper, number).is_ok();
    let is_checked = keeper.save_check(rt.alloc(), number).is_ok();
    println!(rt; "{number} failed; saved at the second time: {is_saved}, as a check: {is_checked}")
}

fn main(rt: HostRuntime) -> io::Result<()> {
    let system: HostRuntime = rt.clone()?;
    let mut keeper = SqlKeeper::at(system, path(&rt)?);
    let mut number = match keeper.load_all(rt.alloc()) {
        Ok(kept) => kept.number,
        Err(fault) => return println!(rt; "{fault}"),
    };
    println!(rt; "opened at {number}")?;
    for _ in 0..1_000_000 {
        number = number.saturating_add(1);
        match save(rt.alloc(), &mut keeper, number) {
            Ok(()) => println!(rt; "{number}")?,
            Err(_) => return try_again(&rt, &mut keeper, number),
        }
    }
    Ok(())
}
PROGRAM
if [ -z "$PROGRAM" ]; then
    (cd "$work/crates/timing" && touch stdin && rt run) >"$work/build.log" 2>&1
    PROGRAM=$work/crates/timing/out/timing
    [ -x "$PROGRAM" ] || { tail -n 40 "$work/build.log"; exit 1; }
fi
