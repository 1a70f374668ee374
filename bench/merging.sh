#!/bin/sh
# Times `gather` and `merge` on projects of several shapes: 500 views of 40 fields over 1,000 files, each refined once and a
# fifth extending another; the same with a view that extends itself; a chain of 500 extensions, each with a field of its own;
# chains of views that say one field anew; diamonds of ten and of 40 levels.
# With each line stands the most memory that its process took. A measurement, not a test: it builds a program in a folder
# of its own, which proves it first.
crates='lk_val lk_utf8 lk_read lk_io lk_params lk_include lk_overlay lk_merge'
uses='lk_val lk_io lk_include lk_merge'
. "$(dirname "$0")/workspace.sh"
cat >"$work/crates/timing/src/main.rt" <<'END'
//! Times `gather` and `merge` on the project that the line of the standard input describes: a shape and its size.
#![tactic(auto)]

use lk_include::{Project, gather};
use lk_io::{File, MemFiles};
use lk_merge::merge;
use lk_val::{Bytes, Items, ModelFault, NoMemory, Text};
use std::alloc::Global;
use std::io;
use std::time::Instant;

fn file(alloc: Global, path: &str, body: String) -> Result<File, NoMemory> {
    Ok(File {
        path: Text::from_str(alloc, path)?,
        body: Bytes::from_slice(alloc, body.as_bytes())?,
    })
}

// A view of 40 fields; each fifth extends the one before it.
fn view(alloc: Global, number: usize) -> Result<String, NoMemory> {
    let mut text = format!(in alloc; "view: v{number} {{\n")?;
    if number % 5 == 4 {
        text.push_str(format!(in alloc; "  extends: [v{}]\n", number.saturating_sub(1))?.as_str())?;
    }
    for field in 0..40 {
        text.push_str(format!(in alloc; "  dimension: f{field} {{\n    type: number\n    sql: ${{TABLE}}.f{field} + {number} ;;\n  }}\n")?.as_str())?;
    }
    text.push_str("}\n")?;
    Ok(text)
}

// A file for each view and one for its refinement, but for the last one's, which stands in the model file.
fn refined(alloc: Global, count: usize, files: &mut Items<File>) -> Result<(), NoMemory> {
    let mut model = String::from_str(alloc, "include: \"/views/*\"\ninclude: \"/refinements/*\"\n")?;
    for number in 0..count {
        files.push(file(alloc, format!(in alloc; "views/v{number}.view.lkml")?.as_str(), view(alloc, number)?)?)?;
        let refinement = format!(in alloc; "view: +v{number} {{\n  dimension: f7 {{ label: \"Seven\" }}\n  measure: count {{ type: count }}\n}}\n")?;
        if number.saturating_add(1) == count {
            model.push_str(refinement.as_str())?;
        } else {
            files.push(file(alloc, format!(in alloc; "refinements/r{number}.view.lkml")?.as_str(), refinement)?)?;
        }
    }
    files.push(file(alloc, "m.model.lkml", model)?)
}

// The same with a view that extends itself.
fn cycle(alloc: Global, count: usize, files: &mut Items<File>) -> Result<(), NoMemory> {
    refined(alloc, count, files)?;
    files.push(file(alloc, "views/z.view.lkml", String::from_str(alloc, "view: z { extends: [z] }\n")?)?)
}

// Views of one field, each of which extends the one before it.
fn chain(alloc: Global, count: usize, files: &mut Items<File>) -> Result<(), NoMemory> {
    let mut model = String::from_str(alloc, "view: v0 { dimension: f0 { type: number } }\n")?;
    for number in 1..count {
        let before = number.saturating_sub(1);
        model.push_str(format!(in alloc; "view: v{number} {{ extends: [v{before}] dimension: f{number} {{ type: number }} }}\n")?.as_str())?;
    }
    files.push(file(alloc, "m.model.lkml", model)?)
}

// The same, where each says anew what the one field is.
fn line(alloc: Global, count: usize, files: &mut Items<File>) -> Result<(), NoMemory> {
    let mut model = String::from_str(alloc, "view: v0 { dimension: f { type: number } }\n")?;
    for number in 1..count {
        let before = number.saturating_sub(1);
        model.push_str(format!(in alloc; "view: v{number} {{ extends: [v{before}] dimension: f {{ label: \"{number}\" }} }}\n")?.as_str())?;
    }
    files.push(file(alloc, "m.model.lkml", model)?)
}

// Two views a level, each of which extends both of the level before.
fn diamond(alloc: Global, levels: usize, files: &mut Items<File>) -> Result<(), NoMemory> {
    let mut model = String::from_str(alloc, "view: a0 { dimension: f { type: number } }\nview: b0 { dimension: g { type: number } }\n")?;
    for level in 1..levels {
        let before = level.saturating_sub(1);
        model.push_str(format!(in alloc; "view: a{level} {{ extends: [a{before}, b{before}] }}\nview: b{level} {{ extends: [a{before}, b{before}] }}\n")?.as_str())?;
    }
    files.push(file(alloc, "m.model.lkml", model)?)
}

fn folder(alloc: Global, shape: &str, size: usize) -> Result<MemFiles, NoMemory> {
    let mut files = Items::new(alloc);
    match shape {
        "refined" => refined(alloc, size, &mut files)?,
        "cycle" => cycle(alloc, size, &mut files)?,
        "chain" => chain(alloc, size, &mut files)?,
        "line" => line(alloc, size, &mut files)?,
        _ => diamond(alloc, size, &mut files)?,
    }
    for table in ["schema.csv", "users.csv"] {
        files.push(file(alloc, table, String::new(alloc))?)?;
    }
    MemFiles::new(alloc, files, Items::new(alloc))
}

fn tell_merged(rt: &HostRuntime, line: &str, project: &Project, gathered: u128) -> io::Result<()> {
    let begun = Instant::now(rt)?;
    match merge(rt.alloc(), project) {
        Ok(merged) => {
            let took = begun.elapsed(rt)?.as_millis();
            println!(rt; "{line}: {} trees gathered in {gathered} ms, {} views merged in {took} ms", project.trees.len(), merged.views.len())
        }
        Err(ModelFault::Fault(fault)) => {
            let took = begun.elapsed(rt)?.as_millis();
            println!(rt; "{line}: {} {} in {took} ms", fault.code.as_str(), fault.name.as_str())
        }
        Err(ModelFault::NoMemory) => println!(rt; "{line}: no memory"),
    }
}

fn main(rt: HostRuntime) -> io::Result<()> {
    for line in rt.lines(rt.alloc()) {
        let line = line?;
        let (shape, size) = line.split_once(' ').unwrap_or((line.as_str(), "1"));
        let Ok(mut files) = folder(rt.alloc(), shape, size.parse::<usize>().unwrap_or(1)) else {
            return println!(&rt; "no memory");
        };
        let begun = Instant::now(&rt)?;
        let project = gather(rt.alloc(), &mut files);
        let gathered = begun.elapsed(&rt)?.as_millis();
        match project {
            Ok(project) => tell_merged(&rt, line.as_str(), &project, gathered)?,
            Err(_) => println!(&rt; "{line}: not gathered")?,
        }
    }
    Ok(())
}
END
(cd "$work/crates/timing" && touch stdin && rt run) >"$work/build.log" 2>&1 || { tail -n 40 "$work/build.log"; exit 1; }
for line in 'refined 500' 'cycle 500' 'chain 500' 'line 500' 'line 5000' 'line 20000' 'diamond 10' 'diamond 40'; do
    echo "$line" | /usr/bin/time -f '  at most %M KB of memory' "$work/crates/timing/out/timing"
done
