#!/bin/sh
# Times the making of a model with an explore of 5,000 fields, the same with 100 bindings of a query of 64 fields, filters and
# sorts over it, and the refusal of bodies of 16 MB that are no query. With each line of a body stands the most memory that its process took. A measurement, not a test:
# it builds a program in a folder of its own, which proves it first.
crates='lk_val lk_postfix lk_types lk_time lk_semantics lk_grammar lk_filter_number lk_filter_text lk_filter_date lk_filter lk_tree lk_csv lk_schema lk_body lk_query'
uses='lk_val lk_types lk_schema lk_body lk_query json serde_json'
. "$(dirname "$0")/workspace.sh"
cat >"$work/crates/timing/src/main.rt" <<'END'
//! Times the binding of a query over a wide explore, or the reading of a body that is none, as the standard input says.
#![tactic(auto)]

ghost use Rattle.std.specs.Prelude.{◌≤◌, length};
ghost use Rattle.std.specs.List.{AllByRecursion};

mod model;

use crate::model::{model, query, users};
use lk_body::{QueryFault, read_query};
use lk_query::bind;
use lk_schema::Users;
use lk_types::{Model, Query};
use lk_val::{NoMemory, Text};
use std::alloc::Global;
use std::io;
use std::time::Instant;

const TIMES: u32 = 100;

const SIZE: usize = 16_777_216;

fn bound(alloc: Global, times: u32) -> Result<u32, NoMemory> {
    let model = model(alloc)?;
    let users = users(alloc)?;
    let query = query(alloc)?;
    bound_times(alloc, &model, &users, &query, times)
}

fn bound_times(alloc: Global, model: &Model, users: &Users, query: &Query, times: u32) -> Result<u32, NoMemory>
    requires few { AllByRecursion (λ x. length x.joins ≤ 31) model.now.explores }
{
    let name = Text::from_str(alloc, "wide")?;
    let mut done = 0u32;
    for _time in 0..times {
        if let Ok(bound) = bind(alloc, model, users, &name, &name, query, 0) {
            if bound.picks.len() == 64 {
                done = done.saturating_add(1);
            }
        }
    }
    Ok(done)
}

fn body(alloc: Global, front: &[u8], filler: u8) -> Result<Vec<u8>, NoMemory> {
    let mut bytes = Vec::with_capacity(alloc, SIZE)?;
    for byte in front {
        bytes.push(*byte)?;
    }
    for _more in front.len()..SIZE {
        bytes.push(filler)?;
    }
    Ok(bytes)
}

fn is_refused(alloc: Global, front: &[u8], filler: u8) -> Result<bool, NoMemory> {
    let bytes = body(alloc, front, filler)?;
    Ok(matches!(read_query(alloc, bytes.as_slice()), Err(QueryFault::Q3)))
}

fn main(rt: HostRuntime) -> io::Result<()> {
    for line in rt.lines(rt.alloc()) {
        let line = line?;
        let begun = Instant::now(&rt)?;
        let alloc = rt.alloc();
        let done = match line.as_str() {
            "model" => matches!(bound(alloc, 0), Ok(0)),
            "bind" => matches!(bound(alloc, TIMES), Ok(TIMES)),
            "string" => matches!(is_refused(alloc, b"{\"fields\":[\"", b'a'), Ok(true)),
            "brackets" => matches!(is_refused(alloc, b"{\"fields\":", b'['), Ok(true)),
            "digits" => matches!(is_refused(alloc, b"{\"limit\":", b'9'), Ok(true)),
            _ => matches!(is_refused(alloc, b"{\"fields\":[\"a\"]", b' '), Ok(true)),
        };
        let took = begun.elapsed(&rt)?.as_micros();
        let line = line.as_str();
        println!(&rt; "{line}: {done}, {took} microseconds")?;
    }
    Ok(())
}
END
cat >"$work/crates/timing/src/model.rt" <<'END'
ghost use Rattle.std.specs.Prelude.{◌≤◌, IfOk, length};
ghost use Rattle.std.specs.List.{AllByRecursion};

use lk_schema::Users;
use lk_types::{Explore, Expr, Field, Kind, Model, Node, Origin, Part, Query, Schema, Shape};
use lk_val::{Items, NoMemory, Text, Value};
use std::alloc::Global;

// Names ascend with their numbers, as those of a resolved model do.
fn name(alloc: Global, number: u32) -> Result<Text, NoMemory> {
    let number = number.saturating_add(100_000);
    let view = number / 40;
    let text = format!(in alloc; "orders_by_view_{view}.dimension_{number}")?;
    Ok(Text::from_string(text))
}

fn field(alloc: Global, number: u32) -> Result<Field, NoMemory> {
    let mut nodes = Items::new(alloc);
    nodes.push(Node::Literal(Value::Null))?;
    let Some(expr) = Expr::from_nodes(nodes) else {
        return Err(NoMemory);
    };
    Ok(Field { name: name(alloc, number)?, part: 0, kind: Kind::Text, expr, shape: Shape::Plain })
}

fn fields(alloc: Global) -> Result<Items<Field>, NoMemory> {
    let mut fields = Items::new(alloc);
    for number in 0..5_000 {
        fields.push(field(alloc, number)?)?;
    }
    Ok(fields)
}

fn explore(alloc: Global) -> Result<Explore, NoMemory>
    ensures few { IfOk result (λ x. length x.joins ≤ 31) }
{
    let mut parts = Items::new(alloc);
    parts.push(Part { name: Text::from_str(alloc, "wide")?, origin: Origin::Stored(0), key: None, enforced: None })?;
    Ok(Explore {
        name: Text::from_str(alloc, "wide")?,
        parts,
        joins: Items::new(alloc),
        fields: fields(alloc)?,
        measures: Items::new(alloc),
        always_join: Items::new(alloc),
        always: Items::new(alloc),
        always_where: None,
        access: Items::new(alloc),
        rollups: Items::new(alloc),
    })
}

pub fn model(alloc: Global) -> Result<Model, NoMemory>
    ensures few { IfOk result (λ m. AllByRecursion (λ x. length x.joins ≤ 31) m.explores) }
{
    let mut explores = Items::new(alloc);
    explores.push(explore(alloc)?)?;
    Ok(Model {
        schema: Schema { tables: Items::new(alloc) },
        explores,
        derived: Items::new(alloc),
        datagroups: Items::new(alloc),
    })
}

pub fn users(alloc: Global) -> Result<Users, NoMemory> {
    let mut rows = Items::new(alloc);
    rows.push((Text::from_str(alloc, "wide")?, Text::new(alloc), Text::new(alloc)))?;
    Ok(Users { rows })
}

// Every 78th field, so that the last ones are looked up too.
pub fn query(alloc: Global) -> Result<Query, NoMemory> {
    let mut fields = Items::new(alloc);
    let mut filters = Items::new(alloc);
    let mut sorts = Items::new(alloc);
    for number in 0..64 {
        let name = name(alloc, number * 78 + 70)?;
        fields.push(name.copy(alloc)?)?;
        sorts.push((name.copy(alloc)?, true))?;
        filters.push((name, Text::from_str(alloc, "open, closed")?))?;
    }
    Ok(Query { fields, filters, sorts, limit: 500, fresh: false, csv: false })
}
END
(cd "$work/crates/timing" && touch stdin && rt run) >"$work/build.log" 2>&1 || { tail -n 40 "$work/build.log"; exit 1; }
for what in model bind string brackets digits spaces; do
    echo "$what" | /usr/bin/time -f '  at most %M KB of memory' "$work/crates/timing/out/timing"
done
