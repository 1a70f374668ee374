// What an aggregate table answers, in plain Rust over its groups in memory. `PROGRAM FOLDER month` makes the groups of by_day of the
// folder's orders and times the answer by months, its caller's regions tested by a pattern and its JSON written; `PROGRAM FOLDER
// tier` makes a group for each order and times the totals of ten tiers. It prints microseconds, the least of 200 times. Reading the
// files and making the groups is not in it.
use std::collections::{BTreeMap, HashMap};
use std::fmt::Write;
use std::time::Instant;

struct Group {
    region: Option<String>,
    // Year, month and day.
    day: (u32, u32, u32),
    total: i128,
}

fn number(text: &str) -> i128 {
    let (whole, places) = text.split_once('.').unwrap_or((text, ""));
    let mut value: i128 = whole.parse().unwrap();
    for place in 0..4 {
        value = 10 * value + places.as_bytes().get(place).map_or(0, |digit| i128::from(digit - b'0'));
    }
    value
}

fn rows(folder: &str, table: &str) -> Vec<Vec<String>> {
    let text = std::fs::read_to_string(format!("{folder}/data/{table}.csv")).unwrap();
    text.lines().skip(1).map(|line| line.split(',').map(str::to_string).collect()).collect()
}

fn by_day(folder: &str) -> Vec<Group> {
    let regions: HashMap<String, String> = rows(folder, "users").into_iter().map(|row| (row[0].clone(), row[1].clone())).collect();
    let mut groups: BTreeMap<(Option<String>, (u32, u32, u32)), i128> = BTreeMap::new();
    for row in rows(folder, "orders") {
        let part = |from: usize, to: usize| row[3][from..to].parse::<u32>().unwrap();
        *groups.entry((regions.get(&row[1]).cloned(), (part(0, 4), part(5, 7), part(8, 10)))).or_default() += number(&row[4]);
    }
    groups.into_iter().map(|((region, day), total)| Group { region, day, total }).collect()
}

fn matches(text: &str, pattern: &str) -> bool {
    match pattern.split_once('%') {
        None => text == pattern,
        Some((front, "")) => text.starts_with(front),
        Some((front, rest)) => text.strip_prefix(front).is_some_and(|text| (0..=text.len()).any(|at| matches(&text[at..], rest))),
    }
}

fn put(out: &mut String, value: i128) {
    write!(out, "{}", value / 10_000).unwrap();
    let places = format!("{:04}", (value % 10_000).abs());
    let places = places.trim_end_matches('0');
    if !places.is_empty() {
        write!(out, ".{places}").unwrap();
    }
}

fn months(groups: &[Group]) -> String {
    let mut totals: BTreeMap<(u32, u32), i128> = BTreeMap::new();
    for group in groups {
        if group.region.as_ref().is_none_or(|region| matches(region, "%")) {
            *totals.entry((group.day.0, group.day.1)).or_default() += group.total;
        }
    }
    let mut out = String::from("{\"complete\":true,\"fields\":[\"orders.created_month\",\"orders.total\"],\"rows\":[");
    for (place, ((year, month), total)) in totals.into_iter().enumerate() {
        write!(out, "{}[\"{year:04}-{month:02}\",\"", if place > 0 { "," } else { "" }).unwrap();
        put(&mut out, total);
        out.push_str("\"]");
    }
    out + "],\"snapshot\":0}"
}

fn tiers(groups: &[(i128, i128)]) -> String {
    let bounds: Vec<i128> = (1..10).map(|tier| tier * 100_000).collect();
    let mut totals: BTreeMap<usize, i128> = BTreeMap::new();
    for (key, total) in groups {
        *totals.entry(bounds.iter().filter(|bound| *key >= **bound).count()).or_default() += total;
    }
    let mut out = String::new();
    for (tier, total) in totals {
        write!(out, "{tier},").unwrap();
        put(&mut out, total);
    }
    out
}

fn least(mut answer: impl FnMut() -> String) -> f64 {
    let mut best = f64::MAX;
    for _ in 0..200 {
        let begun = Instant::now();
        let text = answer();
        best = best.min(begun.elapsed().as_secs_f64() * 1e6);
        assert!(!text.is_empty());
    }
    best
}

fn main() {
    let words: Vec<String> = std::env::args().collect();
    let best = if words[2] == "month" {
        let groups = by_day(&words[1]);
        least(|| months(&groups))
    } else {
        let groups: Vec<(i128, i128)> = rows(&words[1], "orders").iter().map(|row| (number(&row[4]), number(&row[4]))).collect();
        least(|| tiers(&groups))
    };
    println!("{best}");
}
