// The aggregate tables of the shop in plain Rust, over rows in memory: `PROGRAM FOLDER by_day` or `by_price` reads the folder's
// files, joins by a map of the keys, adds up in a sorted map, each order once in each group, and prints the least of five times in
// milliseconds. Reading the files is not in it.
use std::collections::{BTreeMap, HashMap, HashSet};
use std::time::Instant;

struct Order {
    id: u64,
    user: u64,
    day: String,
    total: i128,
}

struct Item {
    order: u64,
    price: i64,
}

fn number(text: &str) -> i64 {
    let (whole, places) = text.split_once('.').unwrap_or((text, ""));
    let mut value: i64 = whole.parse().unwrap();
    for place in 0..4 {
        value = 10 * value + places.as_bytes().get(place).map_or(0, |digit| i64::from(digit - b'0'));
    }
    value
}

fn rows(folder: &str, table: &str) -> Vec<Vec<String>> {
    let text = std::fs::read_to_string(format!("{folder}/data/{table}.csv")).unwrap();
    text.lines().skip(1).map(|line| line.split(',').map(str::to_string).collect()).collect()
}

fn by_day(users: &[(u64, String)], orders: &[Order]) -> usize {
    let regions: HashMap<u64, &str> = users.iter().map(|(id, region)| (*id, region.as_str())).collect();
    let mut groups: BTreeMap<(Option<&str>, &str), (u64, i128, u64)> = BTreeMap::new();
    for order in orders {
        let group = groups.entry((regions.get(&order.user).copied(), order.day.as_str())).or_default();
        group.0 += 1;
        group.1 += order.total;
        group.2 += 1;
    }
    groups.len()
}

fn by_price(users: &[(u64, String)], orders: &[Order], items: &[Item]) -> usize {
    let regions: HashMap<u64, &str> = users.iter().map(|(id, region)| (*id, region.as_str())).collect();
    let mut of_order: HashMap<u64, Vec<&Item>> = HashMap::new();
    for item in items {
        of_order.entry(item.order).or_default().push(item);
    }
    let mut groups: BTreeMap<(Option<&str>, Option<i64>), (HashSet<u64>, i128, u64)> = BTreeMap::new();
    for order in orders {
        let region = regions.get(&order.user).copied();
        let mut add = |price: Option<i64>, count: u64| {
            let group = groups.entry((region, price)).or_default();
            if group.0.insert(order.id) {
                group.1 += order.total;
            }
            group.2 += count;
        };
        match of_order.get(&order.id) {
            Some(items) => items.iter().for_each(|item| add(Some(item.price), 1)),
            None => add(None, 0),
        }
    }
    groups.len()
}

fn main() {
    let words: Vec<String> = std::env::args().collect();
    let users: Vec<(u64, String)> = rows(&words[1], "users").into_iter().map(|row| (row[0].parse().unwrap(), row[1].clone())).collect();
    let orders: Vec<Order> = rows(&words[1], "orders")
        .into_iter()
        .map(|row| Order {
            id: row[0].parse().unwrap(),
            user: row[1].parse().unwrap(),
            day: row[3][..10].to_string(),
            total: i128::from(number(&row[4])),
        })
        .collect();
    let items: Vec<Item> = rows(&words[1], "items")
        .into_iter()
        .map(|row| Item {
            order: row[1].parse().unwrap(),
            price: number(&row[2]),
        })
        .collect();
    let mut best = f64::MAX;
    let mut seen = 0;
    for _ in 0..5 {
        let begun = Instant::now();
        seen += if words[2] == "by_day" { by_day(&users, &orders) } else { by_price(&users, &orders, &items) };
        best = best.min(begun.elapsed().as_secs_f64() * 1000.0);
    }
    assert!(seen > 0);
    println!("{best}");
}
