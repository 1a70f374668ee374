#!/bin/sh
# Times `lookd query` on the worked shop with N orders (100,000 where no word says another), 1.5 N items and N / 10 + 1
# users, and SQLite on the same files in the same run: both read the CSV files and answer one query. For each query stand the
# times of the two, the most memory of each process, and whether the answers are the same. A measurement, not a test. It runs
# the program that `./lookd` builds, and python3 with its sqlite3.
top=$(cd "$(dirname "$0")/.." && pwd) || exit 1
[ -n "$LOOKD" ] || "$top/lookd" help >/dev/null
program=${LOOKD:-$top/crates/lookd/out/lookd}
orders=${1:-100000}
work=$(mktemp -d) || exit 1
trap 'rm -rf "$work"' EXIT
mkdir -p "$work/shop/data"
cp -r "$top/examples/shop/shop.model.lkml" "$top/examples/shop/views" "$top/examples/shop/schema.csv" \
    "$top/examples/shop/users.csv" "$work/shop"

awk -v n="$orders" -v folder="$work/shop/data" '
BEGIN {
    users = folder "/users.csv"; sold = folder "/orders.csv"; items = folder "/items.csv"
    u = 1 + int(n / 10)
    regions[0] = "US"; regions[1] = "EU"; regions[2] = "APAC"
    print "id,region" >users
    for (j = 1; j <= u; j++) print j "," regions[j % 3] >users
    print "id,user_id,status,created_at,total" >sold
    print "id,order_id,price" >items
    item = 0
    for (i = 1; i <= n; i++) {
        second = 1704067200 + 18000 * i % 31622400
        print i "," 1 + 17 * i % u "," (i % 4 ? "complete" : "open") "," strftime("%Y-%m-%d %H:%M:%S", second, 1) "," i % 100 ".5" >sold
        for (k = 1; k <= i % 4; k++) print ++item "," i "," k + i % 50 ".25" >items
    }
}' || exit 1

cat >"$work/sqlite.py" <<'P'
import csv
import sqlite3
import sys

store = sqlite3.connect(":memory:")
for table, columns in (
    ("users", "id INTEGER PRIMARY KEY, region TEXT"),
    ("orders", "id INTEGER PRIMARY KEY, user_id INTEGER, status TEXT, created_at TEXT, total REAL"),
    ("items", "id INTEGER PRIMARY KEY, order_id INTEGER, price REAL"),
):
    store.execute(f"CREATE TABLE {table} ({columns})")
    rows = csv.reader(open(f"{sys.argv[1]}/data/{table}.csv"))
    names = next(rows)
    store.executemany(f"INSERT INTO {table} VALUES ({', '.join('?' * len(names))})", rows)
store.execute("CREATE INDEX items_of_order ON items (order_id)")
for row in store.execute(sys.argv[2]):
    print(",".join(str(int(c)) if isinstance(c, float) and c == int(c) else str(c) for c in row))
P

measure() {
    query=$1
    sql=$2
    printf '%s\n' "$query" >"$work/query.json"
    /usr/bin/time -f '%e s, %M kB' -o "$work/lookd.time" "$program" query "$work/shop" all orders <"$work/query.json" >"$work/lookd.csv"
    /usr/bin/time -f '%e s, %M kB' -o "$work/sqlite.time" python3 "$work/sqlite.py" "$work/shop" "$sql" >"$work/sqlite.csv"
    sed '1d;$d' "$work/lookd.csv" | cmp -s - "$work/sqlite.csv" && same="the same answer" || same="other answers"
    printf '%s\n    lookd %s; SQLite %s; %s\n' "$query" "$(cat "$work/lookd.time")" "$(cat "$work/sqlite.time")" "$same"
}

measure '{"fields":["users.region","orders.count","orders.total"]}' \
    'SELECT u.region, COUNT(*), SUM(o.total) FROM orders o LEFT JOIN users u ON o.user_id = u.id GROUP BY u.region ORDER BY u.region'
measure '{"fields":["orders.status","items.count","orders.total"]}' \
    'WITH counts AS (SELECT o.status, COUNT(i.id) AS items FROM orders o LEFT JOIN items i ON i.order_id = o.id GROUP BY o.status)
     SELECT o.status, (SELECT items FROM counts c WHERE c.status = o.status), SUM(o.total) FROM orders o GROUP BY o.status ORDER BY o.status'
measure '{"fields":["items.price","orders.total"],"filters":{"items.price":"NOT NULL"}}' \
    'SELECT price, SUM(total) FROM (SELECT DISTINCT i.price, o.id, o.total FROM orders o JOIN items i ON i.order_id = o.id) GROUP BY price ORDER BY price'
