#!/bin/sh
# Times what builds cost, on a shop of N orders (100,000 where no word says another), 1.5 N items and N / 10 + 1 users, in sessions
# of `lookd script`; what a session takes without the requests that are measured is taken off. In order:
#   a check that builds an aggregate table by region and day, and one by region and price; beside plain Rust over the same rows in
#   memory (bench/builds_plain.rs), in the same run
#   a check at which nothing is due, over four times as many orders
#   a load, on a project with twelve aggregate tables and on the same without
#   a query over a persisted derived table of a row for each order, and the same over the orders
#   an opening with ten derived tables, each of the one before, of N / 2 rows and of N; and the most memory of the process with the
#   aggregate tables and without
# A measurement, not a test. It runs the program that `./lookd` builds, python3, and rustc for the plain program.
top=$(cd "$(dirname "$0")/.." && pwd) || exit 1
[ -n "$LOOKD" ] || "$top/lookd" help >/dev/null
program=${LOOKD:-$top/crates/lookd/out/lookd}
orders=${1:-100000}
work=$(mktemp -d) || exit 1
trap 'rm -rf "$work"' EXIT
rustc -O -o "$work/plain" "$top/bench/builds_plain.rs" 2>/dev/null || exit 1
exec python3 - "$top" "$program" "$orders" "$work" <<'P'
import os
import pathlib
import subprocess
import sys

top, program, orders, work = sys.argv[1], sys.argv[2], int(sys.argv[3]), pathlib.Path(sys.argv[4])
sys.path.insert(0, f"{top}/bench")
import shop  # noqa: E402
from shop import BY_DAY, BY_PRICE, post  # noqa: E402

ROUNDS = 5


def project(name, count, tables="", more=""):
    return shop.project(work, name, count, tables, more)


def each(folder, requests, others, count):
    return shop.each(program, folder, requests, others, count)


def load(number):
    return post(f"/load/orders/append/{number}", "etl", f"id\n{10_000_000 + number}\n")


def opening(folder):
    """The time of a session without requests, and the most memory of its process, in kB."""
    taken, _ = shop.seconds(program, folder, [])
    ran = subprocess.run(["/usr/bin/time", "-f", "%M", program, "script", folder], input=b"", capture_output=True, check=True)
    return 1000 * taken, int(ran.stderr.split()[-1])


CHECK = post("/check", "etl", "")
for name, tables in (("by_day", BY_DAY), ("by_price", BY_PRICE)):
    folder = project(name, orders, tables)
    loads = [load(n) for n in range(1, ROUNDS + 1)]
    taken, replies = each(folder, [request for one in loads for request in (one, CHECK)], loads, ROUNDS)
    assert replies.count('"built":["nightly"]') == ROUNDS, replies[-200:]
    plain = float(subprocess.run([work / "plain", folder, name], capture_output=True, check=True, text=True).stdout)
    print(f"a check that builds {name} over {orders} orders: {taken:.1f} ms; plain Rust {plain:.1f} ms; {taken / plain:.1f} times")

large = project("large", 4 * orders, BY_DAY)
taken, replies = each(large, [CHECK] * 20, [], 20)
assert replies.count('"built":[]') == 20, replies[-200:]
print(f"a check at which nothing is due, over {4 * orders} orders: {taken:.2f} ms")

twelve = "".join(BY_DAY.replace("by_day", f"by_day_{n}") for n in range(12))
for name, tables in (("twelve", twelve), ("none", "")):
    folder = project(name, orders, tables)
    taken, _ = each(folder, [load(n) for n in range(1, 201)], [], 200)
    print(f"a load, with {name if tables else 'no'} aggregate tables: {taken:.3f} ms")

FACTS = """
view: facts {
  derived_table: { explore_source: orders { column: id { field: orders.id } column: total { field: orders.total } } datagroup_trigger: nightly }
  dimension: id { primary_key: yes type: number }
  measure: total { type: sum sql: ${TABLE}.total ;; }
}
explore: facts {}
view: stored {
  sql_table_name: orders ;;
  dimension: id { primary_key: yes type: number }
  measure: total { type: sum sql: ${TABLE}.total ;; }
}
explore: stored {}
"""
folder = project("facts", orders, "", FACTS)
times = []
for explore in ("facts", "stored"):
    body = '{"fields":["%s.total"]}' % explore
    taken, replies = each(folder, [post(f"/query/{explore}", "all", body)] * 20, [], 20)
    assert replies.count("200 OK") == 20, replies[-300:]
    times.append(taken)
print(f"a query over {orders} persisted rows: {times[0]:.2f} ms; over as many stored ones: {times[1]:.2f} ms; {times[0] / times[1]:.2f} times")

CHAIN = "".join(f"""
view: d{n} {{
  derived_table: {{ explore_source: {'orders' if n == 0 else f'd{n - 1}'} {{ column: id {{ field: {'orders' if n == 0 else f'd{n - 1}'}.id }} column: most {{ field: {'orders.total' if n == 0 else f'd{n - 1}.most_of_all'} }} }} {'datagroup_trigger: nightly' if n == 9 else ''} }}
  dimension: id {{ primary_key: yes type: number }}
  measure: most_of_all {{ type: max sql: ${{TABLE}}.most ;; }}
}}
explore: d{n} {{}}
""" for n in range(10))
for count in (orders // 2, orders):
    bare, _ = opening(project(f"bare{count}", count))
    taken, memory = opening(project(f"chain{count}", count, "", CHAIN))
    print(f"an opening with ten derived tables of {count} rows each: {taken - bare:.0f} ms over {bare:.0f} ms without; {memory // 1024} MB")
for name in ("by_day", "none"):
    taken, memory = opening(work / name)
    print(f"an opening over {orders} orders, {'with by_day' if name == 'by_day' else 'without aggregate tables'}: {taken:.0f} ms, {memory // 1024} MB")
P
