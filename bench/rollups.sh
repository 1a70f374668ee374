#!/bin/sh
# Times what queries take that aggregate tables answer, on a shop of N orders (100,000 where no word says another), in sessions of
# `lookd script`; what a session takes without the requests that are measured is taken off. In order:
#   totals by month from an aggregate table by region and day, the same with "fresh":true, and beside plain Rust over the groups of
#   that table in memory (bench/rollups_plain.rs), in the same run
#   totals of ten tiers from an aggregate table with a group for each order, beside plain Rust over as many groups
#   the same query by month with twelve aggregate tables of which the last fits, and what each of the eleven others adds
# A measurement, not a test. It runs the program that `./lookd` builds, python3, and rustc for the plain program.
top=$(cd "$(dirname "$0")/.." && pwd) || exit 1
[ -n "$LOOKD" ] || "$top/lookd" help >/dev/null
program=${LOOKD:-$top/crates/lookd/out/lookd}
orders=${1:-100000}
work=$(mktemp -d) || exit 1
trap 'rm -rf "$work"' EXIT
rustc -O -o "$work/plain" "$top/bench/rollups_plain.rs" 2>/dev/null || exit 1
exec python3 - "$top" "$program" "$orders" "$work" <<'P'
import pathlib
import subprocess
import sys

top, program, orders, work = sys.argv[1], sys.argv[2], int(sys.argv[3]), pathlib.Path(sys.argv[4])
sys.path.insert(0, f"{top}/bench")
from shop import BY_DAY, each, post, project  # noqa: E402


def query(fields, more="", user="all"):
    names = ",".join(f'"{it}"' for it in fields)
    return post("/query/orders", user, '{"fields":[%s]%s}' % (names, more))


def of_each(folder, request, count, snapshot=0):
    """What such a query takes, in microseconds, and its last reply's body."""
    taken, replies = each(program, folder, [request] * count, [], count)
    assert replies.count("200 OK") == count and f'"snapshot":{snapshot}' in replies, replies[-300:]
    return 1000 * taken, replies.rsplit("\r\n\r\n", 1)[1]


def plain(folder, which):
    return float(subprocess.run([work / "plain", folder, which], capture_output=True, check=True, text=True).stdout)


MONTHS = ["orders.created_month", "orders.total"]
folder = project(work, "by_day", orders, BY_DAY)
routed, one = of_each(folder, query(MONTHS), 2000)
fresh, two = of_each(folder, query(MONTHS, ',"fresh":true'), 20)
assert one == two, (one, two)
beside = plain(folder, "month")
print(f"totals by month over {orders} orders: {routed:.0f} us from by_day, {fresh:.0f} us with fresh, {fresh / routed:.0f} times; plain Rust {beside:.0f} us, {routed / beside:.1f} times")

TIER = """
view: +orders { dimension: tier { type: tier tiers: [10, 20, 30, 40, 50, 60, 70, 80, 90] style: integer sql: ${TABLE}.total ;; } }
"""
BY_ID = """  aggregate_table: by_id {
    query: { dimensions: [users.region, orders.id, orders.tier] measures: [orders.total] }
    materialization: { datagroup_trigger: nightly }
  }
"""
folder = project(work, "by_id", orders, BY_ID, TIER)
routed, one = of_each(folder, query(["orders.tier", "orders.total"]), 20)
fresh, two = of_each(folder, query(["orders.tier", "orders.total"], ',"fresh":true'), 20)
assert one == two, (one, two)
beside = plain(folder, "tier")
print(f"totals of ten tiers from {orders} groups: {routed:.0f} us, {fresh:.0f} us with fresh; plain Rust {beside:.0f} us, {routed / beside:.1f} times")

OTHERS = "".join(BY_DAY.replace("by_day", f"other_{n}").replace("orders.created_date", "orders.status") for n in range(11))
folder = project(work, "twelve", orders, OTHERS + BY_DAY)
twelve, _ = of_each(folder, query(MONTHS), 2000)
alone, _ = of_each(work / "by_day", query(MONTHS), 2000)
print(f"the same by month among twelve aggregate tables: {twelve:.0f} us, alone {alone:.0f} us; {(twelve - alone) / 11:.2f} us for each other")
P
