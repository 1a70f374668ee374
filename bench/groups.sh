#!/bin/sh
# Times `lookd query` on 100,000 rows of one table in 1, 1,000 and 100,000 groups, and prints rows per second and the most
# memory of the process. A measurement, not a test. It runs the program that `./lookd` builds.
top=$(cd "$(dirname "$0")/.." && pwd) || exit 1
rows=${1:-100000}
work=$(mktemp -d) || exit 1
trap 'rm -rf "$work"' EXIT
[ -n "$LOOKD" ] || "$top/lookd" help >/dev/null
program=${LOOKD:-$top/crates/lookd/out/lookd}

for groups in 1 1000 100000; do
    project="$work/$groups"
    mkdir -p "$project/data"
    cp "$top/examples/mini/m.model.lkml" "$top/examples/mini/schema.csv" "$top/examples/mini/users.csv" "$project"
    awk -v rows="$rows" -v groups="$groups" 'BEGIN {
        print "id,status,total"
        for (i = 0; i < rows; i++) printf "%d,s%d,%d.5\n", i, (i * 7919) % groups, i % 1000
    }' >"$project/data/orders.csv"
    begun=$(date +%s%N)
    /usr/bin/time -o "$work/memory" -f '%M kB' "$program" query "$project" ann orders <"$top/examples/mini/by_status.json" >/dev/null || exit 1
    ended=$(date +%s%N)
    echo "$rows rows, $groups groups: $(((ended - begun) / 1000000)) ms, $((rows * 1000000000 / (ended - begun))) rows per second, $(tail -n 1 "$work/memory")"
done
