#!/bin/sh
# Times `lookd check` on projects of several shapes, each written to a folder that goes when the timing ends
# (bench/check_projects.awk writes them). Four are at a limit of the language:
#   wide N       one explore over one view of N fields
#   chain N      N fields, each but the last referring to the next
#   cycle N      the same, and the last refers to the first
#   nodes N      one field whose code has N nodes; 10,000 are allowed
# The others are in the manner of projects that people write:
#   store N      N views of 24 fields, as of an online store, with an explore of up to eight joins on every fifth
#   star N       four views of facts that share N dimensions, with an explore of up to 30 joins on each
#   snowflake N  a view of facts with N branches of four views, each of which names the next; N is at most 7
#   small N      N views of five fields, each in a file of its own, and N / 2 explores of two joins in files
#   broad N      N views of 300 fields, and an explore of two joins on every fourth
#   layers N     N views in chains of ten, of which each extends the one before and is refined twice; explores that extend
#   joins N      N explores of 31 joins over 32 views
#   derived N    N views, and a derived table over the explore of each, which is joined into it; ten are persisted
#   totals N     16 explores over N views, with twelve aggregate tables and four datagroups
#   steps N      N derived tables, each made of the explore over the one before
#   times N      N views of six groups of eleven timeframes and six tiers, with fields and filters over them
#   company      200 explores of ten joins over 500 views of 40 fields, with filters, timeframes and references
# With each line stand the time, the most memory of the process, and what it printed, which is `ok` of all but `cycle`. A
# measurement, not a test. It runs the program that `./lookd` builds.
top=$(cd "$(dirname "$0")/.." && pwd) || exit 1
[ -n "$LOOKD" ] || "$top/lookd" help >/dev/null
program=${LOOKD:-$top/crates/lookd/out/lookd}
work=$(mktemp -d) || exit 1
trap 'rm -rf "$work"' EXIT

write_project() {
    mkdir -p "$work/p/views" "$work/p/explores" "$work/p/layers" "$work/p/refinements"
    printf 'user,attribute,value\nann,region,EU\n' >"$work/p/users.csv"
    awk -v shape="$1" -v size="$2" -v folder="$work/p" -f "$top/bench/check_projects.awk"
}

for line in 'wide 5000' 'chain 1000' 'cycle 1000' 'nodes 10000' 'store 20' 'store 40' 'store 60' 'star 40' 'snowflake 7' \
    'small 60' 'broad 20' 'layers 40' 'joins 10' 'derived 25' 'totals 40' 'steps 200' 'times 20' 'company 0'; do
    rm -rf "$work/p"
    write_project ${line% *} ${line#* }
    told=$(/usr/bin/time -o "$work/cost" -f '%e s, %M KB' "$program" check "$work/p")
    echo "$line: $(tail -n 1 "$work/cost"): $told"
done
