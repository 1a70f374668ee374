#!/bin/sh
# Times `lookd script` on the worked shop without its datagroup and aggregate tables, as a stream of requests:
#   queries N    N queries of totals by region over the shop's three orders (100,000 where no word says another), in requests of
#                one session; queries a second
#   loads N      N loads of 1,000 rows each appended to one table (1,000 rows a batch); the time of each, the most memory of the
#                process, and what it holds once all are answered, beside the same rows opened from a data file
#   large N      200 loads of 1,000 rows each into a table of N rows (1,000,000 where no word says another); the time of one load
# What the process takes to open is timed by an empty session and taken off. A measurement, not a test. It runs the program that
# `./lookd` builds, and python3 to write the requests. A store in memory keeps each batch, so the memory of the loads is that of
# the table, its texts and the saved batches.
top=$(cd "$(dirname "$0")/.." && pwd) || exit 1
[ -n "$LOOKD" ] || "$top/lookd" help >/dev/null
program=${LOOKD:-$top/crates/lookd/out/lookd}
work=$(mktemp -d) || exit 1
trap 'rm -rf "$work"' EXIT

mkdir -p "$work/shop/data" "$work/big/data"
cp -r "$top/examples/shop/views" "$top/examples/shop/schema.csv" "$top/examples/shop/data" "$work/shop"
cat >"$work/write.py" <<'P'
import re
import sys

kind, folder, count = sys.argv[1], sys.argv[2], int(sys.argv[3])
if kind == "project":
    text = open(f"{folder}/model").read()
    # What is persisted goes: datagroups and aggregate tables, by their braces.
    for word in ("datagroup:", "aggregate_table:"):
        while word in text:
            start = text.index(word)
            at, depth = text.index("{", start), 0
            while True:
                depth += {"{": 1, "}": -1}.get(text[at], 0)
                at += 1
                if depth == 0:
                    break
            text = text[:start] + text[at:]
    open(f"{folder}/shop.model.lkml", "w").write(re.sub(r"\n\s*\n+", "\n", text))
    sys.exit()


def request(target, user, body):
    return f"POST {target} HTTP/1.1\r\nX-User: {user}\r\nContent-Length: {len(body)}\r\n\r\n{body}"


out = sys.stdout
if kind == "queries":
    one = request("/query/orders", "all", '{"fields":["users.region","orders.total","items.count"]}')
    for _ in range(count // 1000):
        out.write(one * 1000)
if kind in ("loads", "large"):
    first = 10_000_000
    for i in range(count):
        rows = "".join(f"{first + 1000 * i + j},{j % 100}.5,name {j}\n" for j in range(1000))
        out.write(request(f"/load/t/append/{kind}{i}", "etl", "id,n,name\n" + rows))
if kind == "once":
    out.write("id,n,name\n")
    for i in range(count):
        out.write(f"{i},{i % 100}.5,name {i % 1000}\n")
P
cp "$top/examples/shop/shop.model.lkml" "$work/shop/model"
python3 "$work/write.py" project "$work/shop" 0 && rm "$work/shop/model"
printf 'user,attribute,value\nall,region,"%%,NULL"\netl,loader,yes\n' >"$work/shop/users.csv"
cp "$work/shop/users.csv" "$work/big/users.csv"
printf 'table,column,kind,key\nt,id,number,yes\nt,n,number,\nt,name,text,\n' >"$work/big/schema.csv"
printf 'explore: t {}\nview: t { dimension: id { primary_key: yes type: number } measure: count { type: count } }\n' >"$work/big/b.model.lkml"

# The seconds and the kB of a session over a folder, and its status. The allocator gives back what `./lookd` has it give back.
export MALLOC_MMAP_THRESHOLD_=${MALLOC_MMAP_THRESHOLD_:-131072}
session() {
    /usr/bin/time -f '%e %M' -o "$work/time" "$program" script "$1" <"$2" >"$work/out"
    echo "$? $(tail -1 "$work/time")"
}

report() {
    name=$1
    count=$2
    set -- $(session "$3" /dev/null) $(session "$3" "$4")
    answered=$(grep -o 'HTTP/1.1 200 OK' "$work/out" | wc -l)
    awk -v name="$name" -v n="$count" -v open="$2" -v all="$5" -v memory="$6" -v status="$4" -v answered="$answered" 'BEGIN {
        spent = all - open
        printf "%s: %d of %d answered with 200, status %d; %.2f s, %.3f ms each, %d a second; %d MB\n", name, answered, n, status, spent, 1000 * spent / n, (spent > 0 ? n / spent : 0), memory / 1024
    }'
}

queries() {
    python3 "$work/write.py" queries "$work" "$1" >"$work/requests"
    report "$1 queries" "$1" "$work/shop" "$work/requests"
}

# The kB that a session holds when so many requests are answered and more may come.
held() {
    rm -f "$work/input"
    mkfifo "$work/input"
    "$program" script "$1" <"$work/input" >"$work/out" &
    exec 3>"$work/input"
    cat "$2" >&3
    while kill -0 $! && [ "$(grep -o 'HTTP/1.1 ' "$work/out" | wc -l)" -lt "$3" ]; do
        sleep 0.2
    done
    awk '/^VmRSS/ { print $2 }' "/proc/$!/status"
    exec 3>&-
    wait $!
}

loads() {
    rm -f "$work/big/data/t.csv"
    python3 "$work/write.py" loads "$work" "$1" >"$work/requests"
    report "$1 loads of 1,000 rows" "$1" "$work/big" "$work/requests"
    echo "    $(held "$work/big" "$work/requests" "$1") kB are held after them, with $(wc -c <"$work/requests") bytes of requests"
    python3 "$work/write.py" once "$work" $((1000 * $1)) >"$work/big/data/t.csv"
    set -- $(session "$work/big" /dev/null)
    echo "    the same number of rows from a data file: $2 s, $(($3 / 1024)) MB"
    printf 'GET / HTTP/1.1\r\n\r\n' >"$work/requests"
    echo "    $(held "$work/big" "$work/requests" 1) kB are held once it is opened"
}

large() {
    python3 "$work/write.py" once "$work" "$1" >"$work/big/data/t.csv"
    python3 "$work/write.py" large "$work" 200 >"$work/requests"
    report "200 loads of 1,000 rows into $1" 200 "$work/big" "$work/requests"
}

case "$1" in
queries) queries "${2:-100000}" ;;
loads) loads "${2:-1000}" ;;
large) large "${2:-1000000}" ;;
*) queries 100000; loads 1000; large 1000000 ;;
esac
