#!/bin/sh
# Tries `lookd serve` from outside, over the worked shop on the loopback. Words: the tasks, all where there is none.
#   clients   a socket, Python's http.client, requests and curl, and http.client through nginx: each is told exactly what `script`
#             tells of the same requests
#   faults    wrong words, addresses, projects and stores, and peers that leave: each ends with its status, or the next is answered
#   signals   SIGTERM, SIGINT and SIGKILL: what was acknowledged is there at the next start
#   kills     100 kills at moments of a fixed seed while four connections load: nothing acknowledged is lost
#   rate      replies a second over eight connections, beside nginx with a static file of the same size, in turns
#   tails     the 99th of a hundred replies of two connections, alone and beside a load and a rebuilding check each second
#   memory    what the process holds after 1,000 replies and after 100,000
#   restart   an opening over 1,000 batches of 16 KB, beside Python's reading of the store
# The first four are tests, the others measurements. It runs the program that
# was built here, and else the packaged one, and python3, curl, and Debian's
# nginx-light and wrk where they are installed.
top=$(cd "$(dirname "$0")/.." && pwd) || exit 1
[ -n "$LOOKD" ] || "$top/lookd" help >/dev/null
program=${LOOKD:-$top/crates/lookd/out/lookd}
[ -x "$program" ] || program=$top/dist/lookd-x86_64-linux
[ $# -gt 0 ] || set -- clients faults signals kills rate tails memory restart
for task in "$@"; do
    work=$(mktemp -d) || exit 1
    python3 "$top/bench/serve.py" "$task" "$program" "$top" "$work"
    status=$?
    rm -rf "$work"
    [ $status -eq 0 ] || exit $status
done
