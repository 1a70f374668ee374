#!/bin/sh
# Compares what aggregate tables answer with what the tables answer: over random shops and models with one to eight aggregate
# tables, each of a datagroup of its own, it asks random queries twice, as they are and with "fresh":true, and both have to have the
# same rows and be complete alike. Which aggregate table answered shows by the snapshot, since each is built at one of its own, over
# tables of which none that the explore reads changes. Prints how many pairs there were, how many were answered by which aggregate
# table, by its number and how many its explore has, how many by the tables, and each pair that differs; the status is 1 where one
# does. So many pairs are asked as the first word says (100,000), from the second word on (1), which a run that found something
# names. Not a part of the gate. It runs the program that `./lookd` builds, and python3.
#
# `--why DIR USER EXPLORE` compares nothing: it prints, for the query that the standard input is, which aggregate tables of the explore
# fit it, by which point each other one does not, and what answers it (docs/queries.md, "Aggregate tables"). It runs the program of
# crates/lookd_why, which it has `rt run` prove and build where it is missing, and ends with that program's status; 70 where it cannot
# be built.
top=$(cd "$(dirname "$0")/.." && pwd) || exit 1
if [ "$1" = --why ]; then
    shift
    why=$top/crates/lookd_why/out/lookd_why
    [ -x "$why" ] || (cd "$top/crates/lookd_why" && rt run </dev/null >/dev/null 2>&1)
    [ -x "$why" ] || {
        echo "awareness.sh: crates/lookd_why is not built: run rt check in it, which says why" >&2
        exit 70
    }
    exec "$why" "$@"
fi
[ -n "$LOOKD" ] || "$top/lookd" help >/dev/null
program=${LOOKD:-$top/crates/lookd/out/lookd}
exec python3 "$top/bench/awareness.py" "$program" "${1:-100000}" "${2:-1}"
