#!/bin/sh
# Tries the wrong bodies that the gate does not try: `bench/wrong.sh CRATE..` has the prover try each file must-fail/*.md of these
# crates as it tries an edit, and says which were refused. It is for whoever changes a clause of such a crate. It works on a copy of
# the crate and of those below it, begun with what `rt check` kept here; one that was never checked here is proved first. The last
# line is `N refused, N not`, and the status is 1 where one was not.
here=$(CDPATH='' cd -- "$(dirname -- "$0")/.." && pwd) || exit 70
cd "$here" || exit 70

fail() {
    echo "wrong.sh: $*" >&2
    exit 70
}

[ $# -gt 0 ] || fail "usage: bench/wrong.sh CRATE.."
command -v rt >/dev/null 2>&1 || fail "the command rt of the Rattle kit is not on the path"
for crate in "$@"; do
    ls "crates/$crate/must-fail/"*.md >/dev/null 2>&1 || fail "there is no file crates/$crate/must-fail/*.md"
done
room=$(mktemp -d) || fail "could not make a folder for temporary files"
trap 'rm -rf "$room"' EXIT
trap 'exit 1' HUP INT TERM
set -e
mkdir "$room/crates"
cp HANDLES "$room"
for crate in "$@"; do
    dist/below "$crate"
done | sort -u | while read -r crate; do
    mkdir "$room/crates/$crate"
    for part in src specs proofs; do
        [ ! -e "crates/$crate/$part" ] || cp -R "crates/$crate/$part" "$room/crates/$crate"
    done
    grep "^$crate:" crates.txt >>"$room/crates.txt"
done
for crate in "$@"; do
    mkdir "$room/crates/$crate/must-fail"
    for body in "crates/$crate/must-fail/"*.md; do
        cp "$body" "$room/crates/$crate/must-fail/$(basename "$body" .md).edit"
    done
done
set +e
(cd "$room" && rt must-fail "$@" 2>&1) | tee "$room/log" | grep '^rt: must-fail '
of=$(find "$room/crates" -name '*.edit' | wc -l)
refused=$(grep -c '^rt: must-fail .*: refused, as it must be' "$room/log")
[ "$refused" -gt 0 ] || tail -n 5 "$room/log" >&2
echo "$refused refused, $((of - refused)) not"
[ "$refused" -eq "$of" ]
