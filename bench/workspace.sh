# For a timing that builds a program of its own, `timing`. Sourced with `crates`, those that it is built from, and `uses`,
# those that it names; gives `top`, the repository, and `work`, a folder with these crates that goes when the timing ends.
top=$(cd "$(dirname "$0")/.." && pwd) || exit 1
work=$(mktemp -d) || exit 1
trap 'rm -rf "$work"' EXIT
mkdir -p "$work/crates/timing/src" || exit 1
for crate in $crates; do
    cp -r "$top/crates/$crate" "$work/crates" || exit 1
    grep "^$crate:" "$top/crates.txt" >>"$work/crates.txt" || exit 1
done
echo "timing: $uses" >>"$work/crates.txt"
