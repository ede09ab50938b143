#!/bin/sh
# Measures decompositions by gm_split and by a plain Rust program of the same rule, and prints the two
# times of each case side by side. It copies the crates to a folder of their own, adds the program of
# main.txt there as a crate, and proves, builds and runs it. Times are the least of a hundred turns.
set -e
here=$(cd "$(dirname "$0")" && pwd)
top=$(cd "$here/../.." && pwd)
copy=${1:-$(mktemp -d)}
crate=$copy/crates/gm_bench_split
mkdir -p "$copy/crates"
for name in gm_base gm_curve gm_runs gm_trees gm_split; do
    rm -rf "$copy/crates/$name"
    mkdir "$copy/crates/$name"
    cp -r "$top/crates/$name/src" "$top/crates/$name/specs" "$top/crates/$name/proofs" "$copy/crates/$name"
done
mkdir -p "$crate/src" "$crate/specs" "$crate/proofs"
cp "$here/main.txt" "$crate/src/main.rt"
: > "$crate/specs/Lib.antt"
: > "$crate/proofs/Lib.antt"
for way in flat/plane spatial/space; do
    mkdir -p "$crate/proofs/${way%/*}"
    cat > "$crate/proofs/${way%/*}/Invariants.antt" <<EOF
use Rattle.gm_bench_split.proofs.${way%/*}.Given as goal

abbrev pub ghosts-split_in_${way#*/} : goal.ghosts-split_in_${way#*/}
ghosts-split_in_${way#*/} g a = record { name = a.blank.name; parts = a.blank.parts }
EOF
done
grep -E '^gm_(base|curve|runs|trees|split):' "$top/crates.txt" > "$copy/crates.txt"
echo 'gm_bench_split: anyhow gm_base gm_runs gm_split gm_trees' >> "$copy/crates.txt"
(cd "$crate" && rt run) | sed 's/^| //' | grep ' windows, target ' > "$copy/proved"
rustc -O -o "$copy/plain" "$here/plain.rs"
"$copy/plain" > "$copy/plain.out"
echo 'gm_split, and behind it the plain program'
paste -d '|' "$copy/proved" "$copy/plain.out" | awk -F '|' '{
    n = split($1, proved, ", "); m = split($2, plain, ", ")
    ours = proved[n] + 0; theirs = plain[m] + 0
    printf "%s, %d ns: %.2f times\n", $1, theirs, ours / theirs
}'
