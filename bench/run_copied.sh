#!/bin/sh
# Copies the repository to a folder of its own, adds the program FOLDER/main.txt there as the crate NAME
# over these libraries, with FOLDER/proofs/PLACE.txt as proofs/PLACE/Invariants.antt if there are any, and
# proves, builds and runs it. The program stays in crates/NAME/out of the copy.
# Usage: bench/run_copied.sh FOLDER NAME LIBRARIES COPY
set -e
top=$(cd "$(dirname "$0")/.." && pwd)
copy=$4/repository
rm -rf "$copy"
git clone -q "$top" "$copy"
crate=$copy/crates/$2
mkdir -p "$crate/src" "$crate/specs" "$crate/proofs"
cp "$1/main.txt" "$crate/src/main.rt"
: > "$crate/specs/Lib.antt"
: > "$crate/proofs/Lib.antt"
for measure in "$1"/proofs/*.txt; do
    [ -f "$measure" ] || continue
    mkdir "$crate/proofs/$(basename "$measure" .txt)"
    cp "$measure" "$crate/proofs/$(basename "$measure" .txt)/Invariants.antt"
done
echo "$2: $3" >> "$copy/crates.txt"
cd "$crate"
exec rt run
