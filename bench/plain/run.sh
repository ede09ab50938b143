#!/bin/bash
# Times the built program beside plain.rs, an unproved Rust program of the same rules, on the scripts of
# bench/queries.sh and on twenty boxes of a tenth of the features. Prints for each kind the processor
# seconds of both, the least of RUNS runs in turn, and their ratio: of the whole script, and of what its
# questions take beyond the puts. Says so where the replies differ, and then ends with status 1.
# Usage: bench/plain/run.sh [FEATURES [QUERIES]]; GM is another path of gm's program, RUNS is 3 if not given.
set -e
here=$(cd "$(dirname "$0")" && pwd)
top=$(cd "$here/../.." && pwd)
features=${1:-100000}
queries=${2:-1000}
if [ -z "$GM" ]; then
    "$top/gm" </dev/null
    GM=$top/crates/gm/out/gm
fi
work=$(mktemp -d)
trap 'rm -rf "$work"' EXIT
rustc --edition 2021 -C opt-level=3 -o "$work/plain" "$here/plain.rs"
TIMEFORMAT='%U %S'
status=0

# least FILE: the least sum of user and system time in the lines of a file
least() {
    awk '{ s = $1 + $2; if (NR == 1 || s < least) least = s } END { print least }' "$1"
}

printf '%-11s %-27s %s\n' '' '        gm      plain  ratio' '   beyond the puts'
for kind in puts boxes thousandths rows weeks attribute identifier tenth; do
    awk -v features="$features" -v queries="$queries" -v kind="$kind" -f "$top/bench/questions.awk" >"$work/script"
    : >"$work/gm.times"
    : >"$work/plain.times"
    for _ in $(seq "${RUNS:-3}"); do
        { time "$GM" <"$work/script" >"$work/gm.replies"; } 2>>"$work/gm.times"
        { time "$work/plain" <"$work/script" >"$work/plain.replies"; } 2>>"$work/plain.times"
    done
    gm=$(least "$work/gm.times")
    plain=$(least "$work/plain.times")
    [ "$kind" = puts ] && gm_puts=$gm && plain_puts=$plain
    awk -v kind="$kind" -v g="$gm" -v p="$plain" -v gp="$gm_puts" -v pp="$plain_puts" 'BEGIN {
        printf "%-11s %8.3f s %8.3f s %5.2f", kind, g, p, g / p
        if (kind != "puts") printf "   %8.3f s %8.3f s", g - gp, p - pp
        if (kind != "puts" && p > pp) printf " %5.2f", (g - gp) / (p - pp)
        print ""
    }'
    cmp -s "$work/gm.replies" "$work/plain.replies" || { echo "$kind: the replies differ"; status=1; }
done
exit $status
