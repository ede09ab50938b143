#!/bin/sh
# Times the built program on made scripts over 100,000 features of a type with all its indexes: the
# puts alone, and the puts with 1,000 queries of each kind behind them, by attribute and by identifier
# a hundred times as many. Prints seconds, the greatest
# resident memory by GNU time where it is there, and what was found and examined.
# Usage: bench/queries.sh [FEATURES [QUERIES]]
top=$(cd "$(dirname "$0")/.." && pwd)
work=$(mktemp -d)
features=${1:-100000}
queries=${2:-1000}
"$top/gm" </dev/null || exit 1

# made KIND: a script of the puts and then queries of this kind, the same at each call
made() {
    awk -v features="$features" -v queries="$queries" -v kind="$1" -f "$top/bench/questions.awk"
}

for kind in puts boxes thousandths rows weeks attribute identifier; do
    made "$kind" >"$work/script"
    printf '%s: ' "$kind"
    if [ -x /usr/bin/time ]; then
        /usr/bin/time -f '%e s, %M KiB' "$top/gm" <"$work/script" 2>&1 >"$work/replies"
    else
        start=$(date +%s%N)
        "$top/gm" <"$work/script" >"$work/replies"
        end=$(date +%s%N)
        echo "$(((end - start) / 1000000)) ms"
    fi
    awk '/^ok (query|count)/ { rows += $5; found += $3 } END { if (rows > 0) printf "    found %d, examined %d\n", found, rows }' "$work/replies"
done
rm -rf "$work"
