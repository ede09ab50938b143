#!/bin/sh
# Times the built program on counts over tables without rows: what a plan costs, with its ranges and
# their spans of keys. Prints microseconds of processor time a count, by index, target and bins.
# Usage: bench/ranges.sh [COUNTS]
top=$(cd "$(dirname "$0")/.." && pwd)
work=$(mktemp -d)
counts=${1:-1000}
"$top/gm" </dev/null || exit 1

# made INDEX TARGET BINS
made() {
    awk -v counts="$counts" -v index_="$1" -v target="$2" -v bins="$3" 'BEGIN {
        srand(7)
        print "create points dtg:Date,*geom:Point"
        print "create lines dtg:Date,*geom:LineString"
        for (i = 1; i <= counts; i++) {
            x = rand() * 350 - 175
            y = rand() * 170 - 85
            printf "count %s index=%s target=%d BBOX(geom,%.7f,%.7f,%.7f,%.7f)", index_ ~ /x/ ? "lines" : "points", index_, target, x, y, x + 5, y + 5
            if (index_ ~ /3/) printf " AND dtg DURING 2020-01-03T00:00:00Z/2020-%02d-%02dT00:00:00Z", bins == 50 ? 12 : bins == 5 ? 2 : 1, bins == 50 ? 10 : bins == 5 ? 3 : 5
            print ""
        }
    }'
}

for index in 'z2 0' 'z3 1' 'z3 5' 'z3 50' 'xz2 0' 'xz3 1' 'xz3 5' 'xz3 50'; do
    for target in 16 2000; do
        made ${index% *} $target ${index#* } >"$work/script"
        /usr/bin/time -f '%U %S' "$top/gm" <"$work/script" 2>"$work/time" >"$work/replies"
        awk -v index_="${index% *}" -v bins="${index#* }" -v target="$target" -v counts="$counts" '{
            printf "%s, %d bins, target %d: %.0f us a count\n", index_, bins, target, ($1 + $2) * 1000000 / counts }' "$work/time"
    done
done
rm -rf "$work"
