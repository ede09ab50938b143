#!/bin/sh
# Times the built program on made scripts of puts, replaces and deletes, for a type with two rows a
# feature and for one with six, and on a change and a removal of half of the features. Prints
# microseconds of processor time a feature, and bytes a feature by GNU time where it is there.
# Usage: bench/changes.sh [FEATURES]
top=$(cd "$(dirname "$0")/.." && pwd)
work=$(mktemp -d)
features=${1:-100000}
"$top/gm" </dev/null || exit 1

# made TYPE KIND: a script of puts, and behind them what the kind says
made() {
    awk -v features="$features" -v type="$1" -v kind="$2" '
        function values() {
            if (type == "six") printf "n%d,%d,2020-%02d-%02dT00:00:00Z,", rand() * 1000, rand() * 1000, 1 + rand() * 12, 1 + rand() * 28
            printf "POINT (%.7f %.7f)\n", rand() * 360 - 180, rand() * 180 - 90
        }
        function puts(i) { for (i = 1; i <= features; i++) { printf "put t f%d,", i; values() } }
        BEGIN {
            srand(7)
            if (type == "six") print "create t name:String:index=true,n:Integer:index=true,dtg:Date:index=true,*geom:Point"
            else print "create t *geom:Point"
            puts()
            if (kind == "replaces") puts()
            if (kind == "deletes") for (i = 1; i <= features; i++) print "delete t f" i
            if (kind == "remove") print "remove t BBOX(geom,-180,-90,0,90)"
            if (kind == "modify") print "modify t geom POINT (1 1) WHERE BBOX(geom,-180,-90,0,90)"
        }'
}

for type in two six; do
    before=0
    for kind in puts replaces deletes remove modify; do
        made "$type" "$kind" >"$work/script"
        /usr/bin/time -f '%U %S %M' "$top/gm" <"$work/script" 2>"$work/time" >/dev/null
        awk -v type="$type" -v kind="$kind" -v features="$features" -v before="$before" '{
            each = ($1 + $2) * 1000000 / features - before
            printf "%s rows, %s: %.1f us a feature, %d bytes a feature\n", type, kind, each, $3 * 1024 / features }' "$work/time"
        [ "$kind" = puts ] && before=$(awk -v features="$features" '{ print ($1 + $2) * 1000000 / features }' "$work/time")
    done
done
rm -rf "$work"
