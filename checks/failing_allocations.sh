#!/bin/sh
# Runs a script again and again, and makes its first allocation fail, its second, and so on, until a
# run meets no failure. Each run must end by itself: with status 0 and all replies, or with status 1
# and a front of the replies.
cd "$(dirname "$0")/.." || exit 1
scratch=$(mktemp -d)
trap 'rm -rf "$scratch"' EXIT
cc -shared -fPIC -O1 -o "$scratch/fail.so" checks/fail_allocation.c -ldl || exit 1
program=crates/gm/out/gm
script=checks/short.gm
replies=checks/short.out
size=$(wc -c <$replies)

# run N: the run whose allocation number N fails; its status is in the variable of that name
run() {
    FAIL_ALLOCATION=$1 LD_PRELOAD=$scratch/fail.so $program <$script >"$scratch/replies" 2>/dev/null
    status=$?
    wrote=$(wc -c <"$scratch/replies")
    cmp -s -n "$wrote" "$scratch/replies" $replies && [ "$wrote" -le "$size" ]
}

at=1
refused=0
while [ "$at" -le 10000 ]; do
    if ! run "$at"; then
        echo "allocation $at: wrote what is no front of the replies"
        exit 1
    fi
    case $status in
    0) [ "$wrote" -eq "$size" ] && [ "$refused" -gt 0 ] && exit 0 ;;
    1) refused=$((refused + 1)) ;;
    *) false ;;
    esac || {
        echo "allocation $at: status $status after $wrote bytes"
        exit 1
    }
    at=$((at + 1))
done
echo "no run without a failure"
exit 1
