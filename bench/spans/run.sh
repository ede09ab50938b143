#!/bin/sh
# Measures spans of keys, in processor time, by the program of main.txt in a copy of the repository, over
# both kinds of table, at 100,000 and at 1,000,000 rows; where GNU time is there, it tells the memory of
# the puts. Usage: bench/spans/run.sh [FOLDER]
set -e
here=$(cd "$(dirname "$0")" && pwd)
copy=${1:-$(mktemp -d)}
"$here/../run_copied.sh" "$here" gm_bench_spans 'anyhow gm_base gm_table' "$copy"
program=$copy/repository/crates/gm_bench_spans/out/gm_bench_spans
for rows in 100000 1000000; do
    for table in map blocks; do
        echo "$table:"
        "$program" $table $rows
        "$program" $table $rows puts batches
        if [ -x /usr/bin/time ]; then
            /usr/bin/time -f '%M KiB' "$program" $table $rows puts
        fi
    done
done
