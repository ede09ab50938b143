#!/bin/sh
# Measures rows of features, in processor time, by the program of main.txt in a copy of the repository.
# Usage: bench/rows/run.sh [FOLDER]
here=$(cd "$(dirname "$0")" && pwd)
exec "$here/../run_copied.sh" "$here" gm_bench_rows 'gm_base gm_types gm_feature gm_rows' "${1:-$(mktemp -d)}"
