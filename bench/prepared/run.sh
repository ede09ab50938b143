#!/bin/sh
# Measures tests of meeting, as they are and with one geometry prepared, by the program of main.txt in a
# copy of the repository. Usage: bench/prepared/run.sh [FOLDER]
here=$(cd "$(dirname "$0")" && pwd)
exec "$here/../run_copied.sh" "$here" gm_bench_prepared 'gm_base gm_geom gm_shapes gm_prepared' "${1:-$(mktemp -d)}"
