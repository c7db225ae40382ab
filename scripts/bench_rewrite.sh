#!/usr/bin/env bash
# Times rewrites: a shape that stands at 2^19 places below two turns of nineteen compounds, with a request at one of them; a step that changes
# all of 200,000 records; and a script of 65,536 lines that changes 500 of them. Beside each it times the reading of the same file. By hand,
# not in the gate; `scripts/bench.sh` ends with it. usage: scripts/bench_rewrite.sh [RECORDS]
set -euo pipefail
here=$(cd "$(dirname "$0")/.." && pwd)
records=${1:-200000}
work=$(mktemp -d)
trap 'rm -rf "$work"' EXIT
"$here/brep" gen 0 0 0 2>/dev/null || true # builds the program, where that is due
brep=$here/build/brep

head_of() {
    printf 'CASCADE Topology V1, (c) Matra-Datavision\n%s\nCurve2ds 0\nCurves 0\nPolygon3D 0\nPolygonOnTriangulations 0\nSurfaces 0\n' "$1"
    printf 'Triangulations 0\nTShapes %d\n' "$2"
}

vertex() { printf 'Ve\n1e-07\n%s 0 0\n0 0\n\n0101101\n*\n' "$1"; }

# Two vertices, and so many compounds, each of which uses the one before it at two places.
doubled() {
    head_of $'Locations 2\n1 1 0 0 1 0 1 0 0 0 0 1 0\n1 1 0 0 0 0 1 0 1 0 0 1 0' $(($1 + 2))
    vertex 0
    vertex 1
    awk -v n="$1" 'BEGIN { print "Co\n\n0101000\n+" n + 2 " 1 +" n + 2 " 2 *"; for (i = n; i > 1; i--) print "Co\n\n0101000\n+" i " 1 +" i " 2 *"; print "+1 0" }'
}

# So many records: two vertices, compounds over the first of them, and one compound over these.
fanned() {
    head_of 'Locations 0' "$1"
    vertex 0
    vertex 1
    awk -v n="$1" 'BEGIN {
        for (i = n - 2; i > 1; i--) print "Co\n\n0101000\n+" n " 0 *"
        print "Co\n\n1100000"
        for (i = n - 2; i > 1; i--) printf "+%d 0 ", i
        print "*\n+1 0"
    }'
}

# The processor seconds and the peak memory in KiB of a command, the least time of three runs.
measure() {
    python3 - "$@" <<'PY'
import os, subprocess, sys
best, most = None, 0
for _ in range(3):
    run = subprocess.Popen(sys.argv[1:], stdout=subprocess.DEVNULL)
    _, status, use = os.wait4(run.pid, 0)
    if status:
        sys.exit('bench_rewrite: status %d' % os.waitstatus_to_exitcode(status))
    spent = use.ru_utime + use.ru_stime
    best = spent if best is None else min(best, spent)
    most = max(most, use.ru_maxrss)
print('%.2f %d' % (best, most))
PY
}

# A line of the table: reading alone, and the rewrite of the same file. What must stand in the history is its third argument.
row() {
    read -r read_cpu read_memory <<<"$(measure "$brep" walk "$work/in.brep" Ve 0 "$work/none.txt")"
    read -r cpu memory <<<"$(measure "$brep" rewrite "$work/in.brep" "$work/script.txt" "$work/out.brep" "$work/history.txt")"
    grep -qx "$2" "$work/history.txt"
    awk -v name="$1" -v r="$read_cpu" -v rm="$read_memory" -v c="$cpu" -v m="$memory" \
        'BEGIN { printf "%-40s %8.2f s %8d KiB %8.2f s %8d KiB %8.2f\n", name, r, rm, c, m, c / (r > 0 ? r : 0.01) }'
}

printf '%-40s %10s %12s %10s %12s %8s\n' '' 'reading' '' 'rewriting' '' 'times'

doubled 19 >"$work/in.brep"
echo 'replace 21 at 1 by 20' >"$work/script.txt"
row '1,048,575 shapes of 20 records' 'removed 0'

fanned "$records" >"$work/in.brep"
echo "replace $records by $((records - 1))" >"$work/script.txt"
row "all of $records records change" 'removed 0'

awk 'BEGIN { for (i = 0; i < 65536; i++) print "replace " i % 500 + 2 " by " i % 500 + 1002 }' >"$work/script.txt"
row "65,536 lines, $records records" 'removed 0'
