#!/usr/bin/env bash
# Times the calls over a pool of shapes: loading, the check of a step, a list of shapes and a history, each over 50,000, 100,000 and 200,000
# nodes, so that it can be read off that twice the nodes take twice the time. Then it lists 1,048,575 shapes of twenty nodes, and answers the
# limits that take long to reach. By hand, not in the gate. usage: scripts/bench_rows.sh [NODES ..]
#
# The check of a step has five loops over what the root reaches: it lists the ends of each node, searches depth first, ranks, and marks what
# reaches a request with a place and one with a turn. Each takes a turn a node and a turn an end; the plan then takes one a node and one a live
# request. The script prints these turns beside the time.
set -euo pipefail
here=$(cd "$(dirname "$0")/.." && pwd)
program=$here/crates/pool_rows/out/pool_rows
[ -x "$program" ] || { echo 'bench_rows: crates/pool_rows is not built: rt run in crates/pool_rows, or rt ci pool_rows' >&2; exit 1; }
work=$(mktemp -d)
trap 'rm -rf "$work"' EXIT
if [ $# -eq 0 ]; then set -- 50000 100000 200000; fi

# A pool of so many nodes: vertices, an edge over each and the next, two edges a wire, and a compound over all wires.
pool() {
    awk -v n="$1" 'BEGIN {
        v = int(n * 2 / 5); top = v + (v - 1) + int((v - 1) / 2) + 1
        printf "pool Ve 1"
        for (i = 2; i <= v; i++) printf "; Ve %d", i
        for (i = 1; i < v; i++) printf "; Ed %d +%d -%d", v + i, i, i + 1
        for (i = 1; i <= (v - 1) / 2; i++) printf "; Wi %d +%d +%d", 2 * v - 1 + i, v + 2 * i - 1, v + 2 * i
        printf "; Co %d", top
        for (i = 1; i <= (v - 1) / 2; i++) printf " +%d", 2 * v - 1 + i
        print ""
    }'
}

# A question about it.
#   check    every second vertex is replaced by the one before it, at a place and everywhere else
#   map      all shapes
#   step     each edge is replaced by the next one, and every other shape is its own image
#   chain    that history after itself
question() {
    awk -v n="$1" -v what="$2" 'BEGIN {
        v = int(n * 2 / 5); top = v + (v - 1) + int((v - 1) / 2) + 1
        if (what == "check") {
            printf "requests replace 2 by 1"
            for (i = 4; i <= v; i += 2) printf "; replace %d by %d; replace %d@a by %d@b", i, i - 1, i, i - 1
            printf "; size %d\n", top
        } else if (what == "map") {
            printf "count All %d\n", top
        } else if (what == "step") {
            printf "step %d %d :", top, top
            for (i = 1; i <= v; i++) printf " %d", i
            for (i = v + 1; i < 2 * v - 1; i++) printf " %d>%d", i, i + 1
            printf " /"
            for (i = v + 1; i < 2 * v - 1; i++) printf " %d>%d", i, i + 1
            print ""
        } else {
            printf "chain %d %d :", top, top
            for (k = 0; k < 2; k++) {
                if (k == 1) printf " ;"
                for (i = 1; i <= v; i++) printf " %d", i
                for (i = v + 1; i < 2 * v - 1; i++) printf " %d>%d", i, i + 1
            }
            print ""
        }
    }'
}

# How many turns each of the five loops of that check takes: with w wires there are reached w wires, 2 w edges, 2 w + 1 vertices and the
# compound; and their ends are 2 w and 4 w uses, the w wires of the compound, and the targets of 2 w - 1 live requests.
turns() {
    awk -v n="$1" 'BEGIN { w = int((int(n * 2 / 5) - 1) / 2); print (5 * w + 2) + (9 * w - 1) }'
}

# The least processor seconds of five runs, and the peak memory in KiB, of the program on rows. A row that isn't understood stops the script.
measure() {
    python3 - "$program" "$1" <<'PY'
import os, subprocess, sys
best, most = None, 0
for _ in range(5):
    with open(sys.argv[2], 'rb') as rows:
        run = subprocess.Popen([sys.argv[1]], stdin=rows, stdout=subprocess.PIPE)
        end = run.stdout.read()[-16:]
        _, status, use = os.wait4(run.pid, 0)
    if status != 0 or end.endswith((b'-> ?\n', b'no memory\n')):
        sys.exit('bench_rows: the row was not answered')
    spent = use.ru_utime + use.ru_stime
    best = spent if best is None else min(best, spent)
    most = max(most, use.ru_maxrss)
print('%.3f %d' % (best, most))
PY
}

# A row of the table. A question makes the pool once more, so that its time has twice that of loading in it.
printf '%-10s %10s %14s %14s\n' call nodes 'processor s' 'peak KiB'
for nodes in "$@"; do
    pool "$nodes" >"$work/pool"
    read -r load memory <<<"$(measure "$work/pool")"
    printf '%-10s %10d %14.3f %14d\n' load "$nodes" "$load" "$memory"
    for what in check map step chain; do
        { cat "$work/pool"; question "$nodes" "$what"; } >"$work/rows"
        read -r all memory <<<"$(measure "$work/rows")"
        printf '%-10s %10d %14.3f %14d' "$what" "$nodes" "$all" "$memory"
        if [ "$what" = check ]; then printf ' %14d turns a loop' "$(turns "$nodes")"; fi
        echo
    done
done

# Answers that take long to reach: rows with what is due. Nineteen levels over two words have 2 ^ 20 - 1 shapes, and each of the 65,536 vertices
# below sixteen levels and 240 further compounds stands below 256 compounds.
cat >"$work/due" <<'ROWS'
pool Ve 1; nest A 19 1@a 1@b; Co B +A; Co C +B; nest D 20 1@a 1@b -> 0; 19; 20; 21; 22
count All A -> 1048575
count Ve A -> 524288
count All B -> 1048576
count All C -> keys 1048577
count All D -> keys 1048577
pool many Ve 4194304; Co A -> 4194304; too-many 4194305
pool Ve 1; Ve 2; nest A 16 1@a 1@b; nest B 240 A; Co C +B +2 -> 0; 1; 17; 257; 258
above-count Ve Co B -> 16777216
above-count Ve Co C -> pairs 16777217
ROWS
echo
while IFS= read -r row; do
    case "$row" in
        pool*) printf '%s\n' "${row%% -> *}" >"$work/pool"; cp "$work/pool" "$work/rows" ;;
        *) { cat "$work/pool"; printf '%s\n' "${row%% -> *}"; } >"$work/rows" ;;
    esac
    got=$("$program" <"$work/rows" | tail -n 1)
    [ "$got" = "$row" ] || { printf 'bench_rows: due: %s\nbench_rows: got: %s\n' "$row" "$got" >&2; exit 1; }
    read -r seconds memory <<<"$(measure "$work/rows")"
    printf '%-60s %10.3f s %10d KiB\n' "${row%% -> *}" "$seconds" "$memory"
done <"$work/due"
