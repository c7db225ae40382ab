#!/usr/bin/env bash
# Times the copy of large files beside plain tools, in one run: a model of 56,000 cylinders, and a million vertices in one compound, about
# 60 MB each. Then it times the copy of a mesh of nine million tokens, and a rewrite that removes 10,000 shapes of a file of 200,000 records
# beside the copy of that file; at last further rewrites (scripts/bench_rewrite.sh). By hand, not in the gate.
# usage: scripts/bench.sh [VERTICES] [CYLINDERS]
set -euo pipefail
here=$(cd "$(dirname "$0")/.." && pwd)
vertices=${1:-1000000}
cylinders=${2:-56000}
work=$(mktemp -d)
trap 'rm -rf "$work"' EXIT

# Vertices with coordinates of usual length, then one compound that uses each of them forward.
vertices_in_one_compound() {
    awk -v n="$1" 'BEGIN {
        print "CASCADE Topology V1, (c) Matra-Datavision"
        print "Locations 0\nCurve2ds 0\nCurves 0\nPolygon3D 0\nPolygonOnTriangulations 0\nSurfaces 0\nTriangulations 0"
        print "TShapes " n + 1
        for (i = 0; i < n; i++) printf "Ve\n1e-07\n%d.5125 %d.2575 -%d.125\n0 0\n\n0101101\n*\n", i % 1000, i % 977, i % 991
        print "Co\n\n1100000"
        for (i = 0; i < n; i++) printf "+%d 0 ", n + 1 - i
        print "*\n+1 0"
    }'
}

# Solids with their own curves and surfaces, in one compound: each has two vertices, three edges, three wires, three faces and a shell.
cylinders_in_one_compound() {
    awk -v n="$1" 'BEGIN {
        records = 13 * n + 1; turn = "6.2831853071795862"
        print "CASCADE Topology V1, (c) Matra-Datavision\nLocations 0\nCurve2ds " 6 * n
        for (i = 0; i < n; i++) printf "1 0 10 1 0\n2 0 0 1 0 -0 1 %d.125\n1 %s 0 0 1\n1 0 0 0 1\n1 0 0 1 0\n2 0 0 1 0 -0 1 %d.125\n", i % 50, turn, i % 50
        print "Curves " 3 * n
        for (i = 0; i < n; i++) printf "2 %d.5 0 10 0 0 1 1 0 -0 -0 1 0 5.125\n1 %d.5 5 0 0 0 1\n2 %d.5 0 0 0 0 1 1 0 -0 -0 1 0 5.125\n", i, i, i
        print "Polygon3D 0\nPolygonOnTriangulations 0\nSurfaces " 3 * n
        for (i = 0; i < n; i++) printf "2 %d.5 0 0 0 0 1 1 0 -0 -0 1 0 5.125\n1 %d.5 0 10 0 0 1 1 0 -0 -0 1 0\n1 %d.5 0 0 0 0 1 1 0 -0 -0 1 0\n", i, i, i
        print "Triangulations 0\nTShapes " records
        edge = "\n1e-07 1 1 0\n"; rest = "\n0\n\n0101000\n"
        for (i = 0; i < n; i++) {
            top = records - 13 * i; c = 6 * i; k = 3 * i
            printf "Ve\n1e-07\n%d.5 5 10\n0 0\n\n0101101\n*\n", i
            printf "Ed%s1 %d 0 0 %s\n2 %d %d 0 0 %s\n2 %d %d 0 0 %s%s+%d 0 -%d 0 *\n", edge, k + 1, turn, c + 1, k + 1, turn, c + 2, k + 2, turn, rest, top, top
            printf "Ve\n1e-07\n%d.5 5 0\n0 0\n\n0101101\n*\n", i
            printf "Ed%s1 %d 0 0 10\n3 %d %dCN %d 0 0 10%s+%d 0 -%d 0 *\n", edge, k + 2, c + 3, c + 4, k + 1, rest, top - 2, top
            printf "Ed%s1 %d 0 0 %s\n2 %d %d 0 0 %s\n2 %d %d 0 0 %s%s+%d 0 -%d 0 *\n", edge, k + 3, turn, c + 5, k + 1, turn, c + 6, k + 3, turn, rest, top - 2, top - 2
            printf "Wi\n\n0101100\n+%d 0 -%d 0 -%d 0 +%d 0 *\n", top - 1, top - 3, top - 4, top - 3
            printf "Fa\n0 1e-07 %d 0\n\n0101000\n+%d 0 *\n", k + 1, top - 5
            printf "Wi\n\n0101100\n+%d 0 *\nFa\n0 1e-07 %d 0\n\n0101000\n+%d 0 *\n", top - 1, k + 2, top - 7
            printf "Wi\n\n0101100\n+%d 0 *\nFa\n0 1e-07 %d 0\n\n0101000\n+%d 0 *\n", top - 4, k + 3, top - 9
            printf "Sh\n\n0101100\n+%d 0 +%d 0 -%d 0 *\nSo\n\n0100000\n+%d 0 *\n", top - 6, top - 8, top - 10, top - 11
        }
        print "Co\n\n1100000"
        for (i = 0; i < n; i++) printf "+%d 0 ", records - 13 * i - 12
        print "*\n+1 0"
    }'
}

vertices_in_one_compound "$vertices" >"$work/in.brep"
bytes=$(stat -c %s "$work/in.brep")
"$here/brep" gen 0 0 0 2>/dev/null || true # builds the program, where that is due

# The processor and wall seconds and the peak memory in KiB of a command.
measure() {
    python3 - "$@" <<'PY'
import os, resource, subprocess, sys, time
start = time.time()
subprocess.run(sys.argv[1:], check=True, stdout=subprocess.DEVNULL)
use = resource.getrusage(resource.RUSAGE_CHILDREN)
print('%.2f %.2f %d' % (time.time() - start, use.ru_utime + use.ru_stime, use.ru_maxrss))
PY
}

read -r copy_wall copy_cpu copy_memory <<<"$(measure "$here/build/brep" copy "$work/in.brep" "$work/out.brep")"
cmp "$work/in.brep" "$work/out.brep"
read -r cat_wall cat_cpu _ <<<"$(measure cat "$work/in.brep")"
read -r words_wall words_cpu _ <<<"$(LC_ALL=C measure wc -w "$work/in.brep")"

printf '%-22s %12s\n' 'input bytes' "$bytes"
printf '%-22s %12s s wall, %s s of processor\n' 'brep copy' "$copy_wall" "$copy_cpu" 'cat' "$cat_wall" "$cat_cpu" 'wc -w' "$words_wall" "$words_cpu"
awk -v copy="$copy_wall" -v words="$words_wall" -v cat="$cat_wall" -v memory="$copy_memory" -v bytes="$bytes" 'BEGIN {
    printf "%-22s %12.2f\n%-22s %12.2f\n", "copy / wc -w", copy / (words > 0 ? words : 0.01), "copy / cat", copy / (cat > 0 ? cat : 0.01)
    printf "%-22s %12.2f\n", "peak memory / bytes", memory * 1024 / bytes
}'

cylinders_in_one_compound "$cylinders" >"$work/model.brep"
model_bytes=$(stat -c %s "$work/model.brep")
read -r model_wall model_cpu model_memory <<<"$(measure "$here/build/brep" copy "$work/model.brep" "$work/out.brep")"
cmp "$work/model.brep" "$work/out.brep"
read -r words_wall words_cpu _ <<<"$(LC_ALL=C measure wc -w "$work/model.brep")"
echo
printf '%-22s %12s\n' 'model bytes' "$model_bytes"
printf '%-22s %12s s wall, %s s of processor\n' 'brep copy of the model' "$model_wall" "$model_cpu" 'wc -w' "$words_wall" "$words_cpu"
awk -v copy="$model_wall" -v words="$words_wall" -v memory="$model_memory" -v bytes="$model_bytes" 'BEGIN {
    printf "%-22s %12.2f\n", "copy / wc -w", copy / (words > 0 ? words : 0.01)
    printf "%-22s %12.2f\n", "peak memory / bytes", memory * 1024 / bytes
}'

# One mesh of 1,500,000 nodes and as many triangles, on a line as it is written, and one vertex.
awk -v n=1500000 'BEGIN {
    print "CASCADE Topology V1, (c) Matra-Datavision"
    print "Locations 0\nCurve2ds 0\nCurves 0\nPolygon3D 0\nPolygonOnTriangulations 0\nSurfaces 0\nTriangulations 1"
    printf "%d %d 0 0.1", n, n
    for (i = 0; i < n; i++) printf " %d.5 %d.25 -%d", i % 100, i % 97, i % 91
    for (i = 0; i < n; i++) printf " %d %d %d", i % n + 1, (i + 1) % n + 1, (i + 2) % n + 1
    print "\nTShapes 1\nVe\n1e-07\n0 0 0\n0 0\n\n0101101\n*\n+1 0"
}' >"$work/mesh.brep"
plain_words=$(LC_ALL=C wc -w <"$work/in.brep")
mesh_words=$(LC_ALL=C wc -w <"$work/mesh.brep")
mesh_bytes=$(stat -c %s "$work/mesh.brep")
read -r mesh_wall mesh_cpu mesh_memory <<<"$(measure "$here/build/brep" copy "$work/mesh.brep" "$work/out.brep")"
cmp "$work/mesh.brep" "$work/out.brep"

echo
printf '%-22s %12s\n' 'mesh bytes' "$mesh_bytes" 'mesh tokens' "$mesh_words"
printf '%-22s %12s s wall, %s s of processor\n' 'brep copy of the mesh' "$mesh_wall" "$mesh_cpu"
awk -v mesh="$mesh_wall" -v copy="$copy_wall" -v mw="$mesh_words" -v pw="$plain_words" -v mb="$mesh_bytes" -v pb="$bytes" -v memory="$mesh_memory" 'BEGIN {
    printf "%-22s %12.2f\n", "a token / plain copy", (mesh / mw) / (copy / pw)
    printf "%-22s %12.2f\n", "a byte / plain copy", (mesh / mb) / (copy / pb)
    printf "%-22s %12.2f\n", "peak memory / bytes", memory * 1024 / mb
}'

# Every twentieth record goes. The compound is number 1, so the vertices have the numbers from 2 on.
vertices_in_one_compound 199999 >"$work/in.brep"
seq 2 20 199990 | sed 's/^/remove /' | head -10000 >"$work/script.txt"
read -r copy_wall copy_cpu _ <<<"$(measure "$here/build/brep" copy "$work/in.brep" "$work/out.brep")"
read -r rewrite_wall rewrite_cpu _ <<<"$(measure "$here/build/brep" rewrite "$work/in.brep" "$work/script.txt" "$work/out.brep" "$work/history.txt")"
grep -qx 'TShapes 190000' "$work/out.brep"
grep -qx 'removed 10000' "$work/history.txt"

echo
printf '%-22s %12s\n' 'records' 200000 'removes' "$(wc -l <"$work/script.txt")"
printf '%-22s %12s s wall, %s s of processor\n' 'brep copy' "$copy_wall" "$copy_cpu" 'brep rewrite' "$rewrite_wall" "$rewrite_cpu"
awk -v rewrite="$rewrite_wall" -v copy="$copy_wall" 'BEGIN { printf "%-22s %12.2f\n", "rewrite / copy", rewrite / (copy > 0 ? copy : 0.01) }'

echo
"$here/scripts/bench_rewrite.sh"
