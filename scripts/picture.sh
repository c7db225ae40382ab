#!/usr/bin/env bash
# Checks scripts/picture on the worked example: what it draws, and what it refuses. Skipped without Python; Graphviz reads it where it is there.
set -u
cd "$(dirname "$0")/.." || exit 2
script=$PWD/scripts/picture
if ! command -v python3 >/dev/null; then
    echo 'picture: Python is not installed: skipped'
    exit 0
fi
work=$(mktemp -d) || exit 2
trap 'rm -rf "$work"' EXIT
cd "$work" || exit 2
failed=0

fail() {
    printf 'picture: %s\n' "$1" >&2
    failed=1
}

head_of() {
    printf 'CASCADE Topology V%s\nLocations 0\nCurve2ds 0\nCurves 0\nPolygon3D 0\nPolygonOnTriangulations 0\nSurfaces 0\nTriangulations 0\nTShapes %s\n' "$1" "$2"
}

# that the last graph has these lines
has() {
    local line
    for line; do
        grep -qF -- "$line" graph || fail "the graph lacks '$line'"
    done
}

# that Graphviz reads it
is_read() {
    if command -v dot >/dev/null; then
        dot -Tsvg graph >drawing 2>said || fail "Graphviz refuses it: $(head -1 said)"
        [ ! -s said ] || fail "Graphviz warns: $(head -1 said)"
    fi
}

# a compound that uses a vertex twice, once reversed; the compound without it; what is told of that
{ head_of '1, (c) Matra-Datavision' 2; printf 'Ve\n1e-07\n0 0 0\n0 0\n\n0101101\n*\nCo\n\n0011000\n+2 0 -2 3 *\n+1 0\n'; } >in.brep
{ head_of '1, (c) Matra-Datavision' 1; printf 'Co\n\n0101000\n*\n+1 0\n'; } >out.brep
printf 'BREP-HISTORY 1\nrecords 1\n1 1\nmodified 0\ngenerated 0\nremoved 1\n2\nend\n' >history

"$script" in.brep >graph || fail 'in.brep is refused'
has 'new1 [label="1\ncompound"' 'new2 [label="2\nvertex"' 'new1 -> new2 [label=" +  -@3 "]' 'newroot -> new1 [label=" + "]'
is_read
"$script" out.brep history in.brep >graph || fail 'the rewrite is refused'
has 'old2 [label="2\nvertex", fillcolor="#e57373"]' 'old1 [label="1\ncompound", fillcolor="#eef1f5"]' 'new1 [label="1\ncompound", fillcolor="#eef1f5"]'
grep -q 'new2\|dashed' graph && fail 'the rewrite has what was removed, or a pair'
is_read

# an edge over two vertices, with each representation, in both versions; the same records stand in both graphs
edge() {
    printf 'Ed\n 1e-07 1 1 0\n1  1 0 0 1\n2  1 1 0 0 1\n%s3  1 2CN 1 0 0 1\n%s4  C0 1 0 2 0\n5 1 0\n6 1 1 0\n7 1 2 1 0\n0\n\n0101000\n+3 0 -2 0 *\n' "$1" "$2"
}
vertices() {
    printf 'Ve\n1e-07\n1 0 0\n0.5 1 1 0\n0.5 2 1 1 0\n0.5 3 0.5 1 0\n0 0\n\n1000000\n*\nVe\n1e-07\n0 1000000 0\n0 0\n\n0101101\n*\n'
}
{ head_of '1, (c) Matra-Datavision' 3; vertices; edge '' ''; printf '\n+1 0 '; } >first.brep
{ head_of '2, (c) Matra-Datavision' 3; vertices; edge '0 0 1 1
' '0 0 1 1
'; printf '\n+1 0 '; } >second.brep
"$script" first.brep >one || fail 'first.brep is refused'
"$script" second.brep >graph || fail 'second.brep is refused'
cmp -s one graph || fail 'the two versions differ'
has 'new1 -> new3 [label=" + "]' 'new1 -> new2 [label=" - "]'
"$script" first.brep --from 2 >graph || fail 'record 2 is refused'
grep -q 'new1\|new3' graph && fail 'more than record 2 is drawn'
"$script" first.brep --depth 1 >graph || fail 'depth 1 is refused'
has 'new1 [label="1\nedge\n…"'
grep -q 'new2' graph && fail 'more than one level is drawn'

# runs it with these words, which it refuses with this line
refused() {
    local message=$1
    shift
    "$script" "$@" >graph 2>said && fail "$* is not refused"
    [ "$(cat said)" = "picture: $message" ] || fail "of $* it says '$(cat said)'"
    [ ! -s graph ] || fail "$*: something is drawn"
}

refused 'usage: picture IN [HIST OLD] [--from RECORD] [--depth LEVELS]' in.brep history
refused 'missing: No such file or directory' missing
head_of '3, (c) Open Cascade' 0 >third
refused 'third: it is no BREP text of version 1 or 2' third
head -c 180 in.brep >short
refused 'short: it ends too early' short
refused 'out.brep: it is no history text' out.brep out.brep in.brep
refused 'it has no record 3' in.brep --from 3
refused '--depth takes a number from 1 on' in.brep --depth 0

exit "$failed"
