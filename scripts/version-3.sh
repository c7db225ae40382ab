#!/usr/bin/env bash
# Checks scripts/from-version-3 on small texts: what it changes, what it keeps to the byte, what it refuses. Skipped without Python.
set -u
cd "$(dirname "$0")/.." || exit 2
script=$PWD/scripts/from-version-3
if ! command -v python3 >/dev/null; then
    echo 'version-3: Python is not installed: skipped'
    exit 0
fi
work=$(mktemp -d) || exit 2
trap 'rm -rf "$work"' EXIT
cd "$work" || exit 2
failed=0

fail() {
    printf 'version-3: %s\n' "$1" >&2
    failed=1
}

sections() {
    printf 'Locations 0\nCurve2ds 0\nCurves 0\nPolygon3D 0\nPolygonOnTriangulations 0\nSurfaces 0\n'
}

# after the meshes: a vertex and the root use, as Open CASCADE lays them out, without a byte 10 at the end
shapes() {
    printf '\nTShapes 1\nVe\n1e-07\n0 0 0\n0 0\n\n0101101\n*\n\n+1 0 '
}

# two triangles with parameters and normals, one triangle with neither, one with normals alone
{
    printf 'DBRep_DrawableShape\n\nCASCADE Topology V3, (c) Open Cascade\n'
    sections
    printf 'Triangulations 3\n4 2 1 1 0.5\n0 0 0 1 0 0 1 1 0 0 1 0 0 0 1 0 1 1 0 1 1 2 3 1 3 4 0 0 1 0 0 1 0 0 1 0 0 1 \n'
    printf '3 1 0 0 4.44089209850063e-16\n0 0 0 1 0 0 0 1 0 1 2 3 \n3 1 0 1 0.25\n0 0 0 1 0 0 0 1 0 1 2 3 0 -0 1 0 0 1 0 0 1 \n'
    shapes
} >third
{
    printf 'DBRep_DrawableShape\n\nCASCADE Topology V1, (c) Matra-Datavision\n'
    sections
    printf 'Triangulations 3\n4 2 1 0.5\n0 0 0 1 0 0 1 1 0 0 1 0 0 0 1 0 1 1 0 1 1 2 3 1 3 4 \n'
    printf '3 1 0 4.44089209850063e-16\n0 0 0 1 0 0 0 1 0 1 2 3 \n3 1 0 0.25\n0 0 0 1 0 0 0 1 0 1 2 3 \n'
    shapes
} >want

"$script" third out 2>said || fail 'a text of version 3 is refused'
cmp -s out want || fail 'the version 1 text is not the one that is due'
[ "$(cat said)" = 'from-version-3: third: the normals of 2 meshes were dropped' ] || fail "it says '$(cat said)'"

# runs it on a text that is refused, and asks for this one line and that nothing was written
refused() {
    local message=$1 name=$2
    printf 'before' >kept
    "$script" "$name" kept 2>said && fail "$name is not refused"
    [ "$(cat said)" = "from-version-3: $name: $message" ] || fail "of $name it says '$(cat said)'"
    [ "$(cat kept)" = before ] || fail "$name: something was written"
}

sed 's/V3, (c) Open Cascade/V1, (c) Matra-Datavision/' third >first
refused 'it is version 1, not version 3' first
printf 'no shape at all\n' >other
refused 'it has no version line of a BREP text' other
head -c 200 third >short
refused 'the text ends at 200 where '"a mesh's nodes and triangles are due" short
sed 's/^3 1 0 0 4/3 1 0 2 4/' third >odd
at=$(($(grep -abo '^3 1 0 2 4' odd | cut -d: -f1) + 6))
refused "'2' at $at where the flag of normals is due" odd
refused 'No such file or directory' missing
[ "$(ls | grep -c '^kept')" -eq 1 ] || fail 'a new file is left beside the output'
if "$script" third 2>/dev/null; then fail 'one name is taken for two'; fi

exit "$failed"
