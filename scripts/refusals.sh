#!/usr/bin/env bash
# Runs the built program on worked examples with each growth of memory refused in turn: each run answers what it answers with ample memory, or `no memory` with
# nothing written; where the refused growth is the desk's own, for a file that it opens, a fault of reading. By hand, not in the gate; skipped without a C compiler. usage: scripts/refusals.sh [PROGRAM]
set -u
cd "$(dirname "$0")/.." || exit 2
program=${1:-$PWD/crates/brep_cli/out/brep_cli}
[ -x "$program" ] || { echo "refusals: $program is not there: rt run in crates/brep_cli, or rt ci" >&2; exit 2; }
if ! command -v cc >/dev/null; then
    echo 'refusals: no C compiler is installed: skipped'
    exit 0
fi
here=$PWD
work=$(mktemp -d) || exit 2
trap 'rm -rf "$work"' EXIT
cc -O1 -shared -fPIC -o "$work/refuse.so" scripts/refuse.c -ldl || exit 2
cd "$work" || exit 2
failed=0

fail() {
    printf 'refusals: %s\n' "$1" >&2
    failed=1
}

head_of() {
    printf 'CASCADE Topology V1, (c) Matra-Datavision\nLocations 0\nCurve2ds 0\nCurves 0\nPolygon3D 0\nPolygonOnTriangulations 0\nSurfaces 0\nTriangulations 0\nTShapes %s\n' "$1"
}

vertex() {
    printf 'Ve\n1e-07\n%s 0 0\n0 0\n\n0101101\n*\n' "$1"
}

edge() {
    printf 'Ed\n1e-07 1 1 0\n0\n\n0101000\n%s *\n' "$1"
}

over() {
    printf '%s\n\n%s\n%s *\n' "$1" "$2" "$3"
}

# a compound that uses a vertex twice; two wires over three edges; two edges with vertices to merge; the cylinder
{ head_of 2; vertex 0; over Co 0011000 '+2 0 -2 0'; echo '+1 0'; } >twice.brep
{
    head_of 9
    vertex 0; vertex 1; vertex 2
    edge '+9 0 -8 0'; edge '+9 0 -7 0'; edge '+7 0 -8 0'
    over Wi 0101100 '+6 0'; over Wi 0101100 '+5 0 +4 0'; over Co 0011000 '+3 0'
    echo '+1 0'
} >wires.brep
{
    head_of 7
    vertex 0; vertex 1; vertex 1; vertex 0
    edge '+7 0 -6 0'; edge '+5 0 -4 0'
    over Co 0011000 '+3 0 +2 0'
    echo '+1 0'
} >edges.brep
cp "$here/docs/cylinder.brep" cylinder.brep
: >nothing
printf 'remove 2\n' >remove_2
printf 'remove 5\n' >remove_5
printf 'replace 6 by 2\n' >replace
printf 'merge 6 5\nmerge 7 4\napply\nsew 3 -2\n' >sew

# runs the program with the growth with this number refused (0: none), over new outputs; its status, and its message in `said`
refusing() {
    local number=$1
    shift
    rm -f out history
    REFUSE=$number REFUSE_COUNT=$work/count LD_PRELOAD=$work/refuse.so "$program" "$@" >printed 2>said </dev/null
}

runs=0
desk=0
each_refused() {
    refusing 0 "$@"
    local due=$? all number status
    all=$(cat count)
    cp said due_said
    for name in out history; do rm -f "due_$name"; [ ! -e "$name" ] || cp "$name" "due_$name"; done
    for ((number = 1; number <= all; number++)); do
        refusing "$number" "$@"
        status=$?
        runs=$((runs + 1))
        if [ "$status" -eq 9 ]; then
            { [ ! -e out ] && [ ! -e history ]; } || fail "$*, growth $number refused: something is written"
            { [ ! -s said ] || [ "$(cat said)" = 'no memory' ]; } || fail "$*, growth $number refused: $(head -c 200 said)"
        elif [ "$status" -eq 7 ]; then
            # (the desk takes memory too, for the files that it opens; that it finds none is a fault of the desk)
            { [ ! -e out ] && [ ! -e history ] && [ "$(cat said)" = 'read fault 0 1' ]; } || fail "$*, growth $number refused: $(head -c 200 said)"
            desk=$((desk + 1))
        elif [ "$status" -ne "$due" ]; then
            fail "$*, growth $number refused: status $status, not $due"
        else
            for name in out history; do
                if [ -e "due_$name" ]; then cmp -s "$name" "due_$name" || fail "$*, growth $number refused: $name is something else"; fi
            done
            { [ ! -s said ] || cmp -s said due_said; } || fail "$*, growth $number refused: $(head -c 200 said)"
        fi
    done
    printf 'refusals: %s: status %s, %s growths\n' "$*" "$due" "$all"
    [ "$all" -gt 0 ] || fail "$*: no growth was seen"
}

for file in twice wires edges cylinder; do
    each_refused copy $file.brep out
    each_refused list $file.brep Ve:Ed out
    each_refused walk $file.brep All 9 out
done
each_refused rewrite twice.brep nothing out history
each_refused rewrite twice.brep remove_2 out history
each_refused rewrite wires.brep replace out history
each_refused rewrite edges.brep sew out history
each_refused rewrite cylinder.brep remove_5 out history
[ "$failed" -eq 0 ] && echo "refusals: $runs runs, each as it is due; $desk of them with a growth of the desk refused"
exit "$failed"
