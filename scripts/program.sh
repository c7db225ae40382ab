#!/usr/bin/env bash
# Runs the built program on real files: what it writes, its statuses and messages, and that a refusal writes nothing.
# usage: program.sh PROGRAM
set -u
program=$1
work=$(mktemp -d) || exit 2
trap 'rm -rf "$work"' EXIT
cd "$work" || exit 2
failed=0

fail() {
    printf 'program: %s\n' "$1" >&2
    failed=1
}

# runs the program with the words after the first two, and compares its status and the beginning of its message with these
expect() {
    local status=$1 message=$2
    shift 2
    "$program" "$@" >stdout 2>stderr </dev/null
    local got=$?
    [ "$got" -eq "$status" ] || fail "$*: status $got, not $status"
    [ "$(head -c ${#message} stderr)" = "$message" ] || fail "$*: message '$(head -c 200 stderr)', not '$message'"
    [ ! -s stdout ] || fail "$*: something on standard output"
}

# that these files don't exist
absent() {
    local name
    for name; do
        [ ! -e "$name" ] || fail "$name was written"
    done
}

same() {
    cmp -s "$1" "$2" || fail "$1 and $2 differ"
}

head_of() {
    printf 'CASCADE Topology V1, (c) Matra-Datavision\nLocations 0\nCurve2ds 0\nCurves 0\nPolygon3D 0\nPolygonOnTriangulations 0\nSurfaces 0\nTriangulations 0\nTShapes %s\n' "$1"
}

# a compound that uses a vertex twice; the compound without it; what is told of that
{ head_of 2; printf 'Ve\n1e-07\n0 0 0\n0 0\n\n0101101\n*\nCo\n\n0011000\n+2 0 -2 0 *\n+1 0\n'; } >in.brep
{ head_of 1; printf 'Co\n\n0101000\n*\n+1 0\n'; } >want.brep
printf 'BREP-HISTORY 1\nrecords 1\n1 1\nmodified 0\ngenerated 0\nremoved 1\n2\nend\n' >want.txt
printf 'remove 2\n' >script.txt

expect 0 '' copy in.brep out.brep
same in.brep out.brep
rm -f out.brep

expect 0 '' rewrite in.brep script.txt out.brep history.txt
same out.brep want.brep
same history.txt want.txt
rm -f out.brep history.txt

expect 0 '' list in.brep Ve:Co out.txt
printf '2\n  1\n' | cmp -s - out.txt || fail 'list wrote something else'
expect 0 '' walk in.brep All 2 out.txt
printf '+1\n+2\n' | cmp -s - out.txt || fail 'walk wrote something else'
rm -f out.txt
expect 2 'usage: ' list in.brep Fa:Ve out.txt
expect 10 'not built' gen 7 0 out.txt
absent out.txt

expect 2 'usage: ' copy in.brep
expect 2 'usage: ' copy in.brep in.brep
printf 'CASCADE Topology V3, (c) Open Cascade\n' >third.brep
expect 3 'file version-not-read at 0 ' copy third.brep out.brep
head -c 150 in.brep >short.brep
expect 3 'file truncated at 150 ' copy short.brep out.brep
printf 'remove 3\n' >beyond.txt
expect 4 'script line 1 no-such-shape 3 2' rewrite in.brep beyond.txt out.brep history.txt
expect 7 'read fault 0 1' copy missing.brep out.brep
expect 7 'read fault 0 1' rewrite in.brep missing.txt out.brep history.txt
absent out.brep history.txt

# a device that is always full
if [ -c /dev/full ]; then
    expect 8 'write fault 0 1 file 1 taken 0' copy in.brep /dev/full
    expect 8 'write fault 0 1 file 2 taken 0' rewrite in.brep script.txt out.brep /dev/full
    same out.brep want.brep
fi

exit "$failed"
