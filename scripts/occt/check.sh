#!/usr/bin/env bash
# Writes a filleted, meshed and placed model with Open CASCADE in both versions, copies it with ./brep, and has Open CASCADE read both
# again. Skipped where Open CASCADE's development packages or the program aren't there.
#
# Debian and Ubuntu: apt-get install libocct-modeling-algorithms-dev libocct-visualization-dev g++
set -euo pipefail
cd "$(dirname "$0")/../.."

inc=$(dpkg -L libocct-foundation-dev 2>/dev/null | grep '/Standard_Version.hxx$' || true)
if [ -z "$inc" ] || ! command -v g++ >/dev/null; then
    echo 'occt: Open CASCADE is not installed: skipped'
    exit 0
fi
work=$(mktemp -d)
trap 'rm -rf "$work"' EXIT

g++ -O1 -std=c++17 -Wno-deprecated-declarations -I"$(dirname "$inc")" -o "$work/model" scripts/occt/model.cpp \
    -lTKFillet -lTKMesh -lTKBool -lTKBO -lTKPrim -lTKTopAlgo -lTKGeomAlgo -lTKBRep -lTKGeomBase -lTKG3d -lTKG2d -lTKMath -lTKernel
printf 'remove 1\n' >"$work/script"
for version in 1 2; do
    "$work/model" make "$work/model.brep" "$version"
    ./brep copy "$work/model.brep" "$work/copy.brep"
    "$work/model" same "$work/model.brep" "$work/copy.brep"
    ./brep copy "$work/copy.brep" "$work/again.brep"
    cmp "$work/copy.brep" "$work/again.brep"
    ./brep rewrite "$work/model.brep" "$work/script" "$work/emptied.brep" "$work/history"
    if "$work/model" same "$work/model.brep" "$work/emptied.brep" 2>/dev/null; then
        echo 'occt: a shape without its root is taken for the whole' >&2
        exit 1
    fi
    echo "occt: version $version: $(wc -c <"$work/model.brep") bytes, the copy holds the same shape and is its own copy"
done

# of version 3: turned into version 1, it is the text that Open CASCADE itself writes in version 1, and it is copied
if command -v python3 >/dev/null; then
    "$work/model" make "$work/third.brep" 3
    "$work/model" make "$work/first.brep" 1
    scripts/from-version-3 "$work/third.brep" "$work/turned.brep"
    cmp "$work/first.brep" "$work/turned.brep"
    ./brep copy "$work/turned.brep" "$work/copy.brep"
    "$work/model" same "$work/turned.brep" "$work/copy.brep"
    echo "occt: version 3: $(wc -c <"$work/third.brep") bytes, turned into the version 1 text that Open CASCADE writes"
fi
