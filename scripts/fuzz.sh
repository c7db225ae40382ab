#!/usr/bin/env bash
# Runs the built program on so many broken files and scripts, drawn from a seed, and checks what it answers. By hand, not in the gate.
# usage: scripts/fuzz.sh SEED N [PROGRAM]
set -u
cd "$(dirname "$0")/.." || exit 2
if [ $# -lt 2 ]; then
    echo 'usage: scripts/fuzz.sh SEED N [PROGRAM]' >&2
    exit 2
fi
if ! command -v python3 >/dev/null; then
    echo 'fuzz: Python is not installed: skipped'
    exit 0
fi
program=${3:-$PWD/crates/brep_cli/out/brep_cli}
[ -x "$program" ] || { echo "fuzz: $program is not there: rt run in crates/brep_cli, or rt ci" >&2; exit 2; }
exec python3 scripts/fuzz "$program" "$1" "$2"
