#!/usr/bin/env bash
# Checks of the repository's own, beside the proofs. A check whose tool or file is missing is skipped.
cd "$(dirname "$0")/.." || exit 2
failed=0

fail() {
    printf 'checks: %s\n' "$1" >&2
    failed=1
}

skip() {
    printf 'checks: skipped: %s\n' "$1" >&2
}

# The file HANDLES is one line that never changes.
[ "$(cat HANDLES 2>/dev/null)" = 'Handles allowed: none.' ] || fail 'HANDLES is not its one line'

# Each crate of crates.txt has a folder, and each crate's folder stands in crates.txt.
while IFS=: read -r name _; do
    name=${name%% *}
    case "$name" in ''|'#'*) continue ;; esac
    [ -d "crates/$name" ] || fail "crates/$name is listed and missing"
done <crates.txt
for folder in crates/*/; do
    name=$(basename "$folder")
    grep -q "^$name\( [^:]*\)\?:" crates.txt || fail "crates/$name is not listed in crates.txt"
done

# The program that makes version 1 of version 3.
bash scripts/version-3.sh || fail 'from-version-3 went wrong'

# The program that draws a file's records.
bash scripts/picture.sh || fail 'picture went wrong'

# The manual page is the one that its sources give, and reads without warnings.
if command -v python3 >/dev/null; then
    python3 scripts/manual | cmp -s - docs/brep.1 || fail 'docs/brep.1 is not what scripts/manual writes'
else
    skip 'the manual page against its sources: no python3'
fi
if command -v man >/dev/null; then
    [ -z "$(man --warnings -E UTF-8 -l -Tutf8 docs/brep.1 2>&1 >/dev/null)" ] || fail 'docs/brep.1 has warnings'
else
    skip 'warnings of the manual page: no man'
fi

# The program that the gate built, on real files, and as it is handed out.
program=$PWD/crates/brep_cli/out/brep_cli
if [ -x "$program" ]; then
    bash scripts/program.sh "$program" || fail 'the built program went wrong'
    if command -v python3 >/dev/null; then
        python3 scripts/recipes "$program" || fail 'a recipe went wrong'
    else
        skip 'the recipes: no python3'
    fi
    archive=$(mktemp -d)
    bash scripts/release "$archive" >"$archive/said" || fail 'the archive went wrong'
    rm -rf "$archive"
else
    skip 'the built program, the recipes and the archive: the program is not built'
fi

exit "$failed"
