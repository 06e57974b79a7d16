#!/usr/bin/env bash
# Makes web/lexical.wasm of the proved crate lx_live, and web/lexical.wasm.json, which says what it was made of.
#
#     web/build.sh            makes both; what they are made of has to be committed
#     web/build.sh --check    makes the module anew, and compares it with the one that is kept, byte for byte
#
# It takes the Rattle kit, with rt on the path, and wasm-opt (Debian's package binaryen). rt ci proves lx_live and the
# crates below it first, in a copy: in a minute where it has passed on this machine, else in up to an hour.
set -euo pipefail
top=$(cd "$(dirname "$(readlink -f "${BASH_SOURCE[0]}")")/.." && pwd)
crate=lx_live
made_by=(web/build.sh tools/copy-crates web/build/module.py web/build/retarget.py web/build/heap.c web/build/exports.c)

# Runs a command whose words are shown only where it fails.
quietly() {
    "$@" > "$work/log" 2>&1 && return
    tail -n 40 "$work/log" >&2
    echo "build.sh: $* failed" >&2
    return 1
}

sum_of() { sha256sum "$1" | cut -c1-64; }

# Of the code alone, since proofs leave no trace in the module.
sum_of_crate() { (cd "$top/crates/$1" && find src -type f | LC_ALL=C sort | xargs sha256sum | sha256sum | cut -c1-64); }

# Lines `"NAME": "SUM"` of an object in JSON, for each name the sum that the call gives.
members() {
    local call=$1 comma='' name
    shift
    for name; do
        printf '%s\n    "%s": "%s"' "$comma" "$name" "$("$call" "$name")"
        comma=,
    done
}

tell_origin() {
    cd "$top"
    printf '{\n  "commit": "%s",\n  "kit": "%s",\n  "binaryen": "%s",\n' \
        "$(git rev-parse HEAD)" "$(rt version)" "$(wasm-opt --version)"
    printf '  "crates": {%s\n  },\n' "$(members sum_of_crate $(cut -d: -f1 "$work/copy/crates.txt" | cut -d' ' -f1))"
    printf '  "made by": {%s\n  },\n' "$(members sum_of "${made_by[@]}")"
    printf '  "LLVM module": "%s",\n' "$(sum_of "$work/module.bc")"
    printf '  "lexical.wasm": "%s"\n}\n' "$(sum_of "$work/lexical.wasm")"
}

for tool in rt wasm-opt git python3; do
    command -v "$tool" > /dev/null || { echo "build.sh: $tool is not on the path" >&2; exit 1; }
done
if [ "${1:-}" != --check ] && [ -n "$(cd "$top" && git status --porcelain -- crates crates.txt "${made_by[@]}")" ]; then
    echo 'build.sh: commit crates/ and web/build first: the module is told to be of a commit' >&2
    exit 1
fi
work=$(mktemp -d)
trap 'rm -rf "$work"' EXIT
"$top/tools/copy-crates" "$crate" "$work/copy"
kit=$(dirname "$(rt doc)")
(cd "$work/copy" && quietly rt ci)
quietly python3 "$top/web/build/module.py" "$kit" "$work/copy/crates/$crate" "$work/module.bc"
quietly python3 "$top/web/build/retarget.py" "$kit" "$work/module.bc" "$work/lexical.wasm"
if [ "${1:-}" = --check ]; then
    cmp "$work/lexical.wasm" "$top/web/lexical.wasm"
    echo 'build.sh: the same bytes'
    exit
fi
tell_origin > "$work/origin"
cp "$work/origin" "$top/web/lexical.wasm.json"
cp "$work/lexical.wasm" "$top/web/lexical.wasm"
echo "build.sh: $(stat -c %s "$top/web/lexical.wasm") bytes"
