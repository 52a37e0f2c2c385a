#!/usr/bin/env bash
# Proves and builds the library of an earlier commit for the benchmark: compare/before.sh COMMIT
# It is written to target/before/libcobbletwill.a. The commit has to have the crate cobbletwill_c: those before it are in a form that the kit does
# not read. Its sources stand in a folder for temporary files, since rt wants no other crates below the repository.
set -euo pipefail
cd "$(dirname "$0")/.."

commit=$1
if ! git cat-file -e "$commit:crates/cobbletwill_c/src/lib.rt" 2> /dev/null; then
    echo "before: $commit has no crate cobbletwill_c, so the kit does not build its library" >&2
    exit 1
fi
room=$(mktemp -d)
trap 'rm -rf "$room"' EXIT
git archive "$commit" crates crates.txt | tar -x -C "$room"
if ! (cd "$room/crates/cobbletwill_c" && rt lib < /dev/null) > "$room/said" 2>&1; then
    cat "$room/said" >&2
    exit 1
fi
install -D -m 644 "$room/crates/cobbletwill_c/out/libcobbletwill_c.a" target/before/libcobbletwill.a
