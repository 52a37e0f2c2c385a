#!/usr/bin/env bash
# Runs the program on each stored case (rules.tab, if there is one, and stdin) in a folder of its own, and compares what it prints with the
# stored stdout. The stored outputs were worked out from Definition 7 and the plain machine, not by the program.
# usage: tests/convert/run.sh [PROGRAM]
set -euo pipefail
cases=$(cd "$(dirname "$0")" && pwd)
program=$(realpath "${1:-$cases/../../target/bin/convert}")

room=$(mktemp -d)
trap 'rm -rf "$room"' EXIT
passed=0 failed=0

# Runs the program in the folder $1 on the input $2; it has to print what is in the file $3.
check() {
    if (cd "$1" && "$program" <"$2" >"$room/printed") && cmp -s "$room/printed" "$3"; then
        passed=$((passed + 1))
    else
        failed=$((failed + 1))
        echo "convert: $(basename "$1") FAILED: printed and expected differ at:"
        cmp "$room/printed" "$3" || true
    fi
}

for case in "$cases"/*/; do
    name=$(basename "$case")
    mkdir "$room/$name"
    if [ -f "$case/rules.tab" ]; then cp "$case/rules.tab" "$room/$name/"; fi
    check "$room/$name" "$case/stdin" "$case/stdout"
done

# The most output a piece can have: a default that writes `A` eight times, for 40,000 characters. Each takes 3 steps, the end 1.
mkdir "$room/eightfold"
{
    printf '\1\1\0\0\0\0\0\0\2\0\0\0B\0B\0\5\0\0\0\0\0\0\0'
    for _ in 1 2 3 4 5 6 7 8; do printf '\3\0\0\0A\0\0\0'; done
} >"$room/eightfold/rules.tab"
head -c 40000 /dev/zero >"$room/input"
{
    yes 0041 | head -n 320000
    echo 'end 40000 120001'
} >"$room/expected" || true
check "$room/eightfold" "$room/input" "$room/expected"

# Many pieces under one session: `B` writes `X`, the default nothing, for `B`, 999,998 characters and `B`. A `B` takes 2 steps, any other
# character 3, the end 1: 2 + 3 * 999,998 + 2 + 1.
mkdir "$room/million"
printf '\1\1\0\0\0\0\0\0\2\0\0\0B\0B\0\3\0\0\0X\0\0\0\5\0\0\0\0\0\0\0' >"$room/million/rules.tab"
{
    printf B
    head -c 999998 /dev/zero
    printf B
} >"$room/input"
printf '0058\n0058\nend 1000000 2999999\n' >"$room/expected"
check "$room/million" "$room/input" "$room/expected"

echo "convert: $passed cases passed, $failed failed"
[ "$failed" -eq 0 ]
# The stored cases and the two made here: none may be lost.
[ "$passed" -ge 37 ] || { echo "convert: there are fewer than 37 cases" >&2; exit 1; }
