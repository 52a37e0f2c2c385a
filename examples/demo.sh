#!/usr/bin/env bash
# Converts the samples of two tables by the station in C; prints input, output, the steps beside their bound, and how often each rule was used.
# The library is the one that was proved from these sources; where it is not, it is proved first.
set -euo pipefail
cd "$(dirname "$0")/.."

out=target/demo
mkdir -p "$out"
library=target/staticlib/libcobbletwill.a
bash .ci/proved . "$library" || bash .ci/build
cc -std=c11 -O2 -Iinclude -o "$out/station" examples/c/station.c "$library"

for name in html-decimal sdi12; do
    folder=tables/$name
    echo "$folder, whose rules stand in rules.txt"
    echo "-- input (a carriage return is shown as ^M)"
    cat -v "$folder/input.txt"
    echo
    echo "-- output"
    "$out/station" "$folder/rules.tab" < "$folder/input.txt" 2> "$out/counts"
    echo
    echo "-- counts; L is the longest pattern, n the length of the input, the bound (L + 3) * n + 1; then each rule's uses"
    cat "$out/counts"
    echo
done
bash .ci/proved . "$library"
echo "The library was proved from these sources, as \`make build\` does."
