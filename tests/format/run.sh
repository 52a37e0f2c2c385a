#!/usr/bin/env bash
# Runs the examples of docs/FORMAT.md: fenced blocks marked `example`. A block has a table in hexadecimal bytes, what stands behind eight of
# them on a line being a comment, and then any number of
#   input TEXT, prints, lines        the program prints these lines
#   words, lines PLACE WORD          these words of the compiled table are not 0, and no others
#   rules, lines NUMBER live|dead    so is each rule of the table, and the number behind the last
#   feeds TEXT, answers N, bytes     a feed to a fresh session, and a preview of it, answers so and leaves these bytes, eight a line; then each
#                                    count of uses that is not 0, behind the place of its bytes and a colon
#   units UNITS, answers N, writes UNITS, bytes
#                                    the same of a piece in hexadecimal, with what the feed writes
#   second, bytes                    the second table of a chain, and then any number of
#   chain PIECES, lines MIDDLE OUTPUT N STATUS "TEXT" "TEXT"
#                                    feeds of these pieces to two fresh sessions, and a finish, each with the least buffers, which are so long,
#                                    answer so, with this status of the first, and write these texts; or N alone for a refusal
# or, without a table, any number of
#   text, lines, records, bytes      these lines, typed, have these records
#   text, lines, refused N           these lines, typed, are refused so
# usage: tests/format/run.sh [PROGRAM]
set -euo pipefail
trap 'echo "format: line $LINENO of $0 failed" >&2' ERR
cd "$(dirname "$0")/../.."

program=$(realpath "${1:-target/bin/convert}")
page=docs/FORMAT.md
out=target/format
rm -rf "$out"
mkdir -p "$out"
cc -std=c11 -Wall -Wextra -Werror -O2 -Iinclude -o "$out/show" tests/format/show.c target/staticlib/libcobbletwill.a

# Each block becomes a folder: the bytes of its tables, and for each thing that it expects a file with the command's words, and one with the lines.
awk -v out="$out" '
    function open_file(name) { if (file != "") close(file); file = name; printf "" > file }
    /^```example$/ { block = sprintf("%s/%02d", out, ++blocks); system("mkdir " block); count = 0; part = ""; next }
    /^```/ { block = ""; next }
    block == "" { next }
    $1 == "text" {
        command = block "/" ++count ".command"
        print "text\n" > command
        close(command)
        open_file(block "/" count ".text")
        part = $1
        next
    }
    part == "text" && $1 == "records" { open_file(block "/" count ".lines"); part = $1; next }
    part == "text" && $1 == "refused" { open_file(block "/" count ".lines") }
    part == "text" { print > file; next }
    $1 == "table" || $1 == "second" { part = $1; open_file(block ($1 == "table" ? "/rules.hex" : "/second.hex")); next }
    $1 == "input" || $1 == "feeds" || $1 == "units" || $1 == "words" || $1 == "rules" || $1 == "chain" {
        command = block "/" ++count ".command"
        text = $0
        sub(/^[a-z]+ ?/, "", text)
        printf "%s\n%s\n", ($1 == "feeds" ? "session" : $1), text > command
        close(command)
        open_file(block "/" count ".lines")
        part = $1
        next
    }
    $1 == "prints" { next }
    $1 == "answers" { print $2 > file; next }
    $1 == "writes" {
        line = $1
        for (i = 2; i <= NF && $i ~ /^[0-9A-F][0-9A-F][0-9A-F][0-9A-F]$/; i++) line = line " " $i
        print line > file
        next
    }
    part == "input" { print > file; next }
    part == "words" || part == "rules" { print $1, $2 > file; next }
    part == "chain" { print (NF == 1 ? $1 : $1 " " $2 " " $3 " " $4 " " $5 " " $6) > file; next }
    {
        line = $1
        last = $1 ~ /:$/ ? 9 : 8
        for (i = 2; i <= NF && i <= last && $i ~ /^[0-9A-F][0-9A-F]$/; i++) line = line " " $i
        print line > file
    }
' "$page"

examples=0 kinds=
for block in "$out"/[0-9]*/; do
    for hex in "$block"/*.hex; do
        if [ -e "$hex" ]; then printf '%b' "$(sed 's/\(..\) */\\x\1/g' "$hex" | tr -d '\n')" > "${hex%.hex}.tab"; fi
    done
    for command in "$block"/*.command; do
        { read -r kind; IFS= read -r text; } < "$command"
        found=${command%.command}.found
        case $kind in
            # From a file: the program doesn't read it where it refuses the table, and a pipe would then break.
            input)
                printf %s "$text" > "$block/input"
                (cd "$block" && "$program" < input) > "$found"
                ;;
            words | rules) "$out/show" "$kind" "$block/rules.tab" > "$found" ;;
            session | units) "$out/show" "$kind" "$block/rules.tab" "$text" > "$found" ;;
            chain) "$out/show" chain "$block/rules.tab" "$text" "$block/second.tab" > "$found" ;;
            text) "$out/show" text "${command%.command}.text" > "$found" ;;
        esac
        diff "${command%.command}.lines" "$found" || { echo "format: example $(basename "$block") of $page, $kind $text: expected and found differ" >&2; exit 1; }
        [ -s "$found" ] || { echo "format: example $(basename "$block") of $page, $kind $text: nothing is expected" >&2; exit 1; }
        examples=$((examples + 1)) kinds="$kinds $kind"
    done
done

# Every marked block was run, every kind of example was met, and there are as many as ever.
[ "$(grep -c '^```example$' "$page")" = "$(find "$out" -name 1.lines | wc -l)" ] || { echo "format: a block of $page expects nothing" >&2; exit 1; }
[ "$(tr ' ' '\n' <<< "$kinds" | sort -u | xargs)" = "chain input rules session text units words" ] || { echo "format: only the examples$kinds are met" >&2; exit 1; }
[ "$examples" -ge 63 ] || { echo "format: only $examples examples are met" >&2; exit 1; }
echo "format: $examples examples of $page as stated"
