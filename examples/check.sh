#!/usr/bin/env bash
# The two stations, in C and in Rust, against every table's expected text, and where they stop or are refused; the two chains on their sample;
# and what `make demo` shows.
set -euo pipefail
cd "$(dirname "$0")/.."

out=target/examples
mkdir -p "$out"
make --no-print-directory "$out/station" "$out/chain"
for package in rust tools; do
    cargo build --release --offline --locked --quiet --manifest-path "$package/Cargo.toml" --target-dir target/cargo --bins --examples
done

# expect NAME CODE TABLE INPUT TEXT COUNTS: both stations end so, with this output and these lines on standard error.
expect() {
    for station in "$out/station" target/cargo/release/examples/station; do
        code=0
        "$station" "$3" < "$4" > "$out/text" 2> "$out/counts" || code=$?
        [ "$code" = "$2" ] || { echo "$1: $station ends with $code, not $2" >&2; exit 1; }
        cmp "$out/text" "$5"
        grep -qF -- "$6" "$out/counts" || { echo "$1: $station does not say: $6" >&2; exit 1; }
    done
}

# expect_uses NAME TABLE INPUT: both stations end standard error with the lines that stand on standard input.
expect_uses() {
    cat > "$out/uses"
    for station in "$out/station" target/cargo/release/examples/station; do
        "$station" "$2" < "$3" > "$out/text" 2> "$out/counts" || [ $? = 2 ]
        tail -n +3 "$out/counts" | diff "$out/uses" - || { echo "$1: $station counts other uses" >&2; exit 1; }
    done
}

# expect_chain NAME CODE FIRST SECOND INPUT TEXT: both chains end so, with this output and with the lines on standard error that stand on
# standard input.
expect_chain() {
    cat > "$out/ends"
    for chain in "$out/chain" target/cargo/release/examples/chain; do
        code=0
        "$chain" "$3" "$4" < "$5" > "$out/text" 2> "$out/counts" || code=$?
        [ "$code" = "$2" ] || { echo "$1: $chain ends with $code, not $2" >&2; exit 1; }
        cmp "$out/text" "$6"
        sed 's/^chain: //' "$out/counts" | diff "$out/ends" - || { echo "$1: $chain says something else" >&2; exit 1; }
    done
}

# Beside comments and empty lines each line of a source is a rule or the default, and has a row of the uses. The stations read a character a
# byte, and have no use for a table whose sample is in UTF-16: tools/tests/tables.rs runs it.
tables=0
for folder in tables/*/; do
    if [ -s "$folder/input.utf16" ]; then continue; fi
    { [ -s "$folder/input.txt" ] && [ -s "$folder/expected.txt" ]; } || { echo "$folder: no input or no text" >&2; exit 1; }
    expect "$folder" 0 "$folder/rules.tab" "$folder/input.txt" "$folder/expected.txt" 'closed: '
    rows=0
    while IFS=: read -r line rule; do
        row=$(printf ' %5d  %s' "$line" "$rule")
        expect "$folder" 0 "$folder/rules.tab" "$folder/input.txt" "$folder/expected.txt" "$row"
        rows=$((rows + 1))
    done < <(grep -nv -e '^#' -e '^$' "$folder/rules.txt")
    { [ "$rows" -gt 0 ] && [ "$(tail -n +4 "$out/counts" | wc -l)" = "$rows" ]; } || { echo "$folder: the uses are not those of $rows rules" >&2; exit 1; }
    tables=$((tables + 1))
done
[ "$tables" -ge 7 ] || { echo "only $tables tables are found" >&2; exit 1; }

# Document 01: T2 on `ab` writes Y, stopped at 1, 4 steps.
printf '"a$" ==> [88]; "a" ==> [89];' > "$out/t2.txt"
target/cargo/release/build_table "$out/t2.txt" "$out/t2.tab" > "$out/counts"
printf 'ab' > "$out/input"
printf 'Y' > "$out/expected"
expect T2 2 "$out/t2.tab" "$out/input" "$out/expected" 'stopped: 2 characters fed, 1 consumed, 1 produced'
expect T2 2 "$out/t2.tab" "$out/input" "$out/expected" '4 steps, at most (1 + 3) * 2 + 1 = 9'

# Rule 1 has the `a`, and the `b` stops it. Both rules stand in the source's one line.
expect_uses T2 "$out/t2.tab" "$out/input" << 'END'
   rule          uses  line
      0             0     1  "a$" ==> [88];
      1             1     1  "a" ==> [89];
END

# Without a source, or with one of other rules, no lines are known.
cp "$out/t2.tab" "$out/other.tab"
for source in '' '"a" ==> [88];' '"a" ==> [88]; "b" ==> []; "c" ==> [];' '"a$" ==> [88]; else ==> [89];'; do
    rm -f "$out/other.txt"
    if [ -n "$source" ]; then printf %s "$source" > "$out/other.txt"; fi
    expect_uses other "$out/other.tab" "$out/input" << 'END'
   rule          uses
      0             0
      1             1
END
done

# Semicolons and quotes in quotes, a comment, a rule over two lines.
printf '# "x" ==> [];\n"\\";" ==>\n  [65]; "[;\\\\]\\\\" ==> [66];\nelse ==> [x0];\n' > "$out/quotes.txt"
target/cargo/release/build_table "$out/quotes.txt" "$out/quotes.tab" > "$out/counts"
printf '";;\\c";' > "$out/quoted"
expect_uses quotes "$out/quotes.tab" "$out/quoted" << 'END'
   rule          uses  line
      0             2     2  "\";" ==>
      1             1     3  "[;\\]\\" ==> [66];
default             1     4  else ==> [x0];
END

# A marked default has its line too.
printf '"a" ==> [65];\nelse keep pairs ==> [63];\n' > "$out/marked.txt"
target/cargo/release/build_table "$out/marked.txt" "$out/marked.tab" > "$out/counts"
expect_uses marked "$out/marked.tab" "$out/input" << 'END'
   rule          uses  line
      0             1     1  "a" ==> [65];
default             1     2  else keep pairs ==> [63];
END

# The sample's references of two digits are `&#60;`, `&#38;`, `&#62;`, `&#38;` and `&#66;`. Beside them, `&#00;` and the last `&#` the first
# line has 31 characters and the second 21, line ends included.
expect_uses html-decimal tables/html-decimal/rules.tab tables/html-decimal/input.txt << 'END'
   rule          uses  line
      0             1     4  "&#00;" ==> [38, 35, 48, 48, 59];
      1             5     7  "&#[0-9][0-9];" ==> [10 * x2 + x3 - 528];
      2             1    10  "&#$" ==> [38, 35];
default            52    12  else ==> [x0];
END

# A table without rules, and an output character that is no byte.
: > "$out/empty"
expect empty 1 "$out/empty" "$out/input" "$out/empty" 'refused 5'
printf '"a" ==> [256];' > "$out/high.txt"
target/cargo/release/build_table "$out/high.txt" "$out/high.tab" > "$out/counts"
expect high 1 "$out/high.tab" "$out/input" "$out/empty" 'an output character above 255'

# The sample of examples/chain, whose README.md has the numbers worked out.
html=tables/html-decimal/rules.tab
expect_chain sample 0 "$html" tables/shef/rules.tab examples/chain/input.txt examples/chain/expected.txt << 'END'
first closed: 241 characters received, 177 written
second closed: 177 characters received, 172 written
END

# T2 writes Y for the `a` of `ab` and stops at the `b`, whether it is the second, to which the first passes `ab` on, or the first.
expect_chain 'second stops' 2 "$html" "$out/t2.tab" "$out/input" "$out/expected" << 'END'
first open: 2 characters received, 2 written
second stopped: 1 characters received, 1 written
END
expect_chain 'first stops' 2 "$out/t2.tab" "$html" "$out/input" "$out/expected" << 'END'
first stopped: 1 characters received, 1 written
second open: 1 characters received, 1 written
END
expect_chain 'first refused' 1 "$out/empty" "$html" "$out/input" "$out/empty" <<< 'refused 5: no rule'
expect_chain 'second refused' 1 "$html" "$out/empty" "$out/input" "$out/empty" <<< 'refused 5: no rule'

make --no-print-directory demo > "$out/demo"
awk '/^-- counts/ { shown = 0 } shown; /^-- output/ { shown = 1 }' "$out/demo" > "$out/text"
[ -s "$out/text" ] || { echo "demo: shows no output" >&2; exit 1; }
for name in html-decimal sdi12; do cat "tables/$name/expected.txt"; echo; done | cmp - "$out/text"
# The demo shows both tables' uses: in the sample of sdi12 seven values begin with a plus sign and six with a minus sign.
for uses in '      1             5     7  "&#[0-9][0-9];" ' '      0             7     4  "+[.0-9]" ' '      1             6     7  "-[.0-9]" '; do
    grep -qF -- "$uses" "$out/demo" || { echo "demo: does not show: $uses" >&2; exit 1; }
done
# It says that the library was proved, and the library is the proved one.
grep -qF 'was proved from these sources, as `make build` does' <<< "$(tail -n 1 "$out/demo")" || { echo "demo: the last line does not say what is proved" >&2; exit 1; }
bash .ci/proved . target/staticlib/libcobbletwill.a

echo "stations, chains and demo: $tables tables as expected"
