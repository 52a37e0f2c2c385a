#!/usr/bin/env bash
# The library and its header for C: the header in C and C++, what the library needs and takes, refused calls, typed rules, previews, pairs, live
# and dead rules, two machines in a row, the output that calls need, its stack, and an installed copy.
set -euo pipefail
trap 'echo "tests/c: line $LINENO of $0 failed" >&2' ERR
cd "$(dirname "$0")/../.."

# For copies of the sources: rt wants none below the repository.
tree=$(mktemp -d)
trap 'rm -rf "$tree"' EXIT

library=target/staticlib/libcobbletwill.a
out=target/tests-c
rm -rf "$out"
mkdir -p "$out"

fail() { echo "tests/c: $*" >&2; exit 1; }

# counted PROGRAM LEAST: its last line says how many tests held, no fewer than so many.
counted() {
    held=$(sed -n "\$s/^$1: \([0-9]*\) tests\$/\1/p" "$out/said")
    [ "${held:-0}" -ge "$2" ] || fail "$1 makes ${held:-no} tests, fewer than $2"
}

# The refusals are numbered from 1 on, at least to 18, and have a text and a line of docs/FORMAT.md each.
sed -n 's/^    COBBLETWILL_REFUSED_[A-Z_]* = \([0-9]*\),\?$/\1/p' include/cobbletwill.h > "$out/numbers"
refusals=$(wc -l < "$out/numbers")
[ "$refusals" -ge 18 ] || fail "the header has $refusals refusals"
seq "$refusals" | cmp - "$out/numbers"
sed -n 's/^refused \([0-9]*\): .*/\1/p' tests/c/texts.txt | cmp - "$out/numbers"
awk '/^\| number \| refused is \|/ { on = 1 } /^$/ { on = 0 } on && $2 ~ /^[0-9]+$/ { print $2 }' docs/FORMAT.md | cmp - "$out/numbers"

# header COMPILER WORDS: the header with a compiler, if it is here. The texts of the refusals are those stored.
tried=0
header() {
    if ! command -v "$1" > /dev/null; then
        echo "tests/c: no $1, the header is not tried by $*"
        return
    fi
    "$@" -Wall -Wextra -Wpedantic -Wmissing-field-initializers -Wconversion -Werror -Iinclude -o "$out/header" tests/c/header.c
    "$out/header" > "$out/said"
    counted header 1362
    head -n -1 "$out/said" | cmp - tests/c/texts.txt
    tried=$((tried + 1))
}
for compiler in cc clang; do
    for standard in c99 c11 c17; do header "$compiler" "-std=$standard"; done
done
for compiler in c++ clang++; do
    for standard in c++98 c++11 c++17 c++20; do header "$compiler" -x c++ "-std=$standard"; done
done
[ "$tried" -ge 7 ] || fail "the header was tried $tried times: cc or c++ is missing"

# The compiler warns of an answer that is not looked at, and of nothing else.
for words in 'cc -std=c99' 'cc -std=c17' 'c++ -x c++ -std=c++98' 'c++ -x c++ -std=c++17'; do
    read -ra compiler <<< "$words -Wall -Wextra -Werror -Iinclude -c -o $out/answer.o"
    "${compiler[@]}" '-DKEEP=*answer =' tests/c/answer.c
    if "${compiler[@]}" -DKEEP= tests/c/answer.c 2> "$out/said"; then fail "$words does not warn of an answer that is not looked at"; fi
    [ "$(grep -c ': error: ignoring return value' "$out/said") $(grep -c ': error: ' "$out/said")" = "3 3" ] || { cat "$out/said" >&2; fail "$words"; }
done

# The installed header speaks of nothing that is not installed.
if grep -nwiE 'rt|rattle|crate|documents?|requests?' include/cobbletwill.h; then fail "the lines above speak of the papers or of rt"; fi

# The size of the code, no static data that is written, and no functions from outside but two.
read -r code data bss _ < <(size --totals "$library" | tail -n 1)
{ [ "$code" -gt 0 ] && [ "$code" -le 40960 ]; } || fail "the library has $code bytes of code"
[ "$data $bss" = "0 0" ] || fail "the library has $data bytes of data and $bss of bss"
needs=$(nm --undefined-only --format=just-symbols "$library" | grep -v -e '^$' -e ':$' | sort | xargs)
[ "$needs" = "memcpy memset" ] || fail "the library needs: $needs"
cc -std=c11 -Wall -Wextra -Werror -O2 -ffreestanding -nostdlib -static -fno-builtin -fno-tree-loop-distribute-patterns -fno-stack-protector \
    -Iinclude -o "$out/freestanding" tests/c/freestanding.c "$library"
"$out/freestanding" || fail "freestanding ends with $?"

# Each function of the library is declared in the header, and no others are.
nm --defined-only --extern-only --format=just-symbols "$library" | grep -x 'cobbletwill_[a-z_]*' | sort > "$out/functions"
sed -n 's/^uint32_t \(cobbletwill_[a-z_]*\)(.*/\1/p' include/cobbletwill.h | sort | cmp - "$out/functions"
functions=$(wc -l < "$out/functions")
[ "$functions" -ge 12 ] || fail "the library has $functions functions"

while read -r test least; do
    cc -std=c11 -Wall -Wextra -Werror -O2 -Iinclude -o "$out/$test" "tests/c/$test.c" "$library"
    "$out/$test" > "$out/said"
    counted "$test" "$least"
done << 'END'
refused 10417
typed 941509
preview 32
pairs 885
witness 510
chain 884284
rooms 14152
END

# Functions are bound at the start, not on the measured stack. Of typed expressions, which are nested at most 16 deep, the reader of sums is
# entered 17 times. README states the header's limits, one for each function.
cc -std=c11 -Wall -Wextra -Werror -O2 -Wl,-z,now -Iinclude -o "$out/stack" tests/c/stack.c "$library"
objdump -dr --no-show-raw-insn "$library" | awk -v nested=expression::reader::sum -v turns=17 -f tests/c/frames.awk > "$out/frames"
xargs "$out/stack" < "$out/frames" > "$out/depths" || { cat "$out/depths" >&2; fail "a function takes more stack than the header states"; }
sed -n 's/^\(cobbletwill_[a-z_]*\): .* at most \([0-9]*\)$/| `\1` | \2 |/p' "$out/depths" | sort > "$out/limits"
[ "$(wc -l < "$out/limits")" = "$functions" ] || fail "not every function has a limit of stack"
grep -x '| `cobbletwill_[a-z_]*` | [0-9]* |' README.md | sort | diff - "$out/limits" || fail "README gives other limits of stack than the header"

# A library is installed if it is the proved one of these sources, and not else.
bash .ci/proved . "$library"
make --no-print-directory -n install > "$out/said"
grep -qxF "bash .ci/proved . $library || bash .ci/build" "$out/said" || fail "make install does not ask for the proof"
refuses() { if bash .ci/proved "$1" "$2" 2> "$out/said"; then fail "$3 counts as proved"; fi; }
{ cat "$library" && echo; } > "$out/other.a"
refuses . "$out/other.a" "another library"
grep -qF 'is another file than the one that was proved' "$out/said"
refuses . "$out/none.a" "a library that is not there"
cp -r --parents crates.txt crates/*/src crates/*/specs crates/*/proofs "$tree"
bash .ci/proved "$tree" "$library"
echo >> "$tree/crates/lists/specs/Lists.antt"
refuses "$tree" "$library" "a library of other sources"
grep -qF 'the sources are others than those that were proved' "$out/said"

# An installed copy, by pkg-config if it is here, of one version.
make --no-print-directory install DESTDIR="$PWD/$out/root" PREFIX=/opt/cobbletwill > "$out/installed"
installed=$out/root/opt/cobbletwill
cmp "$library" "$installed/lib/libcobbletwill.a"
version=$(sed -n 's/^#define COBBLETWILL_VERSION "\([0-9]*\.[0-9]*\.[0-9]*\)"$/\1/p' include/cobbletwill.h)
[ -n "$version" ] || fail "the header has no version"
grep -qx "Version: $version" "$installed/lib/pkgconfig/cobbletwill.pc" || fail "cobbletwill.pc is not of version $version"
grep -qx "version = \"$version\"" rust/Cargo.toml || fail "rust/Cargo.toml is not of version $version"
if command -v pkg-config > /dev/null; then
    flags=$(PKG_CONFIG_PATH="$installed/lib/pkgconfig" PKG_CONFIG_SYSROOT_DIR="$PWD/$out/root" pkg-config --cflags --libs cobbletwill)
else
    echo "tests/c: no pkg-config, its file is not tried"
    flags="-I$installed/include -L$installed/lib -lcobbletwill"
fi
read -ra flags <<< "$flags"
cc -std=c11 -Wall -Wextra -Werror -O2 -o "$out/station" examples/c/station.c "${flags[@]}"
[ -s tables/sdi12/expected.txt ]
"$out/station" tables/sdi12/rules.tab < tables/sdi12/input.txt 2> "$out/counts" | cmp - tables/sdi12/expected.txt

echo "tests/c: header, $functions functions, $refusals refusals, typed rules, previews, pairs, live and dead rules, chains, rooms, stack and installed copy as stated"
