#!/usr/bin/env bash
# The pages: what a link leads to in the repository is there, and so is the heading, if it names one; names of the header are in the header.
set -euo pipefail
cd "$(dirname "$0")/../.."

out=target/pages
rm -rf "$out"
mkdir -p "$out"

fail() {
    echo "pages: $1" >&2
    exit 1
}

find . \( -path ./target -o -path ./.git -o -path '*/target' \) -prune -o -name '*.md' -print | sort > "$out/pages"
pages=$(wc -l < "$out/pages")
[ "$pages" -ge 19 ] || fail "only $pages pages are found"

# Each link outside of fenced blocks, behind its page.
xargs awk '
    FNR == 1 { fenced = 0 }
    /^```/ { fenced = !fenced }
    fenced { next }
    {
        line = $0
        while (match(line, /\]\([^)]*\)/)) {
            print FILENAME "\t" substr(line, RSTART + 2, RLENGTH - 3)
            line = substr(line, RSTART + RLENGTH)
        }
    }
' < "$out/pages" > "$out/links"

# headings PAGE: what a link to each of its headings has behind the #.
headings() {
    awk '/^```/ { fenced = !fenced } !fenced && /^#+ / { sub(/^#+ /, ""); print tolower($0) }' "$1" | sed 's/[^a-z0-9_ -]//g; s/ /-/g'
}

links=0 named=0
while IFS=$'\t' read -r page link; do
    case $link in
        '') fail "$page: a link to nothing" ;;
        http://* | https://*) continue ;;
    esac
    place=${link%%#*}
    if [ -n "$place" ]; then place=$(dirname "$page")/$place; else place=$page; fi
    [ -e "$place" ] || fail "$page: $link is not there"
    case $link in
        *'#'*)
            headings "$place" > "$out/headings"
            grep -qxF -- "${link#*#}" "$out/headings" || fail "$page: $link has no such heading"
            named=$((named + 1))
            ;;
    esac
    links=$((links + 1))
done < "$out/links"
[ "$links" -ge 150 ] || fail "only $links links are found"
[ "$named" -ge 1 ] || fail "no link to a heading is found"

# The macros and functions that the pages on the header name. `cobbletwill_c` is the crate that exports them.
grep -ohE '\b(COBBLETWILL_[A-Z_]*[A-Z]|cobbletwill_[a-z_]*[a-z])\b' README.md docs/FORMAT.md rust/README.md | grep -vx cobbletwill_c | sort -u > "$out/names"
while read -r name; do
    grep -qw -- "$name" include/cobbletwill.h || fail "$name is not in the header"
done < "$out/names"
names=$(wc -l < "$out/names")
[ "$names" -ge 30 ] || fail "only $names names of the header are found"

echo "pages: $pages pages, $links links, $names names of the header"
