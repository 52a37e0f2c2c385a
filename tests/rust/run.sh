#!/usr/bin/env bash
# The Rust packages: their tests, of which none is left out and which are no fewer than so many, and clippy, if it is here.
set -euo pipefail
cd "$(dirname "$0")/../.."

out=target/tests-rust
mkdir -p "$out"

fail() {
    cat "$out/said" >&2
    echo "rust: $1" >&2
    exit 1
}

# run PACKAGE COMMAND WORDS: cargo on a package.
run() {
    package=$1 command=$2
    shift 2
    cargo "$command" --release --offline --locked --quiet --manifest-path "$package/Cargo.toml" --target-dir target/cargo "$@" > "$out/said" 2>&1
}

packages=0
while read -r package least; do
    run "$package" test || fail "a test of $package fails"
    awk '/^test result: / { if ($0 !~ /^test result: ok\. [0-9]+ passed; 0 failed; 0 ignored; /) exit 1; passed += $4 } END { print passed + 0 }' \
        "$out/said" > "$out/passed" || fail "a test of $package is left out"
    passed=$(cat "$out/passed")
    [ "$passed" -ge "$least" ] || fail "$package has $passed tests, fewer than $least"
    echo "rust: $package: $passed tests"
    packages=$((packages + 1))
done << 'END'
reference 224
compare 119
rust 66
tools 61
END
[ "$packages" = "$(find . -maxdepth 2 -name Cargo.toml | wc -l)" ] || fail "not every package is tested"

if cargo clippy --version > "$out/said" 2>&1; then
    for package in reference compare rust tools; do
        run "$package" clippy --all-targets -- --deny warnings || fail "clippy refuses $package"
    done
    echo "rust: $packages packages by clippy"
else
    echo "rust: no clippy, the packages are not tried by it"
fi
