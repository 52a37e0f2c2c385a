#!/usr/bin/env bash
# The scripts by shellcheck, if it is here, and what the gate makes of rt's words. SC2016, a backtick in single quotes, is what the pages write.
set -euo pipefail
cd "$(dirname "$0")/../.."

mapfile -t scripts < <({ find .ci -type f; find tests examples compare -name '*.sh' -type f; } | sort)
[ "${#scripts[@]}" -ge 17 ] || { echo "scripts: only ${#scripts[@]} are found" >&2; exit 1; }
for script in "${scripts[@]}"; do
    [ "$(head -n 1 "$script")" = '#!/usr/bin/env bash' ] || { echo "scripts: $script does not begin as a script" >&2; exit 1; }
    grep -qx 'set -euo pipefail' "$script" || { echo "scripts: $script goes on where a command fails" >&2; exit 1; }
done
if command -v shellcheck > /dev/null; then
    shellcheck --exclude=SC2016 "${scripts[@]}"
    echo "scripts: ${#scripts[@]} by shellcheck"
else
    echo "scripts: no shellcheck (apt-get install shellcheck), the scripts are not tried"
fi

# The gate's verdict on a tree of two crates and two edits. The tree is outside of the repository, in which rt wants no other crates.txt.
room=$(mktemp -d)
trap 'rm -rf "$room"' EXIT
mkdir -p "$room/crates/low/must-fail" "$room/crates/high/src"
printf '# two crates\n\nlow:\nhigh staticlib: low\n' > "$room/crates.txt"
touch "$room/crates/low/must-fail/one.edit" "$room/crates/low/must-fail/two.edit"

# judged passes|fails LINES: so the gate takes these lines.
judged=0
judged() {
    wanted=$1 found=passes
    shift
    printf '%s\n' "$@" > "$room/log"
    bash .ci/verdict "$room" "$room/log" > "$room/said" 2>&1 || found=fails
    [ "$found" = "$wanted" ] || { printf 'scripts: the gate %s by these lines:\n%s\n' "$found" "$*" >&2; exit 1; }
    judged=$((judged + 1))
}

# ok EDITS: rt's line that so many edits are refused, and what else.
ok() {
    echo "rt: ok; handles allowed: none; must-fail edits: $1; every proof and must-fail edit was done in this run"
}

passed='4 passed, 0 failed'
judged passes "$(ok '2 refused')" "$passed"
[ "$(cat "$room/said")" = "$passed" ] || { echo 'scripts: the gate does not print the last line' >&2; exit 1; }
judged passes "$(ok '2 refused, 1 of them only by a limit')" "$passed"
judged fails "$(ok '1 refused, 1 bad')" '3 passed, 0 failed'
judged fails "$(ok '1 refused, 1 bad')" "$passed"
judged fails "$(ok '2 refused, 1 bad')" "$passed"
judged fails "$(ok '2 refused, 12 bad')" "$passed"
judged fails "$(ok '2 refused, 1 of them only by a limit, 1 bad')" "$passed"
judged fails "$(ok '1 refused')" "$passed"
judged fails "$(ok '2 refused')" '3 passed, 0 failed'
judged fails "$(ok '2 refused')" '4 passed, 1 failed'
judged fails "$(ok '2 refused')" "$passed (low and the crates below alone: not the gate)"
judged fails "$(ok '2 refused')" "$passed" 'rt: something more'
judged fails "$(ok '2 refused')" "$(ok '2 refused')" "$passed"
judged fails "$passed"
judged fails 'rt: ok; handles allowed: none; every proof was done in this run' "$passed"
rm "$room/crates/low/must-fail/one.edit" "$room/crates/low/must-fail/two.edit"
judged fails "$(ok '0 refused')" '2 passed, 0 failed'
echo "scripts: $judged verdicts of the gate"
