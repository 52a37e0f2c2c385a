#!/usr/bin/env bash
# No list of class starts stands beside the machine words. The compiler allocates nothing, for which a function is passed the runtime or an
# allocator, and it has no statics, so a list is an array that a function makes or a slice that it is lent. The compiler makes two arrays, the loaded
# table and the states' rule sets (the third line is the type of the latter), and what gathers the starts makes none and is lent the loaded table,
# which it only reads, and the machine words.
set -euo pipefail
cd "$(dirname "$0")/../.."

# What a search finds must be what is expected.
same() {
    if [ "$2" != "$3" ]; then
        printf 'starts: %s:\n%s\nwhere there should be:\n%s\n' "$1" "$2" "$3" >&2
        exit 1
    fi
}

# Code without comments.
code() {
    sed 's,//.*,,' "$@"
}

# What a list could be kept in besides, and by which it could be had.
kept='static|thread_local|rt|HostRuntime|alloc|[A-Za-z]*Alloc[A-Za-z]*|Global|vec|format|Vec[A-Za-z]*|Box|Rc|Arc|String|[A-Z][A-Za-z]*(Map|Set)|std'
same 'what allocates, or is a static' "$(code crates/machine/src/*.rt | grep -v "^ghost use " | grep -nwE "$kept" || true)" ''
same 'arrays that the compiler makes' "$(code crates/machine/src/*.rt | grep -oE '\[[^][;]+; [^]]+\]' | sort)" '[0u16; LOADED]
[0u32; 256]
[u32; 256]'
same 'what the functions that gather starts are lent' "$(code crates/machine/src/gather.rt | grep -oE '[a-z_]+: &[^,)]*' | sort -u)" 'loaded: &[u16]
table: &Loaded<'\''_>
words: &[u16]
words: &mut [u16]'
echo "starts: no list beside the machine words"
