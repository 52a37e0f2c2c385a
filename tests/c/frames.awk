# The most stack of each exported function, over all inputs, from `objdump -dr` of the library: the return address, what a function pushes and
# takes off the stack pointer, and the deepest of its calls; one that calls none may use 128 bytes below its stack pointer (the red zone of
# x86-64). Of memcpy and memset, which are not in the library, the return address alone is counted.
# `-v nested=NAME -v turns=N` names a function that calls itself, by way of others or not, and is entered at most N times before it is left.
# Fails on what it can't add up: another change of the stack pointer, a call through a pointer, an address of a function that is not called there, a
# cycle of calls that is not through `nested`.

/^[0-9a-f]+ <.*>:$/ {
    name = $2
    gsub(/[<>:]+$|^</, "", name)
    frame[name] = 8
}
/^ +[0-9a-f]+:\t/ { operation = $2 }
operation == "push" && /^ +[0-9a-f]+:\t/ { frame[name] += 8 }
/,%rsp$/ {
    amount = $3
    if ($2 == "sub" && amount ~ /^\$0x[0-9a-f]+,/) frame[name] += number(substr(amount, 4, index(amount, ",") - 4))
    else if ($2 != "add" || amount !~ /^\$0x[0-9a-f]+,/) fail(name " changes the stack pointer by: " $0)
}
# A jump through a register is a match, where no address of a function is taken.
/\tcall +\*/ { fail(name " calls through a pointer: " $0) }
# The relocation of a call, or of a jump to another function.
/R_X86_64_PLT32/ && operation ~ /^(call|jmp)$/ {
    callee = $3
    sub(/-0x[0-9a-f]+$/, "", callee)
    sub(/^\.text\./, "", callee)
    if (!((name, callee) in called)) calls[name] = calls[name] " " callee
    called[name, callee]
}
/R_X86_64_/ && !(/R_X86_64_PLT32/ && operation ~ /^(call|jmp)$/) {
    target = $3
    sub(/[-+]0x[0-9a-f]+$/, "", target)
    if (sub(/^\.text\.?/, "", target)) fail(name " takes the address of " target)
    taken[target] = name
}
END {
    for (target in taken) if (target in frame) fail(taken[target] " takes the address of " target)
    if (failed) exit 1
    for (name in frame) if (name ~ /^cobbletwill_/) print name, deepest(name)
    if (failed) exit 1
}

function fail(text) {
    print "frames: " text > "/dev/stderr"
    failed = 1
}

function number(digits,    value, at) {
    for (at = 1; at <= length(digits); at++) value = 16 * value + index("0123456789abcdef", substr(digits, at, 1)) - 1
    return value
}

# The most stack of a function and all that it calls, within so many turns of `nested` in `turn`.
function deepest(name,    callees, count, at, most, depth) {
    if (name == "memcpy" || name == "memset") return 8
    if (!(name in frame)) { fail("no code of " name); return 0 }
    if (name == nested && turn == turns) return 0
    turn += name == nested
    if ((turn, name) in entered) { fail(name " calls itself"); return 0 }
    entered[turn, name]
    count = split(calls[name], callees, " ")
    most = count == 0 ? 128 : 0
    for (at = 1; at <= count; at++) {
        depth = deepest(callees[at])
        if (depth > most) most = depth
    }
    delete entered[turn, name]
    turn -= name == nested
    return frame[name] + most
}
