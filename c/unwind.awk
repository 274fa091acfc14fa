# Writes the unwind tables of an object whose compiler has left them out, as assembly, of what `objdump -dr
# --no-show-raw-insn` says of it: so debuggers, profilers and backtraces find their way through its functions.
#
# These functions keep no frame pointer, and move the stack pointer by push, pop, add and sub of a constant alone. So for
# each instruction it follows, along all ways that lead there, how far the caller's frame lies from the stack pointer, and
# which of the caller's registers were pushed where. Anything else that moves the stack pointer ends it with status 1.
BEGIN {
    count = split("rax rdx rcx rbx rsi rdi rbp rsp r8 r9 r10 r11 r12 r13 r14 r15", list, " ")
    for (i = 1; i <= count; i++) number["%" list[i]] = i - 1
    count = split("%rbx %rbp %r12 %r13 %r14 %r15", list, " ")
    for (i = 1; i <= count; i++) kept[list[i]] = 1
    # ld wants the tables of .eh_frame in the object of their functions, so they get that name once they are there
    print ".section .note.GNU-stack,\"\",@progbits"
    print ".section .unwind,\"a\",@progbits\n.balign 8"
    # version 1, "zR": code by 1, data by -8, return address 16, addresses from here in 4 bytes; at first the caller's
    # frame is 8 bytes above the stack pointer (7), and the return address right below it
    print ".Lcie: .long .Lcie_end - .Lcie_id\n.Lcie_id: .long 0\n.byte 1\n.asciz \"zR\"\n.byte 1, 0x78, 16, 1, 0x1b"
    print ".byte 0x0c, 7, 8, 0x90, 1\n.balign 8\n.Lcie_end:"
}

function hex(text, value, i) {
    value = 0
    sub(/^\$?0x/, "", text)
    for (i = 1; i <= length(text); i++) value = value * 16 + index("0123456789abcdef", substr(text, i, 1)) - 1
    return value
}

function fail(why) {
    print "no unwind tables: " name ": " why > "/dev/stderr"
    failed = 1
    exit 1
}

# A state is the distance of the caller's frame, and then each register with its own: "32 %rbp 16 %rbx 24".
function behind(state, what, operand, words, count, i, depth, rest) {
    count = split(state, words, " ")
    depth = words[1]
    rest = ""
    if (what == "push") {
        depth += 8
        if (operand in kept && index(state " ", " " operand " ") == 0) return depth substr(state, length(words[1]) + 1) " " operand " " depth
    } else if (what == "pop") {
        for (i = 2; i < count; i += 2) if (words[i] != operand || words[i + 1] != depth) rest = rest " " words[i] " " words[i + 1]
        return (depth - 8) rest
    } else if (what ~ /^(add|sub)q?$/ && operand ~ /,%rsp$/) {
        if (operand !~ /^\$0x[0-9a-f]+,%rsp$/) fail(what " " operand)
        sub(/,%rsp$/, "", operand)
        operand = hex(operand)
        if (operand >= 2147483648) operand = (what ~ /^add/ ? operand - 18446744073709551616 : fail("a large frame"))
        depth += what ~ /^sub/ ? operand : -operand
    } else if (operand ~ /,%rsp$/ && what !~ /^(cmp|test)/ || what ~ /^(leave|enter)/) fail(what " " operand)
    return depth substr(state, length(words[1]) + 1)
}

function reach(at, state) {
    if (!(at in place)) return
    if (at in states) {
        if (states[at] != state) fail("two ways to " at)
        return
    }
    states[at] = state
    waiting[++waits] = at
}

function follow(first, state, i, at, next_at, what, target) {
    waits = 0
    reach(first, state)
    while (waits > 0) {
        at = waiting[waits--]
        i = place[at]
        what = whats[i]
        state = behind(states[at], what, operands[i])
        next_at = i < size ? ats[i + 1] : -1
        if (what ~ /^j/) {
            if (operands[i] ~ /^\*/) spread = states[at]
            else if (!outside[i]) {
                target = operands[i]
                sub(/ .*/, "", target)
                reach(hex(target), state)
            }
            if (what ~ /^jmp/) continue
        }
        if (what !~ /^(ret|ud2|hlt)/) reach(next_at, state)
    }
}

function advance(bytes) {
    if (bytes < 64) printf ".byte 0x%x\n", 64 + bytes
    else if (bytes < 256) printf ".byte 2, %d\n", bytes
    else printf ".byte 4\n.long %d\n", bytes
}

function finish(i, last, state, words, count, before, old, k) {
    if (name == "" || size == 0) return
    spread = ""
    follow(ats[1], "8")
    # what only a table of jumps leads to
    if (spread != "") for (i = 1; i <= size; i++) if (!(ats[i] in states) && whats[i] !~ /^(nop|data16|cs|xchg)/) follow(ats[i], spread)
    functions++
    printf ".Lfde%d: .long .Lfde_end%d - .Lfde_id%d\n.Lfde_id%d: .long .Lfde_id%d - .Lcie\n", functions, functions, functions, functions, functions
    printf ".long \"%s\" - .\n.long %d\n.byte 0\n", name, length_of[name]
    before = "8"
    last = ats[1]
    for (i = 1; i <= size; i++) {
        if (!(ats[i] in states)) continue
        state = states[ats[i]]
        if (state == before) continue
        advance(ats[i] - last)
        last = ats[i]
        count = split(state, words, " ")
        printf ".byte 0x0e\n.uleb128 %d\n", words[1]
        for (k = 2; k < count; k += 2)
            if (index(before " ", " " words[k] " " words[k + 1] " ") == 0) printf ".byte 0x%x\n.uleb128 %d\n", 128 + number[words[k]], words[k + 1] / 8
        count = split(before, words, " ")
        for (k = 2; k < count; k += 2) if (index(state " ", " " words[k] " ") == 0) printf ".byte 0x%x\n", 192 + number[words[k]]
        before = state
    }
    printf ".balign 8\n.Lfde_end%d:\n", functions
}

# The first file has the sizes of the functions, as nm -S says.
FNR == NR {
    if ($3 ~ /^[tT]$/) {
        text = $0
        sub(/^[^ ]* [^ ]* [^ ]* /, "", text)
        length_of[text] = hex($2)
    }
    next
}
/^[0-9a-f]+ <.*>:$/ {
    finish()
    name = $0
    sub(/^[0-9a-f]+ </, "", name)
    sub(/>:$/, "", name)
    size = 0
    split("", place)
    split("", states)
    split("", outside)
    next
}
/^\t+[0-9a-f]+: R_X86_64_/ {
    if ($2 ~ /PLT32|PC32/) outside[size] = 1
    next
}
/^ *[0-9a-f]+:\t/ {
    line = $0
    sub(/^ */, "", line)
    at = hex(substr(line, 1, index(line, ":") - 1))
    sub(/^[^\t]*\t/, "", line)
    sub(/ *#.*/, "", line)
    ats[++size] = at
    place[at] = size
    whats[size] = line
    sub(/ .*/, "", whats[size])
    operands[size] = line
    sub(/^[^ ]* */, "", operands[size])
}
END {
    if (failed) exit 1
    finish()
    if (failed) exit 1
    print ".long 0"
}
