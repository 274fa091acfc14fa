#!/usr/bin/env python3
"""Tries what release/go_code.py refuses, and how it counts, by instructions that the kit's clang assembles: what each takes of the
stack, by the processors' manuals, stands beside it. Ends with how many were tried."""
import os
import subprocess
import sys
import tempfile

TOP = os.path.dirname(os.path.dirname(os.path.dirname(os.path.realpath(__file__))))
sys.dont_write_bytecode = True
sys.path[:0] = [f"{TOP}/release", f"{TOP}/tools"]
import go_code
import kit

# A function's instructions, and how much of the stack it takes beside the 8 bytes that are counted for each call; or a word of the
# message that it is refused with.
FUNCTIONS = {
    "amd64": [
        ("ret", 0),
        ("push %rbx; sub $0x1000, %rsp; add $0x1000, %rsp; pop %rbx; ret", 8 + 0x1000),
        ("push %rbp; push %rbx; call other; pop %rbx; pop %rbp; ret", 16 + 8 + 24),
        ("jmp other", 8 + 24),
        ("mov (%rsp), %rax; lea 8(%rsp), %rax; cmp %rsp, %rax; ret", 0),
        ("mov -8(%rsp), %rax; ret", "below the stack pointer"),
        ("mov %al, -2(%rsp,%rsi); ret", "below the stack pointer"),
        ("push %rbx; mov -8(%rsp), %rax; pop %rbx; ret", "below the stack pointer"),
        ("sub $32, %rsp; mov %al, -2(%rsp,%rsi); add $32, %rsp; ret", 32),
        ("call *%rax; ret", "takes of the stack"),
        ("sub %rax, %rsp; ret", "takes of the stack"),
        ("and $-32, %rsp; ret", "takes of the stack"),
        ("mov %rbp, %rsp; ret", "takes of the stack"),
        ("call tried; ret", "calls itself"),
        ("call recursive; ret", "calls itself"),
        ("mov written(%rip), %eax; ret", "data that is written"),
        ("movabs $other, %rax; ret", "where it lies"),
    ],
    "arm64": [
        ("ret", 0),
        ("stp x29, x30, [sp, #-32]!; sub sp, sp, #48; bl other; add sp, sp, #48; ldp x29, x30, [sp], #32; ret", 80 + 8 + 16),
        ("sub sp, sp, #1, lsl #12; add sp, sp, #1, lsl #12; b other", 4096 + 8 + 16),
        ("str x0, [sp, #8]; ldr x1, [sp]; cmp sp, x1; ret", 0),
        ("mov x0, x18; ret", "x18"),
        ("mov w18, w0; ret", "x18"),
        ("ldr x28, [x0]; ret", "x28"),
        ("stur x0, [sp, #-8]; ret", "below the stack pointer"),
        ("blr x0; ret", "takes of the stack"),
        ("mov sp, x29; ret", "takes of the stack"),
        ("sub sp, sp, x0; ret", "takes of the stack"),
        ("sub sp, x29, #16; ret", "takes of the stack"),
        ("bl tried; ret", "calls itself"),
        ("adrp x0, written; ldr w0, [x0, :lo12:written]; ret", "data that is written"),
        ("ldr x0, =other; ret", "where it lies"),
    ],
}
OTHERS = {
    "amd64": "push %rbx; push %rbx; push %rbx; pop %rbx; pop %rbx; pop %rbx; ret",
    "arm64": "stp x29, x30, [sp, #-16]!; ldp x29, x30, [sp], #16; ret",
}


def function(name, words):
    lines = "\n".join(words.split("; "))
    return f"\t.globl {name}\n\t.type {name}, %function\n{name}:\n{lines}\n\t.size {name}, . - {name}\n"


def taken(target, words, room):
    """What the function takes of the stack, or the message that it is refused with."""
    jump = "jmp" if target.machine == "x86_64" else "b"
    name = next(name for name, it in go_code.TARGETS.items() if it is target)
    text = "\t.text\n" + function("tried", words) + function("other", OTHERS[name]) + function("recursive", f"{jump} tried")
    if "written" in words:
        text += "\t.data\nwritten: .long 1\n"
    with open(f"{room}/tried.s", "w", encoding="utf-8") as file:
        file.write(text)
    tools = f"{kit.Kit().folder}/toolchain/bin"
    subprocess.run([f"{tools}/clang", f"--target={target.machine}-linux-musl", "-c", f"{room}/tried.s", "-o", f"{room}/tried.o"], check=True)
    linking = [f"{tools}/ld.lld", "--emit-relocs", "--no-relax", "-T", f"{TOP}/release/go/image.ld", "-e", "0"]
    subprocess.run([*linking, "-o", f"{room}/image", f"{room}/tried.o"], check=True)
    try:
        image = go_code.Image(target, f"{room}/image")
        go_code.check_words(image)
        return go_code.stacks(image)["tried"] - 8
    except SystemExit as refusal:
        return str(refusal)


def main():
    tried = 0
    for name, functions in FUNCTIONS.items():
        for words, wanted in functions:
            with tempfile.TemporaryDirectory() as room:
                found = taken(go_code.TARGETS[name], words, room)
            if found != wanted and not (isinstance(wanted, str) and wanted in str(found)):
                sys.exit(f"{name}: {words}: {found}, and not {wanted}")
            tried += 1
    print(f"{tried} functions are counted or refused as they should be")


main()
