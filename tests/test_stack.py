#!/usr/bin/env python3
"""Holds the header's word on the stack and on functions outside the archive: no call needs 1 KiB of stack, whatever it calls in
turn, and none calls a function outside. The call for audits is different: it needs less than 2 KiB, and calls memset.

    test_stack.py ARCHIVE

The frames are read off the disassembled archive: what each function pushes and takes off the stack pointer, and the functions that it
calls or jumps to. A function that leads back to itself, a call by pointer and a frame of a size that is not written down are faults.
Of memset, which is not in the archive, only the address that it returns to is counted, as the header leaves out what it needs.
"""
import re
import subprocess
import sys

LIMIT, AUDIT_LIMIT = 1024, 2048
AUDIT, AUDIT_OUTSIDE = "ovenquill_civil_from_days_audit", {"memset"}
WORD = 8
# so many bytes below the stack pointer a function may use that takes none off it, by the rules for x86-64 with ELF
BELOW_POINTER = 128

FUNCTION = re.compile(r"^[0-9a-f]+ <(.+)>:$")
TARGET = re.compile(r"R_X86_64_(?:PLT32|PC32)\s+(?:\.text\.)?([^\s+-]+)")
# a call whose target the assembler knew already: the function itself
NEARBY = re.compile(r"\bcall\s+[0-9a-f]+ <([^>+]+)>")
TAKEN = re.compile(r"\bsub\s+(\S+),%rsp")


def fail(words):
    sys.exit(f"stack: {words}")


def functions_of(listing):
    """Of each function its own bytes of stack, with the address that it returns to, and the functions that it goes on to."""
    functions, name, line_before = {}, None, ""
    for line in listing.split("\n"):
        found = FUNCTION.match(line)
        if found:
            name = found[1]
            functions[name] = [WORD, set()]
        elif name:
            target, taken, nearby = TARGET.search(line), TAKEN.search(line), NEARBY.search(line)
            if target and re.search(r"\b(call|jmp)\b", line_before):
                functions[name][1].add(target[1])
            if nearby:
                functions[name][1].add(nearby[1])
            if re.search(r"\bcall\s+\*", line):
                fail(f"{name} calls by a pointer")
            if taken and not re.fullmatch(r"\$0x[0-9a-f]+", taken[1]):
                fail(f"the frame of {name} has no fixed size")
            functions[name][0] += (int(taken[1][1:], 16) if taken else 0) + WORD * len(re.findall(r"\bpush\b", line))
            line_before = line
    return functions


def depth(functions, name, above=()):
    """The most bytes of stack below a call of a function, and the functions outside the archive that it leads to."""
    if name in above:
        fail(f"{name} leads back to itself")
    if name not in functions:
        return WORD, {name}
    own, further = functions[name]
    below = [depth(functions, callee, (*above, name)) for callee in further]
    return own + max([BELOW_POINTER, *(deepest for deepest, _ in below)]), set().union(*(outside for _, outside in below))


def check(functions, name):
    """Holds one call to its limit and to the functions outside the archive that it may and does call; answers its bytes."""
    limit, right = (AUDIT_LIMIT, AUDIT_OUTSIDE) if name == AUDIT else (LIMIT, set())
    deepest, outside = depth(functions, name)
    if deepest >= limit:
        fail(f"{name} needs {deepest} bytes")
    if outside != right:
        fail(f"{name} goes on to {sorted(outside)} outside the archive, not to {sorted(right)}")
    return deepest


def main(archive):
    listing = subprocess.run(["objdump", "-dr", "--no-show-raw-insn", archive], check=True, capture_output=True, text=True).stdout
    functions = functions_of(listing)
    needed = {name: check(functions, name) for name in functions if name.startswith("ovenquill_")}
    if AUDIT not in needed:
        fail(f"no {AUDIT} found in {archive}")
    audit = needed.pop(AUDIT)
    deepest, name = max((deepest, name) for name, deepest in needed.items())
    print(f"stack: ok, {len(needed)} calls, at most {deepest} bytes, by {name}, and {audit} by {AUDIT} before memset's own")


main(sys.argv[1])
