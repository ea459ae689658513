#!/usr/bin/env python3
"""Builds and runs the programs of README.md as they stand there, and holds what they print to the block after each. Holds the words
of C's refusals to README's table.

A C program is built by README's own command, the indented line that begins with `cc`, in a folder that has the repository's
`include` and `build`. A Rust program is a package with README's own `[dependencies]` beside the repository. Each program is
followed by a block marked `text`: its output.
"""
import os
import re
import shlex
import subprocess
import sys
import tempfile
from pathlib import Path

REPOSITORY = Path(__file__).resolve().parent.parent
STRICT = ["-std=c99", "-Wall", "-Wextra", "-Wconversion", "-pedantic", "-Werror", "-fsyntax-only"]


def programs(blocks):
    """Each program's language, its text and its output, of the blocks of a document."""
    found = []
    for place, (language, text) in enumerate(blocks):
        if language in ("c", "rust"):
            following = blocks[place + 1] if place + 1 < len(blocks) else ("", "")
            if following[0] != "text":
                sys.exit(f"FAILED: README.md has no output after its program\n{text}")
            found.append((language, text, following[1]))
    return found


def run(command, folder):
    """What a command prints; one that fails ends the tests."""
    done = subprocess.run(command, cwd=folder, shell=isinstance(command, str), stdout=subprocess.PIPE, text=True)
    if done.returncode != 0:
        sys.exit(f"FAILED: status {done.returncode} of {command}")
    return done.stdout


def run_c(readme, text, folder):
    command = re.search(r"^    (cc .*)$", readme, re.M)[1]
    source = next(word for word in shlex.split(command) if word.endswith(".c"))
    (folder / "include").symlink_to(REPOSITORY / "include")
    (folder / "build").symlink_to(REPOSITORY / "build")
    (folder / source).write_text(text)
    run([os.environ.get("CC", "cc"), *STRICT, "-Iinclude", source], folder)
    return run(command, folder)


def run_rust(blocks, text, folder):
    (folder / "ovenquill").symlink_to(REPOSITORY)
    package = folder / "program"
    (package / "src").mkdir(parents=True)
    (package / "src" / "main.rs").write_text(text)
    dependencies = next(text for language, text in blocks if language == "toml")
    (package / "Cargo.toml").write_text(f'[package]\nname = "program"\nedition = "2021"\n\n{dependencies}')
    return run(["cargo", "run", "--quiet", "--offline"], package)


REFUSALS_IN_C = """#include <stdio.h>
#include "ovenquill.h"

int main(void)
{
    for (int64_t number = 1; number <= %d; number++)
        puts(ovenquill_refusal_text(-number));
    return 0;
}
"""


def check_refusals(readme):
    """A cause of README's table ends with its first semicolon: what follows says what else is handed back."""
    rows = re.findall(r"^\| (\d+) \| (.*?)(?:;.*)? \|$", readme, re.M)
    if not rows or [int(number) for number, _ in rows] != list(range(1, len(rows) + 1)):
        sys.exit("FAILED: README.md's refusals are not numbered from 1")
    with tempfile.TemporaryDirectory() as name:
        words = run_c(readme, REFUSALS_IN_C % (len(rows) + 1), Path(name)).splitlines()
    for (number, cause), text in zip(rows, words):
        if cause != text:
            sys.exit(f"FAILED: refusal {number} is `{cause}` in README.md, `{text}` in C")
    if words[len(rows)] != "unknown refusal":
        sys.exit(f"FAILED: README.md lacks refusal {len(rows) + 1}, `{words[len(rows)]}` in C")


def main():
    readme = (REPOSITORY / "README.md").read_text()
    blocks = re.findall(r"^```(\w+)\n(.*?)^```$", readme, re.M | re.S)
    found = programs(blocks)
    if {language for language, _, _ in found} != {"c", "rust"}:
        sys.exit("FAILED: README.md lacks a program in C or in Rust")
    for language, text, output in found:
        with tempfile.TemporaryDirectory() as name:
            printed = run_c(readme, text, Path(name)) if language == "c" else run_rust(blocks, text, Path(name))
        if printed != output:
            sys.exit(f"FAILED: README.md's program\n{text}prints\n{printed}and not\n{output}")
    check_refusals(readme)
    print(f"README: {len(found)} programs ok")


main()
