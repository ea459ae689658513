#!/usr/bin/env python3
"""Tries tools/check_declarations on copies of the real files: as they are, and each with one fault, which it must name.

Takes the same arguments as the tool.
"""
import argparse
import re
import shutil
import subprocess
import sys
import tempfile
from pathlib import Path

TOOL = Path(__file__).parent.parent / "tools" / "check_declarations"

# In which of the three places, what the fault is, the pattern that is replaced once, its replacement, and a word that the tool
# must say. A blank in a pattern stands for any white space.
RATTLE, HEADER, RUST = "source", "header", "rust"
FAULTS = [
    (RATTLE, "swapped parameters", r"(ovenquill_days_from_civil\(\s*)(year)(: i64, )(month)", r"\1\4\3\2", "ovenquill_days_from_civil"),
    (HEADER, "swapped parameters", r"(ovenquill_days_from_civil\(int64_t )(year)(, int64_t )(month)", r"\1\4\3\2", "ovenquill_days_from_civil"),
    (RUST, "swapped parameters", r"(ovenquill_days_from_civil\(\s*)(year)(: i64, )(month)", r"\1\4\3\2", "ovenquill_days_from_civil"),
    (RATTLE, "a list that may be written", r"label: &\[u8\]", "label: &mut [u8]", "ovenquill_read_instant"),
    (HEADER, "a missing const", r"const (uint8_t \*label)", r"\1", "ovenquill_read_instant"),
    (RUST, "a missing const", r"label: \*const u8", "label: *mut u8", "ovenquill_read_instant"),
    (RATTLE, "a wrong width", r"days: &mut \[i32\]", "days: &mut [i64]", "ovenquill_index_days"),
    (HEADER, "a wrong width", r"int32_t (\*days)", r"int64_t \1", "ovenquill_index_days"),
    (RUST, "a wrong width", r"days: \*mut i32", "days: *mut i64", "ovenquill_index_days"),
    (RATTLE, "a wrong sign", r"numbers: &\[u32\]", "numbers: &[i32]", "ovenquill_sheet_write"),
    (HEADER, "a wrong sign", r"const uint32_t (\*numbers)", r"const int32_t \1", "ovenquill_sheet_write"),
    (RUST, "a wrong sign", r"numbers: \*const u32", "numbers: *const i32", "ovenquill_sheet_write"),
    (RATTLE, "a missing call", r'(pub extern "C" fn) ovenquill_is_leap\b', r"\1 ovenquill_leap", "ovenquill_is_leap"),
    (HEADER, "a missing call", r"int64_t ovenquill_is_leap\([^)]*\);", "", "ovenquill_is_leap"),
    (RUST, "a missing call", r"(pub )?fn ovenquill_is_leap\([^)]*\) -> i64;", "", "ovenquill_is_leap"),
    (RATTLE, "a call that is not exported", r'#\[unsafe\(no_mangle\)\]\n(pub extern "C" fn ovenquill_is_leap)\b', r"\1", "ovenquill_is_leap"),
    (RATTLE, "a place of another size", r"(fields: &mut \[i64;) 7\]", r"\1 6]", "ovenquill_split_instant"),
    (HEADER, "a struct with a field less", r"int64_t millisecond;", "", "ovenquill_split_instant"),
    (RUST, "a struct with a field less", r"(pub )?millisecond: i64,( \})", r"\2", "ovenquill_split_instant"),
    (HEADER, "a struct with fields swapped", r"(int64_t )(minute)(; int64_t )(second);", r"\1\4\3\2;", "ovenquill_fields"),
    (RUST, "a struct in no fixed order", r"#\[repr\(C\)\]", "", "repr(C)"),
    (RATTLE, "a place handed over as a number", r"(ovenquill_check_bound\([^)]*least:) &mut i64", r"\1 i64", "ovenquill_check_bound"),
    (HEADER, "a place handed over as a number", r"int64_t \*least", "int64_t least", "ovenquill_check_bound"),
    (RUST, "a place handed over as a number", r"least: \*mut i64", "least: i64", "ovenquill_check_bound"),
    (HEADER, "a length before its pointer", r"(uint8_t \*out), (size_t length)", r"\2, \1", "ovenquill_write"),
    (RUST, "a length before its pointer", r"(out: \*mut u8), (length: usize)", r"\2, \1", "ovenquill_write"),
    (RATTLE, "a renamed parameter", r"(ovenquill_first_difference\([^)]*\b)end: i64", r"\1stop: i64", "ovenquill_first_difference"),
    (HEADER, "another answer", r"int64_t (ovenquill_weekday\()", r"int32_t \1", "ovenquill_weekday"),
    (RUST, "no answer", r"(fn ovenquill_weekday\([^)]*\)) -> i64", r"\1", "ovenquill_weekday"),
    (RUST, "a struct of another name", r"pub struct Fields \{", "pub struct Parts {", "ovenquill_fields"),
    (RUST, "a struct that is not C's", r"(split_instant\([^)]*\*mut (\w+::)*)Fields\b", r"\1Other", "ovenquill_split_instant"),
    (RUST, "a packed struct", r"#\[repr\(C\)\]", "#[repr(C)]\n#[repr(packed(1))]", "repr(C)"),
    (RUST, "a struct in two forms", r"#\[repr\(C\)\]", "#[repr(C, packed(1))]", "repr(C)"),
    (RUST, "a second block in another file", r"(pub enum Weekday\b)", r'extern "C" { fn ovenquill_weekday(days: i32) -> i64; } \1', "extern"),
    (RUST, "a second block in the same file", r'(extern "C" \{)', r'extern "C" {}\n\1', "extern"),
    (HEADER, "packing", r"(typedef struct ovenquill_date\b)", r"#pragma pack(1)\n\1", "pragma"),
    (HEADER, "packing by an operator", r"(typedef struct ovenquill_date\b)", r'_Pragma("pack(1)")\n\1', "_Pragma"),
    (HEADER, "a call that is left out", r"(int64_t ovenquill_is_leap\([^)]*\);)", r"#if 0\n\1\n#endif", "#if 0"),
    (HEADER, "a call for C++ alone", r"(int64_t ovenquill_is_leap\([^)]*\);)", r"#ifdef __cplusplus\n\1\n#endif", "#ifdef"),
    (HEADER, "a type by another name", r"(typedef struct ovenquill_date\b)", r"#define int64_t int32_t\n\1", "#define int64_t"),
    (HEADER, "something that is no call", r"(int64_t ovenquill_weekday\()", r"extern int state; \1", "cannot be read"),
]


def run(folder):
    """The tool's exit status and what it says, on the copies in a folder."""
    arguments = ["--source", folder / RATTLE, "--header", folder / HEADER, "--rust", next((folder / RUST).glob("raw.rs"))]
    done = subprocess.run([sys.executable, TOOL, *arguments], capture_output=True, text=True)
    return done.returncode, done.stdout + done.stderr


def put_fault(folder, place, pattern, replacement):
    """Makes one replacement in the first file of a place that has the pattern; answers whether one had it."""
    expression = re.compile(re.sub(" ", r"\\s+", pattern))
    files = [folder / HEADER] if place == HEADER else sorted((folder / place).rglob("*.r[ts]"))
    for file in files:
        text, times = expression.subn(replacement, file.read_text(), count=1)
        if times:
            file.write_text(text)
            return True
    return False


def main():
    parser = argparse.ArgumentParser(description=__doc__.partition("\n\n")[0])
    parser.add_argument("--source", type=Path, default=Path("crates/player/src"))
    parser.add_argument("--header", type=Path, default=Path("include/ovenquill.h"))
    parser.add_argument("--rust", type=Path, default=Path("rust/src/raw.rs"))
    real = parser.parse_args()
    failures = 0
    for place, fault, pattern, replacement, word in [(None, "no fault", "", "", "declare the same"), *FAULTS]:
        with tempfile.TemporaryDirectory() as name:
            folder = Path(name)
            shutil.copytree(real.source, folder / RATTLE)
            shutil.copy(real.header, folder / HEADER)
            shutil.copytree(real.rust.parent, folder / RUST)
            if place and not put_fault(folder, place, pattern, replacement):
                print(f"FAILED: {fault} cannot be put into the {place}: nothing there has its pattern")
                failures += 1
                continue
            status, said = run(folder)
            if status != (1 if place else 0) or word not in said or "Traceback" in said:
                print(f"FAILED: {fault} in the {place}: status {status}, said\n{said}")
                failures += 1
    print(f"check_declarations: {len(FAULTS)} faults tried, {failures} failures")
    return 1 if failures else 0


sys.exit(main())
