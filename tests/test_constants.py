#!/usr/bin/env python3
"""Holds constants.sheet, the sheet of the library's own multiply-and-shift constants, to the claims that are proved, to check_sheet
and to the code that has the constants.

    test_constants.py WRITE_SHEET CHECK_SHEET SCAN_CLAIMS

The arguments are the example write_sheet, which writes the sheet anew from what tools/list_constants lists, check_sheet, and the
program of tests/c/scan_claims.c, which tries every n up to the bound of a claim. The bound and the largest input of the code are tried
here once more. Then each comparison is made with one fault, which it must find.
"""
import re
import shutil
import subprocess
import sys
import tempfile
from pathlib import Path

REPOSITORY = Path(__file__).resolve().parent.parent
CRATES = REPOSITORY / "crates"
LIST_CONSTANTS = REPOSITORY / "tools" / "list_constants"
NOTE = "Constants of the calendar and of the labels"
MULTIPLIER, BOUND = 3, 7



def number_of(file, name):
    """A constant of the crates that is a number."""
    return int(re.search(rf"const {name}: \w+ = (-?\d+);", (CRATES / file).read_text())[1])


def largest_inputs():
    """The largest input that the code has for the claim at each place."""
    cycle = number_of("calendar/src/base.rt", "CYCLE")
    first, last = (number_of("calendar/src/range.rt", f"{end}_COUNT") for end in ("FIRST", "LAST"))
    first_year, last_year = (number_of("calendar/src/range.rt", f"{end}_YEAR") for end in ("FIRST", "LAST"))
    day = last - first + cycle - 60  # the last day of the range, from 1 March of one cycle before its first year
    century = (4 * day + 3) // cycle
    regular = day + century - century // 4  # the same as if every fourth year were leap
    return [
        365,  # the last day of a year from March
        day,
        regular,
        regular + 1,  # counted from 1
        2**27 - 1,  # what the weekday of a day allows
        last_year - first_year + 400,  # the last year of the range, from one cycle before the first
        9999,  # four digits
        99,  # two digits
        6000000 - 1,  # the minutes of a label
        60000 - 1,  # the milliseconds of a minute
    ]


# The file of the crates, a text of it, what is put in its place, and a word that list_constants --code must say.
PRODUCTS, DAYS = "calendar/src/products.rt", "day_table/src/lib.rt"
DIGITS, TIMES = "labels/src/digits.rt", "labels/src/time_fields.rt"
FAULTS_OF_CODE = [
    ("a place for another", PRODUCTS, "shift by 24: place 5", "shift by 24: place 6", "place 6 has the multiplier 5243"),
    ("a place for another, and a 0", PRODUCTS, "by 24: place 5", "by 24, from 0: place 6", "no file names place 5"),
    ("a place that is not there", DIGITS, "(place 7", "(place 10", "there is no place 10"),
    ("another shift", PRODUCTS, "shift by 24: place 5", "shift by 25: place 5", "place 5 has the shift 24, not 25"),
    ("a product without a place", DIGITS, "(n * HUNDREDTH) >> 19", "(n * 656) >> 16", "no place for the product of"),
    ("such a product without a shift", TIMES, "minutes * ONE_BY_60 / ONE", "minutes * 71582790 / ONE", "no place for the product of"),
    ("another number added to a product", DAYS, "= 197913;", "= 197914;", "place 0 has the multiplier 2141 and adds 197913"),
    ("no place", DAYS, ": place 0 of", ", of", "no file names place 0"),
    ("another multiplier", PRODUCTS, "= 120414423;", "= 120414424;", "place 1 has the multiplier 120414423"),
    ("another number that is added", PRODUCTS, "= 1393439081;", "= 1393439082;", "place 3 has the multiplier 23517959"),
]

# The same in files that have claims: what is listed must then make another sheet. A word is None where the code is still right.
ORDER, CALENDAR, LABELS = "../crates.txt", "calendar/proofs/Records.antt", "labels/proofs/Records.antt"
THIRD = "pub third : Accepted 1 0 3 171 0 9 128\n\n"
FIRST_CRATE, SECOND_CRATE = "day_table: refusal numbers constants\n", "calendar: refusal numbers constants day_table\n"
FAULTS_OF_CLAIMS = [
    ("a claim that no code names", LABELS, "-- what follows", THIRD + "-- what follows", "no file names place 10"),
    ("such a claim before the last", LABELS, "pub thousandth :", THIRD + "pub thousandth :", "place 9 has the multiplier 171"),
    ("a claim that is not listed", LABELS, "pub thousandth :", "thousandth :", "there is no place 9"),
    ("a bound that is one more", CALENDAR, "Accepted 1 0 100 167773 0 24 199799", "Accepted 1 0 100 167773 0 24 199800", None),
    ("crates in another order", ORDER, FIRST_CRATE + SECOND_CRATE, SECOND_CRATE + FIRST_CRATE, "place 0 has the multiplier"),
]


def expect(holds, words):
    if not holds:
        sys.exit(f"FAILED: {words}")


def run(command, given=b""):
    """The exit status of a command and what it prints."""
    done = subprocess.run(command, input=given, stdout=subprocess.PIPE)
    return done.returncode, done.stdout


def printed(command, given=b""):
    """What a command prints that must do what it is for."""
    status, output = run(command, given)
    expect(status == 0, f"status {status} of {command}")
    return output


def claims_of(crates):
    return [[int(word) for word in line.split()] for line in printed([LIST_CONSTANTS, crates]).decode().splitlines()]


def proved_claims():
    """The claims, in order of their numbers, by the law that shows each: `accepts a b d m c k bound`, wherever it is cited."""
    texts = (file.read_text() for file in CRATES.glob("*/proofs/**/*.antt"))
    found = (map(int, numbers.split()) for text in texts for numbers in re.findall(r"\baccepts((?: \d+){7})\b", text))
    return sorted([a, b, d, m, c, k, 0, bound] for a, b, d, m, c, k, bound in found)


def lines_of(claims):
    return "".join(" ".join(map(str, claim)) + "\n" for claim in claims).encode()


def differs(n, a, b, d, m, c, k, t):
    return abs((m * n + c >> k) - (a * n + b) // d) > t


def check_ends(place, claim, largest):
    """Tries the bound of a claim and the largest input of the code."""
    *constants, bound = claim
    expect(differs(bound, *constants), f"the claim at place {place} has no difference at its bound")
    expect(not differs(largest, *constants), f"the claim at place {place} has a difference at the code's largest input")
    expect(largest < bound, f"the code's largest input is not below the bound at place {place}")


def changed(claims, place, number, by):
    """The claims with one number of one of them changed."""
    return [[n + by * (at == place and i == number) for i, n in enumerate(claim)] for at, claim in enumerate(claims)]


class Programs:
    def __init__(self, write_sheet, check_sheet, scan_claims):
        self.write_sheet, self.check_sheet, self.scan_claims = write_sheet, check_sheet, scan_claims

    def sheet_of(self, claims):
        return printed([self.write_sheet, NOTE], lines_of(claims))

    def verdicts(self, sheet):
        return printed([self.check_sheet], sheet).decode().splitlines()

    def scanned(self, claims):
        return printed([self.scan_claims], lines_of(claims)).decode().splitlines()


def check_changed(programs, claims):
    """Each claim with a bound or a multiplier one less and one more: it alone is not accepted."""
    for place, claim in enumerate(claims):
        right = [f"{at} accepted" for at in range(len(claims))]
        right[place] = f"{place} 11"
        lower = programs.verdicts(programs.sheet_of(changed(claims, place, BOUND, -1)))
        expect(lower == right, f"a bound one less at place {place}: {lower}")
        right[place] = f"{place} 10 {claim[BOUND]}"
        higher = programs.verdicts(programs.sheet_of(changed(claims, place, BOUND, 1)))
        expect(higher == right, f"a bound one more at place {place}: {higher}")
        for by in (-1, 1):
            other = changed(claims, place, MULTIPLIER, by)
            [scanned] = programs.scanned([other[place]])
            right[place] = f"{place} {scanned.removeprefix('0 ')}"
            expect(right[place].startswith(f"{place} 10 "), f"a multiplier changed by {by} at place {place}: {right[place]}")
            verdicts = programs.verdicts(programs.sheet_of(other))
            expect(verdicts == right, f"a multiplier changed by {by} at place {place}: {verdicts}")


def check_removed(programs, claims, sheet):
    """The sheet without one of its records is not the one that is written anew."""
    for place in range(len(claims)):
        expect(programs.sheet_of(claims[:place] + claims[place + 1:]) != sheet, f"the sheet does not need place {place}")


def check_copies(programs, sheet):
    """The crates with one fault."""
    for faults, of_claims in ((FAULTS_OF_CODE, False), (FAULTS_OF_CLAIMS, True)):
        for what, name, old, new, word in faults:
            with tempfile.TemporaryDirectory() as folder:
                crates = Path(folder) / "crates"
                shutil.copytree(CRATES, crates)
                shutil.copy(REPOSITORY / "crates.txt", folder)
                text = (crates / name).read_text()
                expect(text.count(old) == 1, f"{what} cannot be put into {name}")
                (crates / name).write_text(text.replace(old, new))
                status, said = run([LIST_CONSTANTS, "--code", crates])
                found = status == 1 and word.encode() in said if word else status == 0 and not said
                expect(found, f"{what}: status {status}, said\n{said.decode()}")
                expect((programs.sheet_of(claims_of(crates)) == sheet) != of_claims, f"{what}: the sheet that is listed")


def main(*arguments):
    programs = Programs(*arguments)
    claims, sheet = claims_of(CRATES), (REPOSITORY / "constants.sheet").read_bytes()
    largest = largest_inputs()
    expect(len(claims) == len(largest), f"there are {len(claims)} claims, and {len(largest)} largest inputs")
    proved = proved_claims()
    expect(sorted(claims) == proved, f"what is listed is not what is proved: {proved}")
    expect(programs.sheet_of(claims) == sheet, "constants.sheet is not what the claims make")
    accepted = [f"{place} accepted" for place in range(len(claims))]
    expect(programs.verdicts(sheet) == accepted, "check_sheet does not accept each claim")
    expect(programs.scanned(claims) == accepted, "a claim is not so when every n is tried")
    for place, claim in enumerate(claims):
        check_ends(place, claim, largest[place])
    status, said = run([LIST_CONSTANTS, "--code", CRATES])
    expect(status == 0 and not said, f"the code: {said.decode()}")
    check_changed(programs, claims)
    check_removed(programs, claims, sheet)
    check_copies(programs, sheet)
    print(f"constants: {len(claims)} claims ok, {5 * len(claims) + len(FAULTS_OF_CODE) + len(FAULTS_OF_CLAIMS)} faults tried")


main(*sys.argv[1:])
