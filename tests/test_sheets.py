#!/usr/bin/env python3
"""Holds the calls on sheets of claims and the program check_sheet to a second reader, writer and checker, in Python.

    test_sheets.py ANSWER_SHEETS CHECK_SHEET

The first argument is the program of tests/c/answer_sheets.c, which is asked about sheets; the second is check_sheet, which gets them
on its standard input: from pipes that deliver them whole, byte by byte and in odd pieces, and from files. A least difference is found
by trying every n up to a small bound, and beyond it only where it is known otherwise: by sums of quotients, or by the form of the
constants.
"""
import fcntl
import os
import random
import resource
import struct
import subprocess
import sys
import tempfile
import termios
import time
from collections import Counter
from functools import lru_cache

# Document 02, request Nine.
RECORD, TRAILER = struct.Struct("<8I"), struct.Struct("<3I")
MOST_BYTES, MOST_RECORDS = 65536, 1024
REPORT_BYTES = 18346
MALFORMED, TOO_SHORT = -17, -7

# Document 01, "Constants on trial": a, b, d, m, c, k, t and the claimed bound.
LIMITS = [(1, 1023), (0, 1023), (1, 1048575), (0, 2**32 - 1), (0, 2**32 - 1), (0, 47), (0, 255), (0, 2**32 - 2)]

UNCHANGED = 77
LAST_WORD = 2**32 - 1
# every n up to such a bound is tried
SCANNED = 400
# a program that takes longer is taken to hang
SECONDS = 120


def fail(words):
    sys.exit(f"FAILED: {words}")


# Claims

def sum_of_quotients(count, divisor, slope, start):
    """The sum of (slope*i + start) // divisor over every i below count."""
    total = 0
    while True:
        total += count * (count - 1) // 2 * (slope // divisor) + count * (start // divisor)
        slope, start = slope % divisor, start % divisor
        reached = slope * count + start
        if reached < divisor:
            return total
        count, start = divmod(reached, divisor)
        slope, divisor = divisor, slope


def is_one_sided(a, b, d, m, c, k, t):
    """Whether the device's quotient is nowhere below the exact one, or nowhere above it, and both must be the same."""
    slopes, starts = m * d - (a << k), c * d - (b << k)
    return t == 0 and (slopes >= 0 and starts >= 0 or slopes <= 0 and starts <= 0)


def is_nearly_one(a, b, d, m, c, k, t):
    """Whether the exact quotient is n, and the device's n + ((n + c) >> k)."""
    return (a, b, d, m) == (1, 0, 1, 2**k + 1)


def is_known(record):
    """Whether there is a way here to the verdict on a record."""
    *constants, bound = record
    return is_outside(record) or bound <= SCANNED or is_one_sided(*constants) or is_nearly_one(*constants)


def is_outside(record):
    return any(not first <= number <= last for number, (first, last) in zip(record, LIMITS))


def differs(n, a, b, d, m, c, k, t):
    return abs((m * n + c >> k) - (a * n + b) // d) > t


@lru_cache(maxsize=None)
def least_difference(constants, bound):
    """The least n up to the bound with a difference, or None where there is none."""
    a, b, d, m, c, k, t = constants
    if bound <= SCANNED:
        return next((n for n in range(bound + 1) if differs(n, *constants)), None)
    if is_nearly_one(*constants):
        least = max(0, (t + 1 << k) - c)
        return least if least <= bound else None
    if not is_one_sided(*constants):
        fail(f"there is no way to the least difference of {constants}")
    # the first count of n whose quotients do not add up to the same
    low, high = 0, bound + 2
    while high - low > 1:
        count = (low + high) // 2
        if sum_of_quotients(count, 1 << k, m, c) == sum_of_quotients(count, d, a, b):
            low = count
        else:
            high = count
    return low if low <= bound else None


def verdict(record):
    """What the check answers to a record, and its least n."""
    *constants, bound = record
    if is_outside(record):
        return -9, UNCHANGED
    least = least_difference(tuple(constants), bound)
    if least is None:
        return -11, UNCHANGED
    return (0, UNCHANGED) if least == bound else (-10, least)


# Sheets

def sheet_of(note, records):
    """The bytes of a note and of any number of records."""
    length = len(note) + RECORD.size * len(records) + TRAILER.size
    return note + b"".join(RECORD.pack(*record) for record in records) + TRAILER.pack(len(note), len(records), length)


def parts_of(sheet):
    """The note and the records that the bytes are the sheet of, or None."""
    if not TRAILER.size <= len(sheet) <= MOST_BYTES:
        return None
    offset = int.from_bytes(sheet[-12:-8], "little")
    note, body = sheet[:offset], sheet[offset:-TRAILER.size]
    if len(body) % RECORD.size or len(body) // RECORD.size > MOST_RECORDS:
        return None
    records = list(RECORD.iter_unpack(body))
    return (note, records) if sheet_of(note, records) == sheet else None


def report_of(sheet):
    parts = parts_of(sheet)
    if parts is None:
        return b"17\n"
    lines = []
    for place, record in enumerate(parts[1]):
        answer, least = verdict(record)
        words = {0: "accepted", -9: "9", -10: f"10 {least}", -11: "11"}[answer]
        lines.append(f"{place} {words}\n")
    return "".join(lines).encode()


# Claims and sheets to try

REQUEST = [(1, 0, 10, 26, 0, 8, 0, 69), (1, 0, 10, 26, 0, 8, 0, 100)]


def near_claim(numbers):
    """Constants that are meant to divide, a little wrong, and a bound that is tried n by n."""
    a = numbers.randint(1, numbers.choice((3, 1023)))
    b, d = numbers.randint(0, numbers.choice((0, 1023))), numbers.randint(a, numbers.choice((a + 50, 1048575)))
    k = numbers.randint(0, 31)
    m, c = (a << k) // d + numbers.randint(0, 2), (b << k) // d + numbers.randint(0, 1)
    t = numbers.choice((0, 0, 0, 1, 255))
    constants = a, b, d, m, c, k, t
    least = least_difference(constants, SCANNED) if c <= LAST_WORD else None
    if c > LAST_WORD or least is None or numbers.random() < 0.3:
        return a, b, d, m, min(c, LAST_WORD), k, t, numbers.randint(0, SCANNED)
    return *constants, max(0, min(SCANNED, least + numbers.choice((-1, 0, 0, 1, 2))))


def one_sided_claim(numbers):
    """Constants rounded up or down alone, as compilers choose them, and a bound beside their least difference or anywhere."""
    while True:
        a, d, k = numbers.randint(1, 5), numbers.randint(1, 1048575), numbers.randint(8, 47)
        up = numbers.random() < 0.7
        b = numbers.choice((0, numbers.randint(0, 1023))) if up else 0
        m, c = -(-(a << k) // d) if up else (a << k) // d, -(-(b << k) // d)
        constants = a, b, d, m, c, k, 0
        if m <= LAST_WORD and c <= LAST_WORD:
            break
    least = least_difference(constants, 2**32 - 2)
    if least is None or numbers.random() < 0.2:
        return *constants, numbers.randint(0, 2**32 - 2)
    return *constants, max(0, min(2**32 - 2, least + numbers.choice((-1, 0, 0, 1, 2**31))))


def far_claim(numbers):
    """Constants whose form tells the least difference, which may be any number."""
    k = numbers.randint(0, 31)
    t = numbers.randint(0, min(255, 2**(32 - k) - 1))
    c = numbers.randint(0, min(LAST_WORD, t + 1 << k))
    least = (t + 1 << k) - c
    return 1, 0, 1, 2**k + 1, c, k, t, max(0, min(2**32 - 2, least + numbers.choice((-1, 0, 0, 1, 1000))))


def outside_claim(numbers):
    """A claim with a number beside or far outside its limits, or any numbers at all."""
    if numbers.random() < 0.3:
        return tuple(numbers.getrandbits(32) for _ in LIMITS)
    claim = list(near_claim(numbers))
    place = numbers.choice([place for place, (_, last) in enumerate(LIMITS) if last < LAST_WORD])
    first, last = LIMITS[place]
    claim[place] = numbers.choice((last + 1, LAST_WORD) + ((0,) if first else ()))
    return tuple(claim)


def claims_to_try(numbers):
    """Claims of every kind, of which there is a way here to the verdict."""
    kinds = [near_claim, one_sided_claim, far_claim, outside_claim]
    found = [kind(numbers) for _ in range(1500) for kind in kinds] + REQUEST
    return [claim for claim in found if is_known(claim)]


def some_bytes(numbers, most):
    return numbers.randbytes(numbers.randint(0, most))


def with_trailer(sheet, offset, records, length):
    return sheet[:-TRAILER.size] + TRAILER.pack(offset & LAST_WORD, records & LAST_WORD, length & LAST_WORD)


def random_sheets(numbers, claims):
    for most_records, most_note, times in ((6, 80, 400), (60, 3000, 40), (1, MOST_BYTES - 44, 20), (MOST_RECORDS, 32000, 6)):
        for _ in range(times):
            yield sheet_of(some_bytes(numbers, most_note), numbers.choices(claims, k=numbers.randint(0, most_records)))
    yield from (some_bytes(numbers, 90) for _ in range(100))


def damaged_sheets(numbers, claims):
    """Each number of a trailer off by one, by a record or a power of two, at its ends, or its bytes turned round; and others."""
    for note_length, count in ((0, 0), (0, 1), (5, 0), (7, 2), (44, 1), (300, 3), (12, 300), (9, MOST_RECORDS)):
        sheet = sheet_of(numbers.randbytes(note_length), numbers.choices(claims, k=count))
        right = note_length, count, len(sheet)
        for place, number in enumerate(right):
            others = [number + sign * step for sign in (-1, 1) for step in (1, 12, 32, 2**8, 2**16, 2**24, 2**27, 2**31)]
            for other in [*others, 0, LAST_WORD, int.from_bytes(number.to_bytes(4, "little"), "big")]:
                yield with_trailer(sheet, *right[:place], other, *right[place + 1:])
        for cut in (1, 2, 4, 12, 31, 32, 33, 44):
            yield from (sheet[cut:], sheet[:-cut], sheet + bytes(cut), bytes(cut) + sheet, sheet + sheet[-cut:])
        yield from (sheet + b"\n", sheet + b"\r\n", b"\n" + sheet)
        # records in the note, and bytes of the note that are taken for records
        for moved in (1, 2, -1, -2):
            yield with_trailer(sheet, note_length + 32 * moved, count - moved, len(sheet))
        # sums that are the length modulo 2^32
        for more in (1, 2, 3, 500, MOST_RECORDS - count, 2**27, 2**27 + 1, 31 * 2**27):
            yield with_trailer(sheet, note_length - 32 * more, count + more, len(sheet))
    # a byte anywhere, but in the claims as they are
    for _ in range(300):
        note, records = some_bytes(numbers, 60), numbers.choices(claims, k=numbers.randint(0, 3))
        sheet = bytearray(sheet_of(note, records))
        place = numbers.choice([*range(len(note)), *range(len(sheet) - TRAILER.size, len(sheet))])
        sheet[place] = numbers.getrandbits(8)
        yield bytes(sheet)


def sheets_of_lengths(numbers, claims):
    """Every length around 12, 44 and the most bytes, and numbers of records around the most, with trailers that say so."""
    for length in [*range(0, 80), *range(MOST_BYTES - 20, MOST_BYTES + 21), 2 * MOST_BYTES, 2 * MOST_BYTES + 44, 1_000_000]:
        yield bytes(length)
        for count in (0, 1, 2, MOST_RECORDS):
            note_length = length - TRAILER.size - RECORD.size * count
            if note_length >= 0:
                yield sheet_of(bytes(note_length), numbers.choices(claims, k=count))
    for count in (MOST_RECORDS - 1, MOST_RECORDS, MOST_RECORDS + 1, MOST_RECORDS + 2, 1500, 2047, 2048):
        yield from (sheet_of(note, numbers.choices(claims, k=count)) for note in (b"", b"x"))


def sheets_like_trailers(numbers, claims):
    """Notes that are a trailer, the sheet's own one, or a sheet; and records that look like a trailer."""
    sheet = b""
    for count in (0, 1, 2, 5):
        records = numbers.choices(claims, k=count)
        length = TRAILER.size + RECORD.size * count + TRAILER.size
        yield sheet_of(TRAILER.pack(12, count, length), records)
        yield sheet_of(TRAILER.pack(0, 0, 12), records)
        sheet = sheet_of(sheet, records)
        yield sheet
        last = (1, 0, 10, 26, 0, 0, 0, 0) if count == 0 else (1, 0, 10, 26, 0, 12, count, length)
        yield sheet_of(TRAILER.pack(12, count, length), [*records[1:], last])


def longest_report():
    """As many records as there may be, each with a least n of ten digits."""
    least = 2**31 - 7
    return sheet_of(b"", [(1, 0, 1, 2**31 + 1, 7, 31, 0, least + 1 + place) for place in range(MOST_RECORDS)])


def sheets_to_try(numbers, claims):
    yield sheet_of(b"", REQUEST)
    yield sheet_of(b"tenths", REQUEST)
    yield longest_report()
    for sheets in random_sheets, damaged_sheets, sheets_of_lengths, sheets_like_trailers:
        for sheet in sheets(numbers, claims):
            parts = parts_of(sheet)
            if parts is None or all(is_known(record) for record in parts[1]):
                yield sheet


# The library's answers

class Answers:
    """What answer_sheets wrote, read from the front."""

    def __init__(self, written):
        self.written, self.place = written, 0

    def numbers(self, count):
        found = struct.unpack_from(f"={count}q", self.written, self.place)
        self.place += 8 * count
        return found

    def bytes(self, count):
        self.place += count
        return self.written[self.place - count:self.place]


def ask(answer_sheets, questions):
    done = subprocess.run([answer_sheets], input=b"".join(questions), stdout=subprocess.PIPE, timeout=SECONDS)
    if done.returncode != 0:
        fail(f"status {done.returncode} of {answer_sheets}")
    return Answers(done.stdout)


def same(what, sheet, got, right):
    if got != right:
        fail(f"{what} of a sheet of {len(sheet)} bytes that ends with {sheet[-12:].hex(' ', 4)} is {got}, by Python {right}")


def compare_reading(answers, sheet):
    parts, text = parts_of(sheet), report_of(sheet)
    note, records = parts or (b"", [])
    same("the number of records", sheet, answers.numbers(2), (len(records), len(note)) if parts else (MALFORMED, UNCHANGED))
    for place in range(-1, max(len(records), 0) + 1):
        has_record = 0 <= place < len(records)
        record = (0, *records[place]) if has_record else (MALFORMED,) + 8 * (UNCHANGED,)
        same(f"record {place}", sheet, answers.numbers(9), record)
        right = verdict(record[1:]) if has_record else (MALFORMED, UNCHANGED)
        same(f"the verdict on record {place}", sheet, answers.numbers(2), right)
    same("the length of the report", sheet, answers.numbers(1), (len(text),))
    for room in (len(text) - 1, len(text), len(text) + 9):
        if room >= 0:
            answer, right = (len(text), text) if room >= len(text) else (TOO_SHORT, b"")
            same(f"the answer in {room} bytes", sheet, answers.numbers(1), (answer,))
            same("the report", sheet, answers.bytes(room), right.ljust(room, bytes([UNCHANGED])))


def try_reading(answer_sheets, sheets):
    """Compares what is read of the sheets."""
    answers = ask(answer_sheets, (b"R" + struct.pack("=I", len(sheet)) + sheet for sheet in sheets))
    for sheet in sheets:
        compare_reading(answers, sheet)
    if answers.place != len(answers.written):
        fail("there are more answers about sheets than questions")


def writing_of(note, numbers, room):
    """What the writer answers, and what the buffer holds then."""
    length = len(note) + 4 * len(numbers) + TRAILER.size
    kept = bytes([UNCHANGED]) * room
    if len(numbers) % 8 or len(numbers) > 8 * MOST_RECORDS or length > MOST_BYTES:
        return MALFORMED, kept
    if room < length:
        return TOO_SHORT, kept
    return length, sheet_of(note, list(zip(*[iter(numbers)] * 8))) + kept[length:]


def writings_to_try(numbers):
    """Notes, numbers and lengths of buffers: small ones, notes of each length from 0 to 299 bytes, and those around the most bytes
    and records."""
    pairs = [(numbers.randint(0, 60), numbers.randint(0, 40)) for _ in range(600)]
    pairs += [(numbers.randint(0, 60), 8 * numbers.randint(0, 40)) for _ in range(600)]
    pairs += [(note, count) for note in range(300) for count in (0, 8)]
    pairs += [(note, count) for count in (0, 1, 7, 8, 8184, 8188, 8191, 8192, 8193, 8196, 8199, 8200)
              for note in (0, 1, *range(MOST_BYTES - 4 * count - 14, MOST_BYTES - 4 * count - 9), MOST_BYTES, MOST_BYTES + 1)]
    for note_length, count in pairs:
        length = note_length + 4 * count + TRAILER.size
        note = numbers.randbytes(note_length)
        words = [numbers.choice((0, 255, 2**31, LAST_WORD, numbers.getrandbits(32))) for _ in range(count)]
        for room in {0, length - TRAILER.size, length - 1, length, length + 1, length + 40}:
            yield note, words, room


def try_writing(answer_sheets, numbers):
    """Compares what is written; answers how often each refusal came, and how many sheets were written."""
    writings = list(writings_to_try(numbers))
    heads = (struct.pack("=3I", len(note), len(words), room) for note, words, room in writings)
    tails = (note + struct.pack(f"={len(words)}I", *words) for note, words, _ in writings)
    answers = ask(answer_sheets, (b"W" + head + tail for head, tail in zip(heads, tails)))
    found = Counter()
    for note, words, room in writings:
        answer, out = writing_of(note, words, room)
        got = answers.numbers(1)[0]
        if (got, answers.bytes(room)) != (answer, out):
            fail(f"a note of {len(note)} bytes and {len(words)} numbers in {room} bytes: the writer answers {got}, by Python "
                 f"{answer}, or leaves other bytes")
        found[min(got, 0)] += 1
        if answer > 0 and parts_of(out[:answer]) != (note, list(zip(*[iter(words)] * 8))):
            fail("a written sheet, read back, gives another note or other records")
    if answers.place != len(answers.written):
        fail("there are more answers about writing than questions")
    return found


# The program

def told(title, done, right):
    """Holds what the program printed, with no word on standard error and no other status than 0."""
    if (done.stdout, done.stderr, done.returncode) != (right, b"", 0):
        fail(f"check_sheet on {title} prints {done.stdout[:200]} and {done.stderr[:200]} with status {done.returncode}, "
             f"by Python {right[:200]}")


def try_whole(check_sheet, sheets):
    """Sheets from a pipe as fast as it takes them, and every other one from a file."""
    with tempfile.TemporaryFile() as file:
        for place, sheet in enumerate(sheets):
            title = f"a sheet of {len(sheet)} bytes that ends with {sheet[-12:].hex(' ', 4)}"
            if place % 2:
                file.seek(0)
                file.truncate()
                file.write(sheet)
                file.seek(0)
                done = subprocess.run([check_sheet], stdin=file, capture_output=True, timeout=SECONDS)
            else:
                done = subprocess.run([check_sheet], input=sheet, capture_output=True, timeout=SECONDS)
            told(title, done, report_of(sheet))


def waiting_bytes(pipe):
    found = bytearray(4)
    fcntl.ioctl(pipe, termios.FIONREAD, found)
    return int.from_bytes(found, sys.byteorder)


def try_pieces(check_sheet, title, sheet, lengths):
    """Delivers a sheet in pieces, each only when the program has taken the one before; nothing may be printed before the end."""
    with subprocess.Popen([check_sheet], stdin=subprocess.PIPE, stdout=subprocess.PIPE, stderr=subprocess.PIPE) as running:
        pipe, place, deadline = running.stdin.fileno(), 0, time.monotonic() + SECONDS
        for length in lengths:
            try:
                os.write(pipe, sheet[place:place + length])
            except BrokenPipeError:
                fail(f"check_sheet on {title} ends before its input does")
            place += length
            while waiting_bytes(pipe):
                if running.poll() is not None or time.monotonic() > deadline:
                    running.kill()
                    fail(f"check_sheet on {title} does not read its input to the end")
        if place < len(sheet):
            fail(f"the pieces of {title} are too short")
        if waiting_bytes(running.stdout.fileno()):
            fail(f"check_sheet on {title} prints before its input has ended")
        out, err = running.communicate(timeout=SECONDS)
    told(title, subprocess.CompletedProcess([], running.returncode, out, err), report_of(sheet))


def odd_pieces(numbers, length, most):
    while length > 0:
        piece = min(length, numbers.randint(1, most))
        yield piece
        length -= piece


def try_all_pieces(check_sheet, numbers, claims):
    """Sheets in pieces; answers how many."""
    small, no_sheet = sheet_of(b"tenths", REQUEST), sheet_of(b"", REQUEST)[:-1]
    full = sheet_of(numbers.randbytes(MOST_BYTES - 12 - 32 * 1000), numbers.choices(claims, k=1000))
    too_long = sheet_of(bytes(MOST_BYTES + 1 - 44), REQUEST[:1])
    million = sheet_of(bytes(1_000_000 - 12 - 32 * 1000), numbers.choices(claims, k=1000))
    pieces = [
        ("a sheet byte by byte", small, [1] * len(small)),
        ("no sheet byte by byte", no_sheet, [1] * len(no_sheet)),
        ("nothing", b"", []),
        ("a byte", b"x", [1]),
        ("a sheet without records byte by byte", sheet_of(b"", []), [1] * 12),
        ("the longest sheet byte by byte", full, [1] * len(full)),
        ("a byte too many byte by byte", too_long, [1] * len(too_long)),
        ("the longest sheet and a byte more", full + b"x", [MOST_BYTES, 1]),
        ("a byte and the longest sheet", b"x" + full, [1, 1, MOST_BYTES - 1]),
        ("a byte too many, the trailer alone at last", too_long, [MOST_BYTES + 1 - 12, 12]),
        ("a million bytes", million, [MOST_BYTES // 2] * (1_000_000 * 2 // MOST_BYTES + 1)),
        ("zeros and then the longest sheet", bytes(MOST_BYTES) + full, [MOST_BYTES, MOST_BYTES]),
        ("the longest sheet and then zeros", full + bytes(MOST_BYTES), [MOST_BYTES, MOST_BYTES]),
        ("the longest sheet twice", full + full, [MOST_BYTES, MOST_BYTES]),
    ]
    for most in 3, 31, 100, 4095, 4097, 40000:
        for sheet in small, full, too_long, million, sheet_of(b"abc", numbers.choices(claims, k=200)):
            if len(sheet) // most < 5000:
                title = f"{len(sheet)} bytes in pieces of up to {most}"
                pieces.append((title, sheet, list(odd_pieces(numbers, len(sheet), most))))
    for title, sheet, lengths in pieces:
        try_pieces(check_sheet, title, sheet, lengths)
    return len(pieces)


def try_trouble(title, command, right_output, **how):
    """A read or a write that fails is told on standard error, by whole lines, and the program ends with status 1."""
    done = subprocess.run(command, stderr=subprocess.PIPE, timeout=SECONDS, **how)
    if not done.stderr.endswith(b"\n") or done.returncode != 1:
        fail(f"check_sheet with {title} says {done.stderr} on standard error, with status {done.returncode}")
    if done.stdout is not None and done.stdout != right_output:
        fail(f"check_sheet with {title} prints {done.stdout[:200]}")


def try_all_troubles(check_sheet, sheet):
    """Input that cannot be read and output that cannot be written; answers how many there were."""
    text = report_of(sheet)
    unread = [("no standard input", "<&-"), ("a folder for its input", '< "$1"'), ("input that is open to write", '0> "$2"')]
    unwritten = [("no standard output", ">&-"), ("output that is open to read", '1< "$1"')]
    with tempfile.TemporaryDirectory() as folder, open("/dev/full", "wb") as full:
        file = os.path.join(folder, "file")
        with open(file, "wb") as out:
            out.write(sheet)
        for title, redirection in unread:
            command = ["sh", "-c", f'exec "$0" {redirection}', check_sheet, folder, os.path.join(folder, "other")]
            try_trouble(title, command, b"", stdout=subprocess.PIPE)
        for title, redirection in unwritten:
            try_trouble(title, ["sh", "-c", f'exec "$0" {redirection}', check_sheet, file], None, input=sheet)
        try_trouble("a full device", [check_sheet], None, input=sheet, stdout=full)
        # a reader that has gone, and no signal of that
        reader, writer = os.pipe()
        os.close(reader)
        try_trouble("output that nobody reads", [check_sheet], None, input=sheet, stdout=writer, restore_signals=False)
        os.close(writer)
        # a file that takes the first bytes only, and no signal of that
        short = os.path.join(folder, "short")
        with open(short, "wb") as out:
            try_trouble("a file that is full after some bytes", [check_sheet], None, input=sheet, stdout=out, restore_signals=False,
                        preexec_fn=lambda: resource.setrlimit(resource.RLIMIT_FSIZE, (100, 100)))
        with open(short, "rb") as out:
            if out.read() != text[:100]:
                fail("a file that is full after 100 bytes has others than the first ones")
    return len(unread) + len(unwritten) + 3


def main(answer_sheets, check_sheet):
    answer_sheets, check_sheet = os.path.abspath(answer_sheets), os.path.abspath(check_sheet)
    numbers = random.Random(9)
    claims = claims_to_try(numbers)
    sheets = list(sheets_to_try(numbers, claims))
    right = [parts_of(sheet) for sheet in sheets]
    verdicts = Counter(verdict(record)[0] for parts in right if parts for record in parts[1])
    if set(verdicts) != {0, -9, -10, -11} or None not in right or len(report_of(longest_report())) != REPORT_BYTES:
        fail("the sheets that are tried have not every verdict, or none is refused, or none has the longest report")
    try_reading(answer_sheets, sheets)
    print(f"sheets read as Python reads them: {len(sheets)}, {right.count(None)} of them refused, with records that are answered by "
          f"{dict(sorted(verdicts.items()))}")
    written = try_writing(answer_sheets, numbers)
    if set(written) != {0, MALFORMED, TOO_SHORT}:
        fail(f"the writer's answers are {sorted(written)}")
    print(f"sheets written as Python writes them: {written[0]}, and {written[MALFORMED]} refused with 17, {written[TOO_SHORT]} with 7")
    try_whole(check_sheet, sheets)
    pieces = try_all_pieces(check_sheet, numbers, claims)
    troubles = try_all_troubles(check_sheet, longest_report())
    print(f"check_sheet prints what Python does: {len(sheets)} sheets whole, {pieces} in pieces; and it tells of {troubles} reads and "
          "writes that failed")


main(*sys.argv[1:])
