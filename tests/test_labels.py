#!/usr/bin/env python3
"""Holds the reader of instant labels to a second one in Python: a regular expression for the shape, and datetime for the date.
Holds the writer to datetime too, over all the range.

Its argument is the archive, which is made a shared library for it.
"""
import ctypes
import os
import random
import re
import subprocess
import sys
import tempfile
from collections import Counter
from datetime import MINYEAR, datetime, timedelta, timezone

# Documents 01 and 02, request Three: capital letters or small ones.
SHAPE = re.compile(rb"(\d{4})-(\d\d)-(\d\d)[Tt](\d\d):(\d\d):(\d\d)\.(\d{3})[Zz]")
CAPITALS = b"2023-05-10T14:30:00.000Z"
T, Z = CAPITALS.index(b"T"), CAPITALS.index(b"Z")
FORMS = [(t, z) for t in b"Tt" for z in b"Zz"]
UNCHANGED = 77

# Document 02, request Eight; the years of labels are document 01's, and so are their instants.
FIRST_INSTANT, LAST_INSTANT = -1071989683200000, 947655244799999
LABEL_YEARS = range(0, 10000)
FIRST_LABEL_INSTANT, LAST_LABEL_INSTANT = -62167219200000, 253402300799999
BUFFER = b"?" * (len(CAPITALS) + 1)

EPOCH = datetime(1970, 1, 1, tzinfo=timezone.utc)
MILLISECOND = timedelta(milliseconds=1)
# A year that datetime does not have is moved by 400 years, which are 146097 days.
CYCLE_YEARS, CYCLE = 400, timedelta(days=146097)


def plain_reading(label):
    """What the call answers, and what its place holds then."""
    found = SHAPE.fullmatch(label)
    if not found:
        return -8, UNCHANGED
    year, month, day, hour, minute, second, millisecond = map(int, found.groups())
    cycles = int(year < MINYEAR)
    if not 1 <= month <= 12:
        return -2, UNCHANGED
    try:
        midnight = datetime(year + CYCLE_YEARS * cycles, month, day, tzinfo=timezone.utc)
    except ValueError:
        return -3, UNCHANGED
    try:
        moment = midnight.replace(hour=hour, minute=minute, second=second, microsecond=1000 * millisecond)
    except ValueError:
        return -5, UNCHANGED
    return 0, (moment - EPOCH - CYCLE * cycles) // MILLISECOND


def plain_writing(instant, length):
    """What the call answers, and what the buffer holds then."""
    if not FIRST_INSTANT <= instant <= LAST_INSTANT:
        return -4, BUFFER
    cycles, rest = divmod(instant, CYCLE // MILLISECOND)
    moment = EPOCH + rest * MILLISECOND
    year = moment.year + CYCLE_YEARS * cycles
    if year not in LABEL_YEARS:
        return -1, BUFFER
    if length < len(CAPITALS):
        return -7, BUFFER
    label = f"{year:04}-{moment:%m-%dT%H:%M:%S}.{moment.microsecond // 1000:03}Z".encode()
    return len(label), label + BUFFER[len(label):]


def letters(t, z):
    label = bytearray(CAPITALS)
    label[T], label[Z] = t, z
    return bytes(label)


def some_label(numbers):
    """Numbers of which few are wrong, in letters of any case."""
    t, z = numbers.choice(FORMS)
    year, month = numbers.randrange(10000), numbers.choice([0, 13, 99] + 8 * list(range(1, 13)))
    day = numbers.choice([0, 28, 29, 30, 31, 32, 99, numbers.randrange(1, 32)])
    hour, minute, second = (numbers.choice(6 * [numbers.randrange(last)] + [last, 99]) for last in (24, 60, 60))
    rest = f"{hour:02}:{minute:02}:{second:02}.{numbers.randrange(1000):03}"
    return f"{year:04}-{month:02}-{day:02}{t:c}{rest}{z:c}".encode()


def labels():
    """The labels that are tried."""
    numbers = random.Random(3)
    # every two bytes in place of the letters, and every byte in place of each one beside each form of them
    yield from (letters(t, z) for t in range(256) for z in range(256))
    for t, z in FORMS:
        for place in range(len(CAPITALS)):
            for byte in range(256):
                label = bytearray(letters(t, z))
                label[place] = byte
                yield bytes(label)
    yield from (some_label(numbers) for _ in range(100_000))
    # a byte too few, one too many, and none
    for t, z in FORMS:
        yield from (letters(t, z)[:-1], letters(t, z)[1:], letters(t, z) + b"Z", letters(t, z) + b"z")
    yield b""


def instants():
    """The instants that are tried: those of any year and those that have a label, and each end with what stands beside it."""
    numbers = random.Random(8)
    for first, last in (FIRST_INSTANT, LAST_INSTANT), (FIRST_LABEL_INSTANT, LAST_LABEL_INSTANT):
        yield from (first - 1, first, first + 1, last - 1, last, last + 1)
        yield from (numbers.randint(first, last) for _ in range(50_000))
    yield from (-2**63, -1, 0, 1, 2**63 - 1)


def function(library, name, *arguments):
    found = getattr(library, name)
    found.argtypes, found.restype = arguments, ctypes.c_int64
    return found


def try_reader(library):
    read = function(library, "ovenquill_read_instant", ctypes.c_char_p, ctypes.c_size_t, ctypes.POINTER(ctypes.c_int64))
    answers = []
    for label in labels():
        place = ctypes.c_int64(UNCHANGED)
        answer = read(label, len(label), ctypes.byref(place))
        if (answer, place.value) != plain_reading(label):
            sys.exit(f"FAILED: {label} is read as {answer} and {place.value}, by Python as {plain_reading(label)}")
        answers.append(answer)
    return answers


def try_writer(library):
    """Each instant with a buffer that is too short and with a longer one than the label needs."""
    write = function(library, "ovenquill_write_instant", ctypes.c_int64, ctypes.c_char_p, ctypes.c_size_t)
    answers = []
    for instant in instants():
        for length in len(CAPITALS) - 1, len(BUFFER):
            out = ctypes.create_string_buffer(BUFFER, len(BUFFER))
            answer = write(instant, out, length)
            if (answer, out.raw) != plain_writing(instant, length):
                sys.exit(f"FAILED: {instant} in {length} bytes is written as {answer} and {out.raw}, "
                         f"by Python as {plain_writing(instant, length)}")
            answers.append(answer)
    return answers


def count(answers, right):
    """How many answers there are, and how many of each kind; there must be the kinds that are right, and no other."""
    found = Counter(answers)
    if set(found) != right:
        sys.exit(f"FAILED: the answers are {sorted(found)}, and not {sorted(right)}")
    return f"{len(answers)}, answered by {dict(sorted(found.items()))}"


def main(archive):
    with tempfile.TemporaryDirectory() as folder:
        shared = os.path.join(folder, "ovenquill.so")
        whole = ["-Wl,--whole-archive", archive, "-Wl,--no-whole-archive"]
        subprocess.run([os.environ.get("CC", "cc"), "-shared", "-nostdlib", *whole, "-o", shared], check=True)
        library = ctypes.CDLL(shared)
        print("labels read as Python reads them:", count(try_reader(library), {-8, -5, -3, -2, 0}))
        print("instants written as Python writes them:", count(try_writer(library), {-7, -4, -1, len(CAPITALS)}))


main(*sys.argv[1:])
