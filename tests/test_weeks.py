#!/usr/bin/env python3
"""Holds week dates and their labels to those of Python's datetime: every day of the calendar there and back, and the first and the
last week dates of every week year, with those beside them.

Its argument is the program of tests/c/all_weeks.c, whose numbers it compares. datetime is asked about one cycle of 400 years, which
are 146097 days and whole weeks; the other cycles are this one moved.
"""
import subprocess
import sys
from array import array
from datetime import date

# Document 02, requests Seven and Eight. The first year begins a cycle, and the range is whole cycles.
FIRST_YEAR = -32000
FIRST_COUNT, LAST_COUNT = -12407288, 10968231
FIRST_WEEK_YEAR, LAST_WEEK_YEAR = -32001, 31999
LABEL_YEARS = range(0, 10000)
LABEL_BYTES = 10

UNCHANGED = 77
NO_LABEL = b"?" * LABEL_BYTES

CYCLE_YEARS, CYCLE = 400, 146097
# the first year of a cycle that datetime has, and the number of its first day there
ASKED_YEAR = 2000
ASKED_DAY = date(ASKED_YEAR, 1, 1).toordinal()

# What the program writes of each day, in its order, and the day's label behind them.
NUMBERS = ["week year", "week", "weekday", "answer with the week date", "day of the week date", "answer with that day",
           "answer of the writer", "day of the label", "answer of the reader"]


def numbers(values):
    found = array("i", values)
    if found.itemsize != 4:
        sys.exit("FAILED: this Python has no numbers of 32 bits by that name")
    return found


# By the places of the days in a cycle: the years from its first one to the week year, the week and the weekday.
WEEK_DATES = [date.fromordinal(ASKED_DAY + place).isocalendar() for place in range(CYCLE)]
YEARS_ON = [year - ASKED_YEAR for year, _, _ in WEEK_DATES]
WEEKS = numbers(week for _, week, _ in WEEK_DATES)
WEEKDAYS = numbers(weekday for _, _, weekday in WEEK_DATES)
DONE = numbers([0]) * CYCLE


def right_labels(first_year, first_day):
    """What the writer answers, the days that are read, what the reader answers, and the labels, of the days of a cycle."""
    if first_year - 1 not in LABEL_YEARS and first_year + CYCLE_YEARS - 1 not in LABEL_YEARS:
        return numbers([-1]) * CYCLE, numbers([UNCHANGED]) * CYCLE, numbers([-8]) * CYCLE, NO_LABEL * CYCLE
    written, read, answers, labels = [], [], [], []
    for place, (years_on, week, weekday) in enumerate(zip(YEARS_ON, WEEKS, WEEKDAYS)):
        has_label = first_year + years_on in LABEL_YEARS
        written.append(LABEL_BYTES if has_label else -1)
        read.append(first_day + place if has_label else UNCHANGED)
        answers.append(0 if has_label else -8)
        labels.append(b"%04d-W%02d-%d" % (first_year + years_on, week, weekday) if has_label else NO_LABEL)
    return numbers(written), numbers(read), numbers(answers), b"".join(labels)


def right_cycle(cycle):
    """The numbers of the days of a cycle, in the order of NUMBERS, and their labels."""
    first_year, first_day = FIRST_YEAR + CYCLE_YEARS * cycle, FIRST_COUNT + CYCLE * cycle
    years = numbers([first_year + years_on for years_on in YEARS_ON])
    days = numbers(range(first_day, first_day + CYCLE))
    *label_numbers, labels = right_labels(first_year, first_day)
    return [years, WEEKS, WEEKDAYS, DONE, days, DONE, *label_numbers], labels


def first_wrong_day(cycle, got, right, right_labels):
    """The first day of a cycle of which something is wrong, and what is."""
    labels_at = sum(len(kind.tobytes()) for kind in right)
    got_numbers, labels = memoryview(got)[:labels_at].cast("i"), got[labels_at:]
    for place in range(CYCLE):
        pairs = [(got_numbers[CYCLE * kind + place], right[kind][place]) for kind in range(len(NUMBERS))]
        pairs.append(tuple(text[LABEL_BYTES * place:LABEL_BYTES * (place + 1)] for text in (labels, right_labels)))
        faults = [f"{what} {one}, by Python {other}" for what, (one, other) in zip([*NUMBERS, "label"], pairs) if one != other]
        if faults:
            return f"day {FIRST_COUNT + CYCLE * cycle + place}: " + "; ".join(faults)


def compare_days(written):
    """Compares what the program wrote of every day, cycle by cycle; answers how many days there were."""
    cycles = (LAST_COUNT + 1 - FIRST_COUNT) // CYCLE
    for cycle in range(cycles):
        right, labels = right_cycle(cycle)
        right_bytes = b"".join([*right, labels])
        got = written.read(len(right_bytes))
        if len(got) != len(right_bytes):
            sys.exit(f"FAILED: the program ended in the cycle of the year {FIRST_YEAR + CYCLE_YEARS * cycle}")
        if got != right_bytes:
            sys.exit(f"FAILED: {first_wrong_day(cycle, got, right, labels)}")
    return cycles * CYCLE


def place_of_week_date(year_of_cycle, week, weekday):
    """The place of a week date's day in the cycle of its year, or None where the year has no such week or weekday."""
    try:
        return date.fromisocalendar(ASKED_YEAR + year_of_cycle, week, weekday).toordinal() - ASKED_DAY
    except ValueError:
        return None


WEEK_AND_WEEKDAY = [(week, weekday) for week in (0, 1, 52, 53, 54) for weekday in (0, 1, 5, 6, 7, 8)]
PLACES = [[place_of_week_date(year, *rest) for rest in WEEK_AND_WEEKDAY] for year in range(CYCLE_YEARS)]


def right_week_date(year, place):
    """What the place of the call holds then, and what it answers."""
    if not FIRST_WEEK_YEAR <= year <= LAST_WEEK_YEAR:
        return UNCHANGED, -1
    if place is None:
        return UNCHANGED, -16
    days = FIRST_COUNT + (year - FIRST_YEAR) // CYCLE_YEARS * CYCLE + place
    return (days, 0) if FIRST_COUNT <= days <= LAST_COUNT else (UNCHANGED, -4)


def compare_week_dates(written):
    """Compares the days of the week dates, year by year; answers how many week dates there were."""
    years = range(FIRST_WEEK_YEAR - 1, LAST_WEEK_YEAR + 2)
    for year in years:
        right = [right_week_date(year, place) for place in PLACES[(year - FIRST_YEAR) % CYCLE_YEARS]]
        right_bytes = numbers(number for pair in right for number in pair).tobytes()
        got = written.read(len(right_bytes))
        if got != right_bytes:
            pairs = memoryview(got).cast("i").tolist()
            for (week, weekday), one, other in zip(WEEK_AND_WEEKDAY, zip(pairs[::2], pairs[1::2]), right):
                if one != other:
                    sys.exit(f"FAILED: year {year}, week {week}, weekday {weekday}: day and answer {one}, by Python {other}")
            sys.exit(f"FAILED: the program ended in the week dates of the year {year}")
    return len(years) * len(WEEK_AND_WEEKDAY)


def main(program):
    with subprocess.Popen([program], stdout=subprocess.PIPE) as running:
        days = compare_days(running.stdout)
        week_dates = compare_week_dates(running.stdout)
        if running.stdout.read(1):
            sys.exit("FAILED: the program wrote more than the days and week dates there are")
    if running.returncode != 0:
        sys.exit(f"FAILED: status {running.returncode} of {program}")
    print(f"week dates as Python has them: {days} days, and {week_dates} week dates of their years' ends")


main(*sys.argv[1:])
