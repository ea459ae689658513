#!/usr/bin/env python3
"""Prints the first and the last day of every month of the calendar, from Python's datetime.

    dates.py [STEP]      those of every STEP-th year, from the first year on; of every year without it

A line for each month; for each of the two days: year, month, day, the days from 1970-01-01, and the weekday as ISO 8601
numbers it. Shares nothing with the library: it is what the program `dates` and tests/c/all_dates.c are held to. A year that
datetime does not have is moved by cycles of 400 years into those that it has; a cycle is 146097 days, which are whole weeks.
"""
import sys
from datetime import MAXYEAR, MINYEAR, date, timedelta

# Document 02, request Eight.
FIRST_YEAR, LAST_YEAR = -32000, 31999

CYCLE_YEARS, CYCLE_DAYS = 400, 146097
EPOCH = date(1970, 1, 1).toordinal()


def cycles_into_datetime(year):
    """By how many cycles a year is moved."""
    cycles = 0
    while year + CYCLE_YEARS * cycles < MINYEAR:
        cycles += 1
    while year + CYCLE_YEARS * cycles > MAXYEAR:
        cycles -= 1
    return cycles


def shown(day, cycles):
    """A day, moved back."""
    year = day.year - CYCLE_YEARS * cycles
    count = day.toordinal() - EPOCH - CYCLE_DAYS * cycles
    return f"{year} {day.month} {day.day} {count} {day.isoweekday()}"


def lines(step):
    for year in range(FIRST_YEAR, LAST_YEAR + 1, step):
        cycles = cycles_into_datetime(year)
        for month in range(1, 13):
            first = date(year + CYCLE_YEARS * cycles, month, 1)
            # the last day of a month is the one before the next month's first; December has 31 days
            last = first.replace(day=31) if month == 12 else first.replace(month=month + 1) - timedelta(days=1)
            yield f"{shown(first, cycles)} {shown(last, cycles)}"


def main(step=1):
    print("\n".join(lines(int(step))))


main(*sys.argv[1:])
