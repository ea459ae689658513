//! Days, dates and weekdays, every call, against a table of all days that is built by stepping from each day to the next
//! (tests/support/plain.rs), and against the rows of document 01 and of change request Eight; and the three ways to a date of change
//! request Ten against that table, which holds them to each other.

mod support;

use ovenquill::{
    add_days, civil_from_days, civil_from_days_audit, civil_from_days_plain, day_of_year, days_from_civil, is_leap,
    last_day_of_month, weekday, Date, Refusal, Weekday, DAYS, MONTHS, YEARS,
};
use support::answer::answer;
use support::answer::Answer::{Refused, Value};
use support::plain::{self, FIRST_DAY, FIRST_LABEL_YEAR, FIRST_YEAR, LAST_DAY, LAST_LABEL_YEAR, LAST_YEAR};
use support::random::Random;

/// The three ways to a date.
const WAYS: [fn(i64) -> Result<Date, Refusal>; 3] = [civil_from_days, civil_from_days_plain, civil_from_days_audit];

/// Holds every answer about a count to the table, but for the audit way's.
fn try_count(days: i64) {
    let date = plain::civil_from_days(days);
    assert_eq!(answer(civil_from_days(days)), date, "the date of {days}");
    assert_eq!(answer(civil_from_days_plain(days)), date, "the date of {days} by divisions");
    let of_week = weekday(days).map(|weekday| (weekday.number(), weekday.name()));
    assert_eq!(answer(of_week), plain::weekday(days), "the weekday of {days}");
}

/// The same with the audit way, which takes too long to be tried on every day.
fn try_every_way(days: i64) {
    try_count(days);
    assert_eq!(answer(civil_from_days_audit(days)), plain::civil_from_days(days), "the date of {days} by an audit");
}

/// Holds every answer about a date to the table.
fn try_date(date: Date) {
    assert_eq!(answer(days_from_civil(date)), plain::days_from_civil(date), "{date:?}");
    assert_eq!(answer(day_of_year(date)), plain::day_of_year(date), "{date:?}");
}

/// Holds a count and a date to each other.
fn try_row(days: i64, date: Date) {
    for way in WAYS {
        assert_eq!(way(days), Ok(date));
    }
    assert_eq!(days_from_civil(date), Ok(days));
}

fn try_month(year: i64, month: i64) {
    assert_eq!(answer(last_day_of_month(year, month)), plain::last_day_of_month(year, month), "{year} {month}");
}

fn try_shift(date: Date, days: i64) {
    assert_eq!(answer(add_days(date, days)), plain::add_days(date, days), "{date:?} {days}");
}

#[test]
fn ranges_of_document_01_and_change_request_eight() {
    assert_eq!(YEARS, FIRST_YEAR..=LAST_YEAR);
    assert_eq!(MONTHS, 1..=12);
    assert_eq!(DAYS, FIRST_DAY..=LAST_DAY);
}

#[test]
fn rows_of_document_01() {
    for (days, year, month, day) in [
        (-719528, 0, 1, 1),
        (-719469, 0, 2, 29),
        (-719468, 0, 3, 1),
        (-25509, 1900, 2, 28),
        (-25508, 1900, 3, 1),
        (-1, 1969, 12, 31),
        (0, 1970, 1, 1),
        (11016, 2000, 2, 29),
        (19487, 2023, 5, 10),
        (47540, 2100, 2, 28),
        (47541, 2100, 3, 1),
        (2932896, 9999, 12, 31),
    ] {
        try_row(days, Date::new(year, month, day));
    }
    for (days, name) in [
        (-719528, Weekday::Saturday),
        (-1, Weekday::Wednesday),
        (0, Weekday::Thursday),
        (19487, Weekday::Wednesday),
        (2932896, Weekday::Friday),
    ] {
        assert_eq!(weekday(days), Ok(name));
    }
    assert_eq!(answer(days_from_civil(Date::new(1900, 2, 29))), Refused(3));
    assert_eq!(answer(days_from_civil(Date::new(2023, 13, 99))), Refused(2));
    assert_eq!(is_leap(0), Ok(true));
    assert_eq!(is_leap(1900), Ok(false));
    assert_eq!(is_leap(2000), Ok(true));
    assert_eq!(day_of_year(Date::new(2000, 12, 31)), Ok(366));
    assert_eq!(day_of_year(Date::new(2100, 12, 31)), Ok(365));
}

#[test]
fn rows_of_change_request_eight() {
    // The ends of the range, the days around the years of labels, and the ends of February in years below zero.
    for (days, year, month, day) in [
        (-12407288, -32000, 1, 1),
        (-12407229, -32000, 2, 29),
        (-12407228, -32000, 3, 1),
        (-865566, -400, 2, 29),
        (-865565, -400, 3, 1),
        (-755994, -100, 2, 28),
        (-755993, -100, 3, 1),
        (-720930, -4, 2, 29),
        (-720929, -4, 3, 1),
        (-719893, -1, 1, 1),
        (-719835, -1, 2, 28),
        (-719834, -1, 3, 1),
        (-719529, -1, 12, 31),
        (2932897, 10000, 1, 1),
        (2932956, 10000, 2, 29),
        (10967867, 31999, 1, 1),
        (10968231, 31999, 12, 31),
    ] {
        try_row(days, Date::new(year, month, day));
    }
    for (days, name) in [
        (-12407288, Weekday::Saturday),
        (-719529, Weekday::Friday),
        (2932897, Weekday::Saturday),
        (10968231, Weekday::Friday),
    ] {
        assert_eq!(weekday(days), Ok(name));
    }
    for days in [-12407289, 10968232] {
        assert!(WAYS.iter().all(|way| answer(way(days)) == Refused(4)), "{days}");
        assert_eq!(answer(weekday(days)), Refused(4));
    }
    for (year, leap) in
        [(-32000, true), (-400, true), (-100, false), (-4, true), (-1, false), (10000, true), (31999, false)]
    {
        assert_eq!(is_leap(year), Ok(leap), "{year}");
        assert_eq!(last_day_of_month(year, 2), Ok(if leap { 29 } else { 28 }), "{year}");
        assert_eq!(day_of_year(Date::new(year, 12, 31)), Ok(if leap { 366 } else { 365 }), "{year}");
    }
    for year in [-32001, 32000] {
        assert_eq!(answer(is_leap(year)), Refused(1));
        assert_eq!(answer(days_from_civil(Date::new(year, 1, 1))), Refused(1));
    }
    assert_eq!(add_days(Date::new(9999, 12, 31), 1), Ok(Date::new(10000, 1, 1)));
    assert_eq!(add_days(Date::new(0, 1, 1), -1), Ok(Date::new(-1, 12, 31)));
    assert_eq!(add_days(Date::new(-32000, 1, 1), 23375519), Ok(Date::new(31999, 12, 31)));
    assert_eq!(answer(add_days(Date::new(-32000, 1, 1), 23375520)), Refused(4));
    assert_eq!(answer(add_days(Date::new(-32000, 1, 1), -1)), Refused(4));
}

#[test]
fn weekdays_of_known_dates() {
    // A whole week, and days that are remembered by their weekday or were looked up in another calendar.
    for (year, month, day, known, number, name) in [
        (2023, 5, 8, Weekday::Monday, 1, "Monday"),
        (2023, 5, 9, Weekday::Tuesday, 2, "Tuesday"),
        (2023, 5, 10, Weekday::Wednesday, 3, "Wednesday"),
        (2023, 5, 11, Weekday::Thursday, 4, "Thursday"),
        (2023, 5, 12, Weekday::Friday, 5, "Friday"),
        (2023, 5, 13, Weekday::Saturday, 6, "Saturday"),
        (2023, 5, 14, Weekday::Sunday, 7, "Sunday"),
        (1582, 10, 15, Weekday::Friday, 5, "Friday"),
        (1815, 6, 18, Weekday::Sunday, 7, "Sunday"),
        (1929, 10, 29, Weekday::Tuesday, 2, "Tuesday"),
        (1969, 7, 20, Weekday::Sunday, 7, "Sunday"),
        (1987, 10, 19, Weekday::Monday, 1, "Monday"),
    ] {
        let days = days_from_civil(Date::new(year, month, day)).unwrap();
        assert_eq!(weekday(days), Ok(known), "{year}-{month}-{day}");
        assert_eq!(known.number(), number);
        assert_eq!(known.name(), name);
        assert_eq!(known.to_string(), name);
        assert_eq!(format!("{known:?}"), name);
    }
}

#[test]
fn numbers_and_names_of_weekdays() {
    let listed = Weekday::ALL.map(|weekday| (weekday.number(), weekday.name()));
    assert_eq!(listed, plain::WEEKDAYS);
    for weekday in Weekday::ALL {
        assert_eq!(Weekday::from_number(weekday.number()), Some(weekday));
    }
    let numbers = plain::WEEKDAYS.map(|weekday| weekday.0);
    for number in support::powers().into_iter().chain(-10..20) {
        assert_eq!(Weekday::from_number(number).is_some(), numbers.contains(&number), "{number}");
    }
    assert_eq!(format!("{:>9}|{:<9}|", Weekday::Friday, Weekday::Friday), "   Friday|Friday   |");
}

#[test]
fn dates_as_text() {
    for (date, text) in [
        (Date::new(2023, 5, 10), "2023-05-10"),
        (Date::new(0, 1, 1), "0000-01-01"),
        (Date::new(-1, 12, 31), "-0001-12-31"),
        (Date::new(31999, 2, 3), "31999-02-03"),
        (Date::new(i64::MIN, 13, 99), "-9223372036854775808-13-99"),
        (Date::new(i64::MIN, i64::MIN, i64::MIN), "-9223372036854775808--9223372036854775808--9223372036854775808"),
    ] {
        assert_eq!(date.to_string(), text);
        assert_eq!(format!("{date:>70}|{date:<70}|{date:*^70}|"), format!("{text:>70}|{text:<70}|{text:*^70}|"));
    }
    assert!(Date::new(1999, 12, 31) < Date::new(2000, 1, 1));
    assert!(Date::new(2000, 1, 31) < Date::new(2000, 2, 1));
}

#[test]
fn every_day_both_ways() {
    for days in FIRST_DAY..=LAST_DAY {
        try_count(days);
        try_date(plain::civil_from_days(days).value());
    }
}

#[test]
fn three_ways_to_a_date_in_the_range() {
    // Of every year the first and the last day, 28 February, the last day of February and 1 March.
    for year in FIRST_YEAR..=LAST_YEAR {
        let count = |month, day| plain::days_from_civil(Date::new(year, month, day)).value();
        let march = count(3, 1);
        for days in [count(1, 1), count(2, 28), march - 1, march, count(12, 31)] {
            try_every_way(days);
        }
    }
    // Every day of a cycle of 400 years at each end, in the middle and across 1970-01-01.
    let middle = FIRST_DAY + (LAST_DAY - FIRST_DAY) / 2;
    for first in [FIRST_DAY, middle, -146097 / 2, LAST_DAY - 146096] {
        (first..first + 146097).for_each(try_every_way);
    }
    let mut random = Random::new(4);
    for _ in 0..1_000_000 {
        try_every_way(random.within(FIRST_DAY, LAST_DAY));
    }
}

#[test]
fn counts_outside_the_range() {
    for beyond in 1..=100000 {
        try_every_way(FIRST_DAY - beyond);
        try_every_way(LAST_DAY + beyond);
    }
    for days in support::powers() {
        try_every_way(days);
        // Counts that wrap into the range where a shift is added first.
        for shift in [FIRST_DAY, LAST_DAY, 719468, 719162, 2440588, 146097, 719468 + 81 * 146097] {
            try_every_way(days.wrapping_sub(shift));
            try_every_way(days.wrapping_add(shift));
        }
    }
    for days in [FIRST_DAY - 1, LAST_DAY + 1, i64::MIN, i64::MAX] {
        assert!(WAYS.iter().all(|way| way(days) == Err(Refusal::OutOfRange)), "{days}");
    }
    let mut random = Random::new(1);
    for _ in 0..1_000_000 {
        try_every_way(random.next() as i64);
    }
}

#[test]
fn every_year_and_month_with_bad_months_and_days() {
    for year in FIRST_YEAR - 3..=LAST_YEAR + 3 {
        assert_eq!(answer(is_leap(year)), plain::is_leap(year), "{year}");
        for month in -2..=15 {
            try_month(year, month);
            for day in [-2, -1, 0, 1, 2, 15, 27, 28, 29, 30, 31, 32, 33] {
                try_date(Date::new(year, month, day));
            }
        }
    }
}

#[test]
fn refusals_in_their_order() {
    // Each part right, wrong by one on either side, wrong by far: 1 before 2 before 3 before 4.
    let years = [
        i64::MIN,
        LAST_YEAR - 65536,
        FIRST_YEAR - 4,
        FIRST_YEAR - 1,
        FIRST_YEAR,
        FIRST_LABEL_YEAR - 4,
        FIRST_LABEL_YEAR - 1,
        FIRST_LABEL_YEAR,
        1900,
        2000,
        2023,
        LAST_LABEL_YEAR,
        LAST_LABEL_YEAR + 1,
        LAST_YEAR,
        LAST_YEAR + 1,
        LAST_YEAR + 2,
        FIRST_YEAR + 65536,
        65536 + 2000,
        i64::MAX,
    ];
    let months = [i64::MIN, -1, 0, 1, 2, 4, 12, 13, 14, 256 + 2, i64::MAX];
    let days = [i64::MIN, -1, 0, 1, 28, 29, 30, 31, 32, 99, 256 + 1, i64::MAX];
    let whole = LAST_DAY - FIRST_DAY + 1;
    let shifts = [i64::MIN, -whole, -1, 0, 1, whole, i64::MAX];
    for year in years {
        for month in months {
            for day in days {
                try_date(Date::new(year, month, day));
                for shift in shifts {
                    try_shift(Date::new(year, month, day), shift);
                }
            }
        }
    }
    assert_eq!(answer(add_days(Date::new(FIRST_YEAR - 1, 13, 99), i64::MAX)), Refused(1));
    assert_eq!(answer(add_days(Date::new(FIRST_YEAR, 13, 99), i64::MAX)), Refused(2));
    assert_eq!(answer(add_days(Date::new(FIRST_YEAR, 12, 99), i64::MAX)), Refused(3));
    assert_eq!(answer(add_days(Date::new(FIRST_YEAR, 12, 31), i64::MAX)), Refused(4));
}

#[test]
fn numbers_of_every_size() {
    let numbers = support::powers();
    for &number in &numbers {
        assert_eq!(answer(is_leap(number)), plain::is_leap(number), "{number}");
        for other in [FIRST_YEAR - 1, FIRST_YEAR, 0, 1, 2, 12, 13, 2000, LAST_YEAR, LAST_YEAR + 1] {
            try_month(number, other);
            try_month(other, number);
            for third in [0, 1, 29, 32] {
                try_date(Date::new(number, other, third));
                try_date(Date::new(other, number, third));
                try_date(Date::new(other, third, number));
            }
        }
    }
    let mut random = Random::new(2);
    for _ in 0..1_000_000 {
        let [year, month, day, shift] = [0; 4].map(|_| random.choose(&numbers));
        try_date(Date::new(year, month, day));
        try_shift(Date::new(year, month, day), shift);
    }
}

#[test]
fn shifted_dates() {
    let (first, last) = (Date::new(FIRST_YEAR, 1, 1), Date::new(LAST_YEAR, 12, 31));
    let dates = [
        first,
        Date::new(-400, 2, 29),
        Date::new(-100, 3, 1),
        Date::new(-4, 2, 29),
        Date::new(-1, 12, 31),
        Date::new(0, 2, 29),
        Date::new(0, 3, 1),
        Date::new(399, 12, 31),
        Date::new(400, 1, 1),
        Date::new(1600, 2, 29),
        Date::new(1899, 12, 31),
        Date::new(1970, 1, 1),
        Date::new(2000, 2, 28),
        Date::new(2000, 12, 31),
        Date::new(2023, 5, 10),
        Date::new(2100, 3, 1),
        Date::new(9999, 12, 31),
        Date::new(LAST_YEAR, 1, 1),
        last,
    ];
    let mut shifts = support::powers();
    shifts.extend(-800..=800);
    shifts.extend((0..19).map(|n| 10i64.pow(n)).flat_map(|power| [power - 1, power, -power, 1 - power]));
    shifts.extend((1..=161).flat_map(|n| [146097 * n, -146097 * n, 36524 * n, -36524 * n, 1461 * n, -1461 * n]));
    for date in dates {
        for &shift in &shifts {
            try_shift(date, shift);
        }
        // To each end of the range, one short of it and one beyond.
        let count = plain::days_from_civil(date).value();
        for beyond in -2..=2 {
            try_shift(date, FIRST_DAY - count + beyond);
            try_shift(date, LAST_DAY - count + beyond);
        }
        assert_eq!(answer(add_days(date, FIRST_DAY - count)), Value(first));
        assert_eq!(answer(add_days(date, FIRST_DAY - count - 1)), Refused(4));
        assert_eq!(answer(add_days(date, LAST_DAY - count)), Value(last));
        assert_eq!(answer(add_days(date, LAST_DAY - count + 1)), Refused(4));
    }
}

#[test]
fn random_shifts() {
    let mut random = Random::new(3);
    for _ in 0..2_000_000 {
        let count = random.within(FIRST_DAY, LAST_DAY);
        let date = plain::civil_from_days(count).value();
        let shift = random.next() as i64 >> random.within(0, 63);
        try_shift(date, shift);
        // From any day to any other, and as often to one outside.
        let other = random.within(2 * FIRST_DAY, 2 * LAST_DAY);
        try_shift(date, other - count);
    }
}
