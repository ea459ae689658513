//! Week dates and their labels, every call, against a table of all days that is built by counting Thursdays
//! (tests/support/plain_weeks.rs), and against the words of change requests Seven and Eight.

mod support;

use ovenquill::{
    civil_from_days, days_from_civil, days_from_week, read_week, week_from_days, week_label, weekday, write_week, Date,
    Refusal, WeekDate, WeekLabel, Weekday, LABEL_YEARS, WEEK_LABEL_BYTES, WEEK_YEARS,
};
use support::answer::answer;
use support::answer::Answer::{Refused, Value};
use support::plain::{FIRST_DAY, FIRST_LABEL_YEAR, FIRST_YEAR, LAST_DAY, LAST_LABEL_YEAR, LAST_YEAR};
use support::plain_weeks::{self as plain, FIRST_WEEK_LABEL_DAY, FIRST_WEEK_YEAR, LAST_WEEK_LABEL_DAY, LAST_WEEK_YEAR};
use support::random::Random;
use support::try_writing;

/// Counts outside the range.
const OUTSIDE: [i64; 4] = [FIRST_DAY - 1, LAST_DAY + 1, i64::MIN, i64::MAX];
/// Counts in the range whose week years have no label, the farthest and the nearest on each side.
const WITHOUT_LABEL: [i64; 4] = [FIRST_DAY, FIRST_WEEK_LABEL_DAY - 1, LAST_WEEK_LABEL_DAY + 1, LAST_DAY];

/// Holds every answer about a count to the plain one.
fn try_count(days: i64) {
    assert_eq!(answer(week_from_days(days)), plain::week_from_days(days), "the week date of {days}");
    let mut label = [b'?'; WEEK_LABEL_BYTES + 1];
    let mut expected = label;
    let written = answer(write_week(days, &mut label));
    assert_eq!(written, plain::write_week(days, &mut expected), "the label of {days}");
    assert_eq!(label, expected, "the label of {days}");
}

fn try_week(year: i64, week: i64, weekday: i64) {
    let date = WeekDate::new(year, week, weekday);
    assert_eq!(answer(days_from_week(date)), plain::days_from_week(date), "{date:?}");
}

/// Reads any bytes and holds the answer to the plain reader's; what is accepted is written again.
fn try_reading(label: &[u8]) {
    let read = read_week(label);
    assert_eq!(answer(read), plain::read_week(label), "{:?}", String::from_utf8_lossy(label));
    if let Ok(days) = read {
        let mut again = [b'?'; WEEK_LABEL_BYTES];
        assert_eq!(write_week(days, &mut again), Ok(WEEK_LABEL_BYTES));
        assert_eq!(again, *label);
    }
}

/// The label of a count that has one.
fn label_of(days: i64) -> [u8; WEEK_LABEL_BYTES] {
    plain::week_label(plain::week_from_days(days).value())
}

/// Whether a year has a week: it has all those that are not refused with 16.
fn has_week(year: i64, week: i64) -> bool {
    days_from_week(WeekDate::new(year, week, 4)) != Err(Refusal::WeekOutOfRange)
}

#[test]
fn ranges_of_change_requests_seven_and_eight() {
    assert_eq!((FIRST_WEEK_YEAR, LAST_WEEK_YEAR), (-32001, 31999));
    assert_eq!(WEEK_YEARS, FIRST_WEEK_YEAR..=LAST_WEEK_YEAR);
    assert_eq!(LABEL_YEARS, FIRST_LABEL_YEAR..=LAST_LABEL_YEAR);
    assert_eq!(WEEK_LABEL_BYTES, plain::WEEK_LABEL_BYTES);
}

#[test]
fn rows_of_change_request_seven() {
    for (year, month, day, date, label) in [
        (2023, 5, 10, WeekDate::new(2023, 19, 3), b"2023-W19-3"),
        (2020, 12, 31, WeekDate::new(2020, 53, 4), b"2020-W53-4"),
        (2021, 1, 1, WeekDate::new(2020, 53, 5), b"2020-W53-5"),
    ] {
        let days = days_from_civil(Date::new(year, month, day)).unwrap();
        assert_eq!(week_from_days(days), Ok(date));
        assert_eq!(days_from_week(date), Ok(days));
        assert_eq!(week_label(days).unwrap().as_bytes(), label);
        assert_eq!(read_week(label), Ok(days));
    }
    assert_eq!(week_from_days(FIRST_DAY), Ok(WeekDate::new(FIRST_WEEK_YEAR, 52, 6)));
    for (date, wanted) in [
        (WeekDate::new(FIRST_WEEK_YEAR, 52, 6), Value(FIRST_DAY)),
        (WeekDate::new(FIRST_WEEK_YEAR, 52, 5), Refused(4)),
        (WeekDate::new(FIRST_WEEK_YEAR, 53, 1), Refused(16)),
        (WeekDate::new(FIRST_WEEK_YEAR - 1, 1, 1), Refused(1)),
        (WeekDate::new(LAST_WEEK_YEAR + 1, 1, 1), Refused(1)),
        (WeekDate::new(LAST_WEEK_YEAR, 52, 5), Value(LAST_DAY)),
        (WeekDate::new(LAST_WEEK_YEAR, 52, 6), Refused(4)),
        (WeekDate::new(LAST_WEEK_YEAR, 52, 7), Refused(4)),
    ] {
        assert_eq!(answer(days_from_week(date)), wanted, "{date}");
    }
}

#[test]
fn rows_of_change_request_eight() {
    // The ends of the range, days of week years below zero, and those around the years of labels.
    for (days, date, week_date, has_label) in [
        (-12407288, "-32000-01-01", "-32001-W52-6", false),
        (-12407287, "-32000-01-02", "-32001-W52-7", false),
        (-12407286, "-32000-01-03", "-32000-W01-1", false),
        (-865566, "-0400-02-29", "-0400-W09-2", false),
        (-755993, "-0100-03-01", "-0100-W09-4", false),
        (-720930, "-0004-02-29", "-0004-W09-4", false),
        (-719893, "-0001-01-01", "-0002-W53-5", false),
        (-719529, "-0001-12-31", "-0001-W52-5", false),
        (-719528, "0000-01-01", "-0001-W52-6", false),
        (-719527, "0000-01-02", "-0001-W52-7", false),
        (-719526, "0000-01-03", "0000-W01-1", true),
        (2932896, "9999-12-31", "9999-W52-5", true),
        (2932897, "10000-01-01", "9999-W52-6", true),
        (2932898, "10000-01-02", "9999-W52-7", true),
        (2932899, "10000-01-03", "10000-W01-1", false),
        (10968231, "31999-12-31", "31999-W52-5", false),
    ] {
        assert_eq!(civil_from_days(days).unwrap().to_string(), date);
        let week = week_from_days(days).unwrap();
        assert_eq!(week.to_string(), week_date);
        assert_eq!(days_from_week(week), Ok(days), "{week_date}");
        if has_label {
            assert_eq!(week_label(days).unwrap(), week_date);
            assert_eq!(read_week(week_date.as_bytes()), Ok(days), "{week_date}");
        } else {
            assert_eq!(answer(week_label(days)), Refused(1), "{week_date}");
        }
    }
    for (date, refusal) in [
        (WeekDate::new(-32002, 52, 7), 1),
        (WeekDate::new(-32001, 52, 5), 4),
        (WeekDate::new(-32001, 53, 6), 16),
        (WeekDate::new(-1, 53, 1), 16),
        (WeekDate::new(9999, 53, 1), 16),
        (WeekDate::new(31999, 52, 6), 4),
        (WeekDate::new(31999, 53, 1), 16),
        (WeekDate::new(32000, 1, 1), 1),
    ] {
        assert_eq!(answer(days_from_week(date)), Refused(refusal), "{date}");
    }
}

#[test]
fn week_dates_of_known_dates() {
    // Days around new years, with week dates that were looked up in another calendar.
    for (year, month, day, week_date) in [
        (1977, 1, 1, "1976-W53-6"),
        (1977, 1, 2, "1976-W53-7"),
        (1977, 12, 31, "1977-W52-6"),
        (1978, 1, 1, "1977-W52-7"),
        (1978, 1, 2, "1978-W01-1"),
        (1978, 12, 31, "1978-W52-7"),
        (1979, 1, 1, "1979-W01-1"),
        (1979, 12, 30, "1979-W52-7"),
        (1979, 12, 31, "1980-W01-1"),
        (1980, 1, 1, "1980-W01-2"),
        (1980, 12, 28, "1980-W52-7"),
        (1980, 12, 29, "1981-W01-1"),
        (1981, 12, 31, "1981-W53-4"),
        (1982, 1, 3, "1981-W53-7"),
        (1582, 10, 15, "1582-W41-5"),
        (2000, 2, 29, "2000-W09-2"),
        (2100, 3, 1, "2100-W09-1"),
    ] {
        let days = days_from_civil(Date::new(year, month, day)).unwrap();
        assert_eq!(week_from_days(days).unwrap().to_string(), week_date);
        assert_eq!(week_label(days).unwrap(), week_date);
    }
}

#[test]
fn first_weeks_and_years_of_53_weeks() {
    let mut long_years = 0;
    for year in FIRST_YEAR..=LAST_YEAR {
        let day = |month, day| days_from_civil(Date::new(year, month, day)).unwrap();
        let week_of_4_january = week_from_days(day(1, 4)).map(|date| (date.year, date.week));
        assert_eq!(week_of_4_january, Ok((year, 1)));
        // The Thursdays of a year are 53 where it begins or ends with one.
        let long = [day(1, 1), day(12, 31)].map(weekday).contains(&Ok(Weekday::Thursday));
        assert_eq!([0, 1, 52, 53, 54].map(|week| has_week(year, week)), [false, true, true, long, false], "{year}");
        long_years += i64::from(long);
    }
    // In 400 years there are 71.
    assert_eq!(long_years, (LAST_YEAR - FIRST_YEAR + 1) / 400 * 71);
}

// Counts and week dates

#[test]
fn every_day_both_ways() {
    let mut before = None;
    for days in FIRST_DAY..=LAST_DAY {
        try_count(days);
        let date = week_from_days(days).unwrap();
        assert_eq!(days_from_week(date), Ok(days), "{date}");
        assert_eq!(Weekday::from_number(date.weekday), weekday(days).ok(), "{date}");
        // The order of week dates is that of their counts.
        assert!(before < Some(date), "{before:?} {date}");
        before = Some(date);
    }
}

#[test]
fn counts_outside_the_range() {
    for beyond in 1..=100_000 {
        try_count(FIRST_DAY - beyond);
        try_count(LAST_DAY + beyond);
    }
    for days in support::powers() {
        try_count(days);
        // Counts that wrap into the range where a shift is added first.
        for shift in [FIRST_DAY, LAST_DAY, 719162, 719468, 865259, 146097, 719162 + 81 * 146097, 3, 4] {
            try_count(days.wrapping_sub(shift));
            try_count(days.wrapping_add(shift));
        }
    }
    let mut random = Random::new(60);
    for _ in 0..1_000_000 {
        try_count(random.next() as i64);
    }
}

#[test]
fn every_year_with_weeks_and_weekdays_at_their_limits() {
    for year in FIRST_WEEK_YEAR - 5..=LAST_WEEK_YEAR + 5 {
        for week in [0, 1, 52, 53, 54] {
            for weekday in 0..=8 {
                try_week(year, week, weekday);
            }
        }
    }
}

#[test]
fn every_week_and_weekday_of_years_near_a_limit_or_of_53_weeks() {
    let limits = [FIRST_WEEK_YEAR, FIRST_LABEL_YEAR, LAST_LABEL_YEAR, LAST_WEEK_YEAR];
    let near_limits = limits.into_iter().flat_map(|limit| limit - 10..=limit + 10);
    for year in near_limits.chain(-410..=-90).chain(1890..=2110) {
        for week in -2..=56 {
            for weekday in -1..=9 {
                try_week(year, week, weekday);
            }
        }
    }
}

#[test]
fn refusals_in_their_order() {
    // Each part right, wrong by one on either side, wrong by far: 1 before 16 before 4.
    let near_ends = [FIRST_WEEK_YEAR, LAST_WEEK_YEAR].into_iter().flat_map(|end| end - 2..=end + 2);
    let right_where_cut_off = [FIRST_WEEK_YEAR + 65536, LAST_WEEK_YEAR - 65536, 65536 + 2020];
    let years = near_ends.chain(right_where_cut_off).chain([i64::MIN, -1, 0, 4, 2020, 2023, 9999, 10000, i64::MAX]);
    let weeks = [i64::MIN, -1, 0, 1, 2, 51, 52, 53, 54, 99, 256 + 1, i64::MAX];
    let weekdays = [i64::MIN, -1, 0, 1, 5, 6, 7, 8, 9, 256 + 1, i64::MAX];
    for year in years {
        for week in weeks {
            for weekday in weekdays {
                try_week(year, week, weekday);
            }
        }
    }
    for (year, week, weekday, refusal) in [
        (FIRST_WEEK_YEAR - 1, 0, 0, 1),
        (LAST_WEEK_YEAR + 1, 54, 8, 1),
        (FIRST_WEEK_YEAR, 0, 1, 16),
        (FIRST_WEEK_YEAR, 1, 0, 16),
        (LAST_WEEK_YEAR, 53, 6, 16),
        (LAST_WEEK_YEAR, 52, 8, 16),
    ] {
        let date = WeekDate::new(year, week, weekday);
        assert_eq!(answer(days_from_week(date)), Refused(refusal), "{date}");
    }
}

#[test]
fn numbers_of_every_size() {
    let numbers = support::powers();
    for &number in &numbers {
        for (year, week, weekday) in [
            (2023, 19, 3),
            (2020, 53, 5),
            (FIRST_WEEK_YEAR, 52, 6),
            (LAST_WEEK_YEAR, 52, 5),
            (LAST_WEEK_YEAR, 53, 8),
            (FIRST_WEEK_YEAR - 1, 0, 0),
        ] {
            try_week(number, week, weekday);
            try_week(year, number, weekday);
            try_week(year, week, number);
            // Numbers that wrap to right ones where they are cut off.
            try_week(year.wrapping_add(number), week, weekday);
            try_week(year, week.wrapping_add(number), weekday);
            try_week(year, week, weekday.wrapping_add(number));
        }
    }
    let mut random = Random::new(61);
    for _ in 0..1_000_000 {
        let [year, week, weekday] = [0; 3].map(|_| random.choose(&numbers));
        try_week(year, week, weekday);
        // Wrong weeks and weekdays that lead to a right count all the same.
        let [year, week] = [random.within(FIRST_WEEK_YEAR, LAST_WEEK_YEAR), random.within(-60, 60)];
        try_week(year, week, random.within(-400, 400));
    }
}

#[test]
fn week_dates_as_text() {
    for (date, text) in [
        (WeekDate::new(2023, 19, 3), "2023-W19-3"),
        (WeekDate::new(0, 1, 1), "0000-W01-1"),
        (WeekDate::new(-1, 52, 6), "-0001-W52-6"),
        (WeekDate::new(31999, 0, 0), "31999-W00-0"),
        (WeekDate::new(9, 100, 10), "0009-W100-10"),
        (WeekDate::new(i64::MAX, -1, -2), "9223372036854775807-W-1--2"),
        (
            WeekDate::new(i64::MIN, i64::MIN, i64::MIN),
            "-9223372036854775808-W-9223372036854775808--9223372036854775808",
        ),
    ] {
        assert_eq!(date.to_string(), text);
        assert_eq!(format!("{date:>70}|{date:<70}|{date:*^70}|"), format!("{text:>70}|{text:<70}|{text:*^70}|"));
    }
}

// Writing labels

#[test]
fn counts_in_buffers_of_every_length() {
    let with_label = [FIRST_WEEK_LABEL_DAY, LAST_WEEK_LABEL_DAY, -1, 0, 19487];
    let chosen = || OUTSIDE.into_iter().chain(WITHOUT_LABEL).chain(with_label);
    for length in 0..=24 {
        for days in chosen().chain(support::powers()) {
            try_writing(write_week, plain::write_week, days, length);
        }
    }
    for length in support::lengths() {
        for days in chosen() {
            try_writing(write_week, plain::write_week, days, length);
        }
    }
    // 4 before 1 before 7.
    for (counts, refusal) in [(&OUTSIDE[..], 4), (&WITHOUT_LABEL, 1), (&with_label, 7)] {
        for &days in counts {
            assert_eq!(answer(write_week(days, &mut [0; WEEK_LABEL_BYTES - 1])), Refused(refusal), "{days}");
        }
    }
}

// Reading labels

#[test]
fn every_label_of_the_right_shape() {
    let mut label = *b"yyyy-Www-d";
    for year in 0..=9999u16 {
        for (place, power) in [1000, 100, 10, 1].into_iter().enumerate() {
            label[place] = b'0' + (year / power % 10) as u8;
        }
        for week in 0..=99 {
            (label[6], label[7]) = (b'0' + week / 10, b'0' + week % 10);
            for weekday in b'0'..=b'9' {
                label[9] = weekday;
                try_reading(&label);
                // No week date of a label lies outside the range.
                assert!(matches!(answer(read_week(&label)), Value(_) | Refused(16)));
            }
        }
    }
}

#[test]
fn labels_of_every_length() {
    // A label cut off or gone on with, at every length, with the bytes around it varied: they are none of its business.
    let mut random = Random::new(62);
    let label_end = 20 + WEEK_LABEL_BYTES;
    for around in 0..=255u8 {
        let label = label_of(random.within(FIRST_WEEK_LABEL_DAY, LAST_WEEK_LABEL_DAY));
        for length in 0..=20 {
            let mut bytes = [around; 50];
            bytes[20..label_end].copy_from_slice(&label);
            try_reading(&bytes[20..20 + length]);
            try_reading(&bytes[label_end - length..label_end]);
            try_reading(&[around; 20][..length]);
        }
    }
    let labels = b"2023-W19-32023-W19-3";
    for length in 0..=labels.len() {
        assert_eq!(answer(read_week(&labels[..length])) == Refused(8), length != WEEK_LABEL_BYTES);
    }
    // A right label at the front, at the end and over and over.
    for length in support::lengths().filter(|&length| length > WEEK_LABEL_BYTES) {
        let label = label_of(random.within(FIRST_WEEK_LABEL_DAY, LAST_WEEK_LABEL_DAY));
        let mut bytes = vec![b'0'; length];
        bytes[..WEEK_LABEL_BYTES].copy_from_slice(&label);
        try_reading(&bytes);
        bytes[length - WEEK_LABEL_BYTES..].copy_from_slice(&label);
        try_reading(&bytes);
        try_reading(&label.repeat(length / WEEK_LABEL_BYTES + 1)[..length]);
    }
}

#[test]
fn one_byte_damaged_at_every_place_with_every_value() {
    let mut random = Random::new(63);
    let mut counts = vec![FIRST_WEEK_LABEL_DAY, LAST_WEEK_LABEL_DAY, 0, -1, 19487];
    counts.extend((0..200).map(|_| random.within(FIRST_WEEK_LABEL_DAY, LAST_WEEK_LABEL_DAY)));
    for days in counts {
        let label = label_of(days);
        for place in 0..WEEK_LABEL_BYTES {
            for value in 0..=255 {
                let mut damaged = label;
                damaged[place] = value;
                try_reading(&damaged);
            }
        }
    }
}

#[test]
fn several_bytes_damaged() {
    let mut random = Random::new(64);
    let likely = b"0123456789-Ww+ /:\0\x2f\x3a\x80\xb0\xd7\xff";
    for _ in 0..1_000_000 {
        let mut label = label_of(random.within(FIRST_WEEK_LABEL_DAY, LAST_WEEK_LABEL_DAY));
        for _ in 0..random.within(2, 4) {
            let place = random.within(0, WEEK_LABEL_BYTES as i64 - 1) as usize;
            label[place] = random.choose(likely);
        }
        try_reading(&label);
    }
    for _ in 0..500_000 {
        let bytes: [u8; WEEK_LABEL_BYTES] = [0; WEEK_LABEL_BYTES].map(|_| random.choose(likely));
        try_reading(&bytes);
    }
}

#[test]
fn the_reader_refuses_in_order() {
    for (label, refusal) in [
        (&b""[..], 8),
        (b"2023-W19-", 8),
        (b"2023-W19-30", 8),
        (b"2023-w19-3", 8),
        (b"2023W193", 8),
        (b"2023-W19", 8),
        (b"2023-05-10", 8),
        (b"2023-019-3", 8),
        (b"2023-W19 3", 8),
        (b"2023_W19-3", 8),
        (b"+023-W19-3", 8),
        (b"-001-W52-6", 8),
        (b"10000-W01-1", 8),
        (b"9999-W99-x", 8),
        (b"x999-W00-0", 8),
        (b"9999-W53-6", 16),
        (b"9999-W52-8", 16),
        (b"2023-W00-3", 16),
        (b"2023-W53-1", 16),
        (b"2020-W54-1", 16),
        (b"2023-W19-0", 16),
        (b"2023-W19-8", 16),
        (b"2023-W19-9", 16),
        (b"9999-W53-1", 16),
    ] {
        assert_eq!(answer(read_week(label)), Refused(refusal), "{:?}", String::from_utf8_lossy(label));
    }
}

// Labels by value

#[test]
fn week_labels_by_value() {
    let mut random = Random::new(65);
    let mut before: Option<(i64, WeekLabel)> = None;
    for _ in 0..300_000 {
        let days = random.within(FIRST_WEEK_LABEL_DAY, LAST_WEEK_LABEL_DAY);
        let expected = label_of(days);
        let text = std::str::from_utf8(&expected).unwrap();
        let label = week_label(days).unwrap();
        assert_eq!((label.as_str(), label.as_bytes()), (text, &expected[..]));
        assert_eq!(week_from_days(days).unwrap().to_string(), text);
        assert_eq!(text.parse(), Ok(label));
        assert_eq!(WeekLabel::try_from(&expected[..]), Ok(label));
        assert_eq!(read_week(label.as_ref()), Ok(days));
        if let Some((other, other_label)) = before {
            assert_eq!(label.cmp(&other_label), days.cmp(&other), "{label} {other_label}");
            assert_eq!(label == other_label, days == other, "{label} {other_label}");
        }
        before = Some((days, label));
    }
    for days in OUTSIDE {
        assert_eq!(week_label(days), Err(Refusal::OutOfRange));
    }
    for days in WITHOUT_LABEL {
        assert_eq!(week_label(days), Err(Refusal::YearOutOfRange));
    }
    assert_eq!("2023-W53-1".parse::<WeekLabel>(), Err(Refusal::WeekOutOfRange));
    assert_eq!("9999-W52-6".parse(), week_label(2932897));
    assert_eq!("2023-w19-3".parse::<WeekLabel>(), Err(Refusal::MalformedLabel));
    assert_eq!(WeekLabel::try_from(&b"\xff"[..]), Err(Refusal::MalformedLabel));
}
