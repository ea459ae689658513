//! The refusals: their numbers and words, and a call that gives each, against document 01's table, which change requests One,
//! Three, Five, Six, Seven, Eight and Nine change.

mod support;

use ovenquill::{
    add_days, check_bound, civil_from_days, civil_from_days_audit, civil_from_days_plain, day_of_instant,
    days_from_civil, days_from_week, first_difference, index_days, is_leap, join_instant, last_day_of_month, read_cue,
    read_instant, read_position, read_week, sheet, week_from_days, weekday, write_instant, write_position, write_week,
    ClaimError, Clock, Constants, Date, Fields, IndexError, Refusal, WeekDate,
};
use std::error::Error;
use std::fmt::Display;
use support::plain::{FIRST_DAY, FIRST_YEAR, LAST_INSTANT, LAST_YEAR};
use support::plain_sheets::sheet_of;
use support::plain_weeks::FIRST_WEEK_YEAR;

/// Each refusal with document 01's number.
const TABLE: &[(i64, Refusal)] = &[
    (1, Refusal::YearOutOfRange),
    (2, Refusal::MonthOutOfRange),
    (3, Refusal::DayOutOfRange),
    (4, Refusal::OutOfRange),
    (5, Refusal::TimeOutOfRange),
    (6, Refusal::PositionOutOfRange),
    (7, Refusal::BufferTooShort),
    (8, Refusal::MalformedLabel),
    (9, Refusal::ConstantOutOfLimits),
    (10, Refusal::DifferenceBelowBound),
    (11, Refusal::NoDifferenceUpToBound),
    (12, Refusal::UnequalLengths),
    (13, Refusal::MalformedTiming),
    (14, Refusal::ClockOutOfRange),
    (15, Refusal::OutOfOrder),
    (16, Refusal::WeekOutOfRange),
    (17, Refusal::MalformedSheet),
];

fn numbers() -> Vec<i64> {
    TABLE.iter().map(|row| row.0).collect()
}

#[test]
fn numbers_of_document_01() {
    assert_eq!(Refusal::ALL, TABLE.iter().map(|row| row.1).collect::<Vec<_>>());
    for &(number, refusal) in TABLE {
        assert_eq!(refusal.number(), number);
        assert_eq!(Refusal::from_number(number), Some(refusal));
    }
}

/// The numbers and the causes in README's table of refusals.
fn rows_of_readme() -> Vec<(i64, String)> {
    let readme = std::fs::read_to_string(concat!(env!("CARGO_MANIFEST_DIR"), "/../README.md")).unwrap();
    let (_, section) = readme.split_once("\n## Refusals\n").expect("README has a section on refusals");
    let section = section.split("\n## ").next().unwrap_or_default();
    let cells = |line: &str| line.split('|').map(|cell| cell.trim().to_string()).collect::<Vec<_>>();
    section.lines().map(cells).filter_map(|cells| Some((cells.get(1)?.parse().ok()?, cells.get(2)?.clone()))).collect()
}

#[test]
fn words_of_readme() {
    let rows = rows_of_readme();
    assert_eq!(rows.iter().map(|row| row.0).collect::<Vec<_>>(), numbers());
    for ((_, cause), refusal) in rows.iter().zip(Refusal::ALL) {
        // A row goes on behind a semicolon with what is handed back.
        assert_eq!(refusal.to_string(), cause.split(';').next().unwrap_or_default());
        assert_eq!(Box::<dyn Error>::from(*refusal).to_string(), refusal.to_string());
    }
}

/// Holds that a text which is shown by itself is padded and cut off as a whole.
fn try_padding(shown: impl Display) {
    let text = shown.to_string();
    assert_eq!(format!("{shown:>300}"), format!("{text:>300}"));
    assert_eq!(format!("{shown:*<300}"), format!("{text:*<300}"));
    assert_eq!(format!("{shown:^300.5}"), format!("{text:^300.5}"));
    assert_eq!(format!("{shown:1}"), text);
}

#[test]
fn refusals_and_errors_are_padded_as_a_whole() {
    let mut indexing: IndexError = index_days(&[i64::MAX], &mut [0]).unwrap_err();
    let mut claim: ClaimError = check_bound(CONSTANTS, 79).unwrap_err();
    for &refusal in Refusal::ALL {
        try_padding(refusal);
        // The longest numbers, so that the longest texts are among these.
        for place in [None, Some(0), Some(usize::MAX)] {
            (indexing.refusal, indexing.place) = (refusal, place);
            try_padding(indexing);
        }
        for least in [None, Some(0), Some(i64::MIN)] {
            (claim.refusal, claim.least) = (refusal, least);
            try_padding(claim);
        }
    }
}

#[test]
fn no_refusal_has_another_number() {
    for number in (-1000..1000).chain(support::powers()).filter(|number| !numbers().contains(number)) {
        assert_eq!(Refusal::from_number(number), None, "{number}");
    }
}

const CONSTANTS: Constants = Constants { a: 1, b: 0, d: 10, m: 26, c: 0, k: 8, t: 0 };
const NOON: Fields = Fields { year: 2023, month: 5, day: 10, hour: 12, minute: 0, second: 0, millisecond: 0 };

#[test]
fn each_refusal_is_given() {
    let claim = |bound| [1, 0, 10, 26, 0, 8, 0, bound];
    let sheet = sheet_of(b"", [claim(u32::MAX), claim(100), claim(10)].as_flattened());
    let given: Vec<(i64, Vec<Refusal>)> = vec![
        (
            1,
            vec![
                days_from_civil(Date::new(LAST_YEAR + 1, 1, 1)).unwrap_err(),
                is_leap(FIRST_YEAR - 1).unwrap_err(),
                last_day_of_month(LAST_YEAR + 1, 1).unwrap_err(),
                join_instant(Fields { year: LAST_YEAR + 1, ..NOON }).unwrap_err(),
                days_from_week(WeekDate::new(FIRST_WEEK_YEAR - 1, 1, 1)).unwrap_err(),
                write_week(FIRST_DAY, &mut []).unwrap_err(),
                write_instant(LAST_INSTANT, &mut []).unwrap_err(),
            ],
        ),
        (2, vec![last_day_of_month(2023, 0).unwrap_err(), read_instant(b"2023-13-01T00:00:00.000Z").unwrap_err()]),
        (3, vec![add_days(Date::new(2023, 2, 29), 0).unwrap_err()]),
        (
            4,
            vec![
                civil_from_days(i64::MAX).unwrap_err(),
                civil_from_days_plain(i64::MIN).unwrap_err(),
                civil_from_days_audit(i64::MAX).unwrap_err(),
                weekday(i64::MIN).unwrap_err(),
                add_days(Date::new(2023, 2, 28), i64::MAX).unwrap_err(),
                day_of_instant(i64::MIN).unwrap_err(),
                index_days(&[i64::MIN], &mut [0]).unwrap_err().into(),
                write_instant(i64::MAX, &mut []).unwrap_err(),
                week_from_days(i64::MIN).unwrap_err(),
                days_from_week(WeekDate::new(FIRST_WEEK_YEAR, 1, 1)).unwrap_err(),
                write_week(i64::MAX, &mut []).unwrap_err(),
            ],
        ),
        (5, vec![join_instant(Fields { second: 60, ..NOON }).unwrap_err()]),
        (
            6,
            vec![
                write_position(-1, &mut []).unwrap_err(),
                read_position(b"100000:00:00.000").unwrap_err(),
                read_cue(b"00:01.000 --> 100000:00:00.000").unwrap_err(),
            ],
        ),
        (
            7,
            vec![
                write_instant(0, &mut []).unwrap_err(),
                write_week(0, &mut []).unwrap_err(),
                write_position(0, &mut []).unwrap_err(),
                sheet::write(b"", &[], &mut []).unwrap_err(),
                sheet::report(b"", &mut []).unwrap_err(),
            ],
        ),
        (8, vec![read_instant(b"").unwrap_err(), read_week(b"").unwrap_err()]),
        (
            9,
            vec![
                first_difference(CONSTANTS, -1).unwrap_err(),
                check_bound(CONSTANTS, -1).unwrap_err().into(),
                sheet::check(&sheet, 0).unwrap_err().into(),
            ],
        ),
        (10, vec![check_bound(CONSTANTS, 100).unwrap_err().into(), sheet::check(&sheet, 1).unwrap_err().into()]),
        (11, vec![check_bound(CONSTANTS, 10).unwrap_err().into(), sheet::check(&sheet, 2).unwrap_err().into()]),
        (12, vec![index_days(&[0], &mut []).unwrap_err().into()]),
        (
            13,
            vec![
                read_position(b"").unwrap_err(),
                read_cue(b"").unwrap_err(),
                read_cue(b"00:01.000 --> 00:01.000").unwrap_err(),
            ],
        ),
        (
            14,
            vec![
                Clock::Nothing.follow(-1).unwrap_err(),
                Clock::At(0).follow(1 << 33).unwrap_err(),
                Clock::At((1 << 53) + 1).follow(0).unwrap_err(),
                Clock::At(0).follow((1 << 33) - 1).unwrap_err(),
            ],
        ),
        (15, vec![index_days(&[0, -1], &mut [0; 2]).unwrap_err().into()]),
        (
            16,
            vec![
                days_from_week(WeekDate::new(2023, 53, 1)).unwrap_err(),
                days_from_week(WeekDate::new(2023, 1, 8)).unwrap_err(),
                read_week(b"2023-W00-1").unwrap_err(),
                read_week(b"2023-W01-0").unwrap_err(),
            ],
        ),
        (
            17,
            vec![
                sheet::read(b"").unwrap_err(),
                sheet::note(b"").unwrap_err(),
                sheet::record(&sheet, 3).unwrap_err(),
                sheet::records(b"").unwrap_err(),
                sheet::check(&sheet, -1).unwrap_err().into(),
                sheet::write(b"", &[0], &mut []).unwrap_err(),
            ],
        ),
    ];
    assert_eq!(given.iter().map(|row| row.0).collect::<Vec<_>>(), numbers());
    for (number, refusals) in given {
        for refusal in refusals {
            assert_eq!(refusal.number(), number);
            assert_eq!(Some(refusal), Refusal::from_number(number));
        }
    }
}

#[test]
fn errors_that_hand_back_more() {
    for (instants, refusal) in [([0, 1, i64::MAX, i64::MIN], Refusal::OutOfRange), ([1, 1, 0, -1], Refusal::OutOfOrder)]
    {
        let error: IndexError = index_days(&instants, &mut [0; 4]).unwrap_err();
        assert_eq!((error.refusal, error.place), (refusal, Some(2)));
        assert_eq!(error.to_string(), format!("{refusal}, first at place 2"));
    }
    let error: IndexError = index_days(&[i64::MAX], &mut []).unwrap_err();
    assert_eq!((error.refusal, error.place), (Refusal::UnequalLengths, None));
    assert_eq!(Box::<dyn Error>::from(error).to_string(), Refusal::UnequalLengths.to_string());

    let error: ClaimError = check_bound(CONSTANTS, 79).unwrap_err();
    assert_eq!((error.refusal, error.least), (Refusal::DifferenceBelowBound, Some(69)));
    assert_eq!(error.to_string(), format!("{}, the least at 69", Refusal::DifferenceBelowBound));
    // A difference at 0 is the least that there is.
    let error: ClaimError = check_bound(Constants { m: 0, c: 256, ..CONSTANTS }, 1).unwrap_err();
    assert_eq!((error.refusal, error.least), (Refusal::DifferenceBelowBound, Some(0)));
    for (bound, refusal) in [(68, Refusal::NoDifferenceUpToBound), (-1, Refusal::ConstantOutOfLimits)] {
        let error: ClaimError = check_bound(CONSTANTS, bound).unwrap_err();
        assert_eq!((error.refusal, error.least), (refusal, None));
        assert_eq!(Box::<dyn Error>::from(error).to_string(), refusal.to_string());
    }
    let error: ClaimError = sheet::check(&sheet_of(b"", &[1, 0, 10, 26, 0, 8, 0, 79]), 0).unwrap_err();
    assert_eq!(error, check_bound(CONSTANTS, 79).unwrap_err());
    let error: ClaimError = sheet::check(b"", 0).unwrap_err();
    assert_eq!((error.refusal, error.least), (Refusal::MalformedSheet, None));
    assert_eq!(
        error.to_string(),
        "bytes that are no sheet, a note and numbers that make none, or a record that is not there"
    );
}
