//! Change request Seven in plain Rust, with the years of request Eight, written from their text and sharing nothing with the
//! library but the type of week dates. The week dates are a table of every day, built by stepping from each day to the next and
//! counting the Thursdays of each year, also of those that lie outside the range; a week date is looked for among all days of its
//! week year. Labels go byte by byte.

use super::answer::Answer::{self, Refused, Value};
use super::plain::{self, Day, FIRST_DAY, FIRST_YEAR, LAST_DAY, LAST_YEAR, WEEKDAYS};
use ovenquill::WeekDate;
use std::sync::OnceLock;

/// The first day lies in a week of the year before, the last day in one of its own year.
pub const FIRST_WEEK_YEAR: i64 = FIRST_YEAR - 1;
pub const LAST_WEEK_YEAR: i64 = LAST_YEAR;
/// 0000-W01-1 and 9999-W52-7.
pub const FIRST_WEEK_LABEL_DAY: i64 = -719526;
pub const LAST_WEEK_LABEL_DAY: i64 = 2932898;
pub const WEEK_LABEL_BYTES: usize = 10;

/// A day's week date as the table has it.
#[derive(Clone, Copy)]
struct InWeek {
    year: i16,
    week: u8,
    weekday: u8,
}

struct Weeks {
    /// Every day of the week years, from the first, also the days outside the range.
    days: Vec<InWeek>,
    /// The count of the first of them.
    first: i64,
    /// Where in the table each week year begins, and where the last one ends.
    years: Vec<usize>,
}

/// The first of January of a year before the range, and its count.
fn new_year_before(year: i64) -> (Day, i64) {
    let days = (year..FIRST_YEAR).map(|year| if plain::leap(year) { 366 } else { 365 }).sum::<i64>();
    let first_weekday = plain::weekday(FIRST_DAY).value();
    let place = WEEKDAYS.iter().position(|&weekday| weekday == first_weekday).expect("one of the seven") as i64;
    let in_week = (place - days).rem_euclid(7) as u8;
    (Day { year: year as i16, month: 1, day: 1, in_week, day_of_year: 1 }, FIRST_DAY - days)
}

fn weeks() -> &'static Weeks {
    static WEEKS: OnceLock<Weeks> = OnceLock::new();
    WEEKS.get_or_init(|| {
        let (mut today, mut count) = new_year_before(FIRST_WEEK_YEAR);
        let mut weeks = Weeks { days: Vec::new(), first: count, years: Vec::new() };
        let mut thursdays = 0;
        loop {
            if count == FIRST_DAY {
                assert_eq!((i64::from(today.year), today.month, today.day), (FIRST_YEAR, 1, 1));
            }
            if WEEKDAYS[usize::from(today.in_week)].1 == "Thursday" {
                if weeks.days.is_empty() {
                    weeks.first = count - i64::from(today.in_week);
                }
                if today.day_of_year <= 7 {
                    thursdays = 0;
                    weeks.years.push(weeks.days.len());
                }
                if i64::from(today.year) > LAST_WEEK_YEAR {
                    return weeks;
                }
                thursdays += 1;
                let day = |(number, _)| InWeek { year: today.year, week: thursdays, weekday: number as u8 };
                weeks.days.extend(WEEKDAYS.map(day));
            }
            today = plain::next(today);
            count += 1;
        }
    })
}

pub fn week_from_days(days: i64) -> Answer<WeekDate> {
    if !(FIRST_DAY..=LAST_DAY).contains(&days) {
        return Refused(4);
    }
    let InWeek { year, week, weekday } = weeks().days[(days - weeks().first) as usize];
    Value(WeekDate { year: year.into(), week: week.into(), weekday: weekday.into() })
}

pub fn days_from_week(date: WeekDate) -> Answer<i64> {
    if !(FIRST_WEEK_YEAR..=LAST_WEEK_YEAR).contains(&date.year) {
        return Refused(1);
    }
    let year = (date.year - FIRST_WEEK_YEAR) as usize;
    let (start, end) = (weeks().years[year], weeks().years[year + 1]);
    let has_it = |day: &InWeek| i64::from(day.week) == date.week && i64::from(day.weekday) == date.weekday;
    match weeks().days[start..end].iter().position(has_it).map(|place| weeks().first + (start + place) as i64) {
        None => Refused(16),
        Some(days) if !(FIRST_DAY..=LAST_DAY).contains(&days) => Refused(4),
        Some(days) => Value(days),
    }
}

/// The label of a week date whose numbers have no more digits than a label.
pub fn week_label(date: WeekDate) -> [u8; WEEK_LABEL_BYTES] {
    let digit = |number: i64| b'0' + (number % 10) as u8;
    let WeekDate { year, week, weekday } = date;
    let [y, e, a, r] = [year / 1000, year / 100, year / 10, year].map(digit);
    [y, e, a, r, b'-', b'W', digit(week / 10), digit(week), b'-', digit(weekday)]
}

pub fn write_week(days: i64, out: &mut [u8]) -> Answer<usize> {
    match week_from_days(days) {
        Value(date) if plain::label_year(date.year) => plain::put(&week_label(date), out),
        Value(_) => Refused(1),
        _ => Refused(4),
    }
}

pub fn read_week(label: &[u8]) -> Answer<i64> {
    let &[y, e, a, r, b'-', b'W', w, k, b'-', d] = label else { return Refused(8) };
    if ![y, e, a, r, w, k, d].iter().all(u8::is_ascii_digit) {
        return Refused(8);
    }
    let number = |digits: &[u8]| digits.iter().fold(0, |number, digit| number * 10 + i64::from(digit - b'0'));
    days_from_week(WeekDate { year: number(&[y, e, a, r]), week: number(&[w, k]), weekday: number(&[d]) })
}
