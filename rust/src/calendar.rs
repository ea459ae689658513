//! Days and dates of the proleptic Gregorian calendar.

use crate::raw;
use crate::refusal::{decided, placed, returned, Refusal};
use crate::text::pad_date;
use core::fmt;
use core::ops::RangeInclusive;

/// The first and the last year. Years are astronomical: year 0 is the one before year 1, and -1 the one before year 0. Dates before
/// October 1582 are mostly given by the Julian calendar, which is another one: convert them first.
pub const YEARS: RangeInclusive<i64> = -32000..=31999;

/// The first and the last month of a year.
pub const MONTHS: RangeInclusive<i64> = 1..=12;

/// The counts of the first and the last day of [`YEARS`], from 1970-01-01.
///
/// ```
/// use ovenquill::{civil_from_days, Date, DAYS, YEARS};
///
/// assert_eq!(civil_from_days(*DAYS.start()), Ok(Date::new(*YEARS.start(), 1, 1)));
/// assert_eq!(civil_from_days(*DAYS.end()), Ok(Date::new(*YEARS.end(), 12, 31)));
/// ```
pub const DAYS: RangeInclusive<i64> = -12407288..=10968231;

/// A date: any three numbers, which the calls accept or refuse.
///
/// The order of right dates is that of time.
///
/// ```
/// use ovenquill::Date;
///
/// let date = Date::new(2023, 5, 10);
/// assert_eq!(date, Date { year: 2023, month: 5, day: 10 });
/// assert_eq!(date.to_string(), "2023-05-10");
/// assert_eq!(format!("{date:>12}"), "  2023-05-10");
/// assert!(date < Date::new(2023, 12, 1));
/// assert_eq!(Date::new(-1, 12, 31).to_string(), "-0001-12-31");
/// ```
#[derive(Clone, Copy, Debug, PartialEq, Eq, PartialOrd, Ord, Hash)]
#[repr(C)]
pub struct Date {
    /// The year, counted as in [`YEARS`].
    pub year: i64,
    /// The month, from 1.
    pub month: i64,
    /// The day of the month, from 1.
    pub day: i64,
}

impl Date {
    /// The date with these numbers.
    ///
    /// ```
    /// use ovenquill::{add_days, Date};
    ///
    /// assert_eq!(add_days(Date::new(2024, 2, 28), 1), Ok(Date::new(2024, 2, 29)));
    /// ```
    pub const fn new(year: i64, month: i64, day: i64) -> Date {
        Date { year, month, day }
    }
}

/// Writes `YYYY-MM-DD`, with a minus sign before a year below zero and more digits where a number has them.
impl fmt::Display for Date {
    fn fmt(&self, f: &mut fmt::Formatter<'_>) -> fmt::Result {
        pad_date(f, self.year, format_args!("{:02}-{:02}", self.month, self.day))
    }
}

/// The place that a call writes a date to, before it does.
const NO_DATE: Date = Date::new(0, 0, 0);

/// The count of a date, in days from 1970-01-01.
///
/// Refused are, in this order, a year outside [`YEARS`] ([`Refusal::YearOutOfRange`]), a month outside [`MONTHS`]
/// ([`Refusal::MonthOutOfRange`]) and a day that the month does not have ([`Refusal::DayOutOfRange`]).
///
/// ```
/// use ovenquill::{days_from_civil, Date, Refusal};
///
/// assert_eq!(days_from_civil(Date::new(2023, 5, 10)), Ok(19487));
/// assert_eq!(days_from_civil(Date::new(1969, 12, 31)), Ok(-1));
/// assert_eq!(days_from_civil(Date::new(-4, 2, 29)), Ok(-720930));
/// assert_eq!(days_from_civil(Date::new(1900, 2, 29)), Err(Refusal::DayOutOfRange));
/// ```
#[inline]
pub fn days_from_civil(date: Date) -> Result<i64, Refusal> {
    let Date { year, month, day } = date;
    // SAFETY: the place is ours to lend.
    placed(0, |days| unsafe { raw::ovenquill_days_from_civil(year, month, day, days) })
}

/// The date of a count of days from 1970-01-01.
///
/// Refused is a count outside [`DAYS`] ([`Refusal::OutOfRange`]).
///
/// There are three ways to a date, which are proved to answer the same for every number. This one is the fastest and the one for a
/// program: it multiplies and shifts, and has month and day from a table of the days of a year. [`civil_from_days_plain`] divides,
/// and [`civil_from_days_audit`] looks a day up among the first days of the years.
///
/// ```
/// use ovenquill::{civil_from_days, Date, Refusal};
///
/// assert_eq!(civil_from_days(0), Ok(Date::new(1970, 1, 1)));
/// assert_eq!(civil_from_days(11016), Ok(Date::new(2000, 2, 29)));
/// assert_eq!(civil_from_days(-719529), Ok(Date::new(-1, 12, 31)));
/// assert_eq!(civil_from_days(i64::MAX), Err(Refusal::OutOfRange));
/// ```
#[inline]
pub fn civil_from_days(days: i64) -> Result<Date, Refusal> {
    // SAFETY: the place is ours to lend.
    placed(NO_DATE, |date| unsafe { raw::ovenquill_civil_from_days(days, date) })
}

/// The date of a count of days from 1970-01-01, by ordinary divisions.
///
/// Answers and refuses as [`civil_from_days`] does. It divides by 146097, 1461 and 153 as algorithm 3 of Neri and Schneider's paper
/// on calendar algorithms does, so it is the one to compare with the paper. It takes about one and a half times as long.
///
/// ```
/// use ovenquill::{civil_from_days_plain, Date, Refusal};
///
/// assert_eq!(civil_from_days_plain(11016), Ok(Date::new(2000, 2, 29)));
/// assert_eq!(civil_from_days_plain(i64::MAX), Err(Refusal::OutOfRange));
/// ```
#[inline]
pub fn civil_from_days_plain(days: i64) -> Result<Date, Refusal> {
    // SAFETY: the call takes any number, and the place is ours to lend.
    placed(NO_DATE, |date| unsafe { raw::ovenquill_civil_from_days_plain(days, date) })
}

/// The date of a count of days from 1970-01-01, for audits at a desk.
///
/// Answers and refuses as [`civil_from_days`] does. Each call fills a table of the days on which the 400 years of a cycle and the
/// year after them begin, by the leap rule alone, and looks for the year and then for the month of the day, so it is the one to
/// follow by hand and to hold other calendars to. It takes some 200 times as long as [`civil_from_days`], needs less than 2 KiB of
/// stack and calls `memset`: a program that converts dates as it goes should take one of the other two.
///
/// ```
/// use ovenquill::{civil_from_days_audit, Date, Refusal};
///
/// assert_eq!(civil_from_days_audit(11016), Ok(Date::new(2000, 2, 29)));
/// assert_eq!(civil_from_days_audit(i64::MAX), Err(Refusal::OutOfRange));
/// ```
#[inline]
pub fn civil_from_days_audit(days: i64) -> Result<Date, Refusal> {
    // SAFETY: the call takes any number, and the place is ours to lend.
    placed(NO_DATE, |date| unsafe { raw::ovenquill_civil_from_days_audit(days, date) })
}

/// The date that is so many days after a date, or before it where the number is negative.
///
/// Refused are a date that is none, as by [`days_from_civil`], and then a shifted date outside the range, for which no sum
/// wraps around ([`Refusal::OutOfRange`]).
///
/// ```
/// use ovenquill::{add_days, Date, Refusal};
///
/// let date = Date::new(2023, 12, 31);
/// assert_eq!(add_days(date, 1), Ok(Date::new(2024, 1, 1)));
/// assert_eq!(add_days(date, -365), Ok(Date::new(2022, 12, 31)));
/// assert_eq!(add_days(date, i64::MAX), Err(Refusal::OutOfRange));
/// ```
#[inline]
pub fn add_days(date: Date, days: i64) -> Result<Date, Refusal> {
    let Date { year, month, day } = date;
    // SAFETY: the place is ours to lend.
    placed(NO_DATE, |date| unsafe { raw::ovenquill_add_days(year, month, day, days, date) })
}

/// Whether a year is leap.
///
/// Refused is a year outside [`YEARS`] ([`Refusal::YearOutOfRange`]).
///
/// ```
/// use ovenquill::{is_leap, Refusal, YEARS};
///
/// assert_eq!(is_leap(2000), Ok(true));
/// assert_eq!(is_leap(2100), Ok(false));
/// assert_eq!(is_leap(-4), Ok(true));
/// assert_eq!(is_leap(YEARS.end() + 1), Err(Refusal::YearOutOfRange));
/// ```
#[inline]
pub fn is_leap(year: i64) -> Result<bool, Refusal> {
    // SAFETY: the call takes any number.
    decided(unsafe { raw::ovenquill_is_leap(year) })
}

/// The last day of a month, which is the month's length.
///
/// Refused are a year outside [`YEARS`] ([`Refusal::YearOutOfRange`]) and then a month outside [`MONTHS`]
/// ([`Refusal::MonthOutOfRange`]).
///
/// ```
/// use ovenquill::{last_day_of_month, Refusal};
///
/// assert_eq!(last_day_of_month(2024, 2), Ok(29));
/// assert_eq!(last_day_of_month(2023, 13), Err(Refusal::MonthOutOfRange));
/// ```
#[inline]
pub fn last_day_of_month(year: i64, month: i64) -> Result<i64, Refusal> {
    // SAFETY: the call takes any numbers.
    returned(unsafe { raw::ovenquill_last_day_of_month(year, month) })
}

/// The day of the year of a date, counted from 1.
///
/// Refused is a date that is none, as by [`days_from_civil`].
///
/// ```
/// use ovenquill::{day_of_year, Date, Refusal};
///
/// assert_eq!(day_of_year(Date::new(2000, 12, 31)), Ok(366));
/// assert_eq!(day_of_year(Date::new(2023, 4, 31)), Err(Refusal::DayOutOfRange));
/// ```
#[inline]
pub fn day_of_year(date: Date) -> Result<i64, Refusal> {
    // SAFETY: the call takes any numbers.
    returned(unsafe { raw::ovenquill_day_of_year(date.year, date.month, date.day) })
}
