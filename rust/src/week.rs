//! ISO 8601 week dates. A week runs from Monday to Sunday and belongs to the year in which its Thursday lies.

use crate::calendar::YEARS;
use crate::raw;
use crate::refusal::{placed, Refusal};
use crate::text::pad_date;
use core::fmt;
use core::ops::RangeInclusive;

/// The first and the last week year. The first days of [`DAYS`](crate::DAYS) lie in a week of the year before the first
/// calendar year; of that week year only these days are in the range.
///
/// ```
/// use ovenquill::{days_from_week, Refusal, WeekDate, DAYS, WEEK_YEARS};
///
/// let first = WeekDate::new(*WEEK_YEARS.start(), 52, 6);
/// assert_eq!(days_from_week(first), Ok(*DAYS.start()));
/// assert_eq!(days_from_week(WeekDate { weekday: 5, ..first }), Err(Refusal::OutOfRange));
/// ```
pub const WEEK_YEARS: RangeInclusive<i64> = *YEARS.start() - 1..=*YEARS.end();

/// An ISO 8601 week date: any three numbers, which the calls accept or refuse.
///
/// The order of right week dates is that of time.
///
/// ```
/// use ovenquill::WeekDate;
///
/// let date = WeekDate::new(2023, 19, 3);
/// assert_eq!(date, WeekDate { year: 2023, week: 19, weekday: 3 });
/// assert_eq!(date.to_string(), "2023-W19-3");
/// assert_eq!(format!("{date:>12}"), "  2023-W19-3");
/// assert!(date < WeekDate::new(2023, 20, 1));
/// ```
#[derive(Clone, Copy, Debug, PartialEq, Eq, PartialOrd, Ord, Hash)]
#[repr(C)]
pub struct WeekDate {
    /// The week year: the calendar year of the week's Thursday.
    pub year: i64,
    /// The week, 1 to 52 or 53. Week 1 has the year's first Thursday, and 4 January.
    pub week: i64,
    /// The weekday, 1 Monday to 7 Sunday; [`Weekday::from_number`](crate::Weekday::from_number) gives its name.
    pub weekday: i64,
}

impl WeekDate {
    /// The week date with these numbers.
    ///
    /// ```
    /// use ovenquill::{days_from_week, WeekDate};
    ///
    /// assert_eq!(days_from_week(WeekDate::new(1970, 1, 4)), Ok(0));
    /// ```
    pub const fn new(year: i64, week: i64, weekday: i64) -> WeekDate {
        WeekDate { year, week, weekday }
    }
}

/// Writes `YYYY-Www-D`, with a minus sign before a year below zero and more digits where a number has them.
impl fmt::Display for WeekDate {
    fn fmt(&self, f: &mut fmt::Formatter<'_>) -> fmt::Result {
        pad_date(f, self.year, format_args!("W{:02}-{}", self.week, self.weekday))
    }
}

/// The place that a call writes a week date to, before it does.
const NO_WEEK_DATE: WeekDate = WeekDate::new(0, 0, 0);

/// The week date of a count of days from 1970-01-01.
///
/// Refused is a count outside [`DAYS`](crate::DAYS) ([`Refusal::OutOfRange`]).
///
/// ```
/// use ovenquill::{days_from_civil, week_from_days, Date, Refusal, WeekDate};
///
/// let new_year = days_from_civil(Date::new(2021, 1, 1))?;
/// assert_eq!(week_from_days(new_year), Ok(WeekDate::new(2020, 53, 5)));
/// assert_eq!(week_from_days(i64::MIN), Err(Refusal::OutOfRange));
/// # Ok::<(), Refusal>(())
/// ```
#[inline]
pub fn week_from_days(days: i64) -> Result<WeekDate, Refusal> {
    // SAFETY: the call takes any number, and the place is ours to lend.
    placed(NO_WEEK_DATE, |week| unsafe { raw::ovenquill_week_from_days(days, week) })
}

/// The count of a week date, in days from 1970-01-01.
///
/// Refused are, in this order, a week year outside [`WEEK_YEARS`] ([`Refusal::YearOutOfRange`]), a week that the year does not
/// have or a weekday outside 1 to 7 ([`Refusal::WeekOutOfRange`]) and a day outside [`DAYS`](crate::DAYS)
/// ([`Refusal::OutOfRange`]).
///
/// ```
/// use ovenquill::{days_from_week, Refusal, WeekDate, WEEK_YEARS};
///
/// assert_eq!(days_from_week(WeekDate::new(2023, 19, 3)), Ok(19487));
/// assert_eq!(days_from_week(WeekDate::new(2021, 53, 1)), Err(Refusal::WeekOutOfRange));
/// assert_eq!(days_from_week(WeekDate::new(*WEEK_YEARS.end(), 52, 6)), Err(Refusal::OutOfRange));
/// ```
#[inline]
pub fn days_from_week(date: WeekDate) -> Result<i64, Refusal> {
    // SAFETY: the call takes any numbers, and the place is ours to lend.
    placed(0, |days| unsafe { raw::ovenquill_days_from_week(date.year, date.week, date.weekday, days) })
}
