//! Instants: their days, their fields and the index of a recording.

use crate::calendar::DAYS;
use crate::raw;
use crate::refusal::{counted, placed, Refusal};
use crate::text::pad;
use core::error::Error;
use core::fmt;
use core::ops::RangeInclusive;

/// A second in the unit of an instant, the millisecond; the longer ones follow from it.
pub(crate) const SECOND: i64 = 1000;
pub(crate) const MINUTE: i64 = 60 * SECOND;
pub(crate) const HOUR: i64 = 60 * MINUTE;
pub(crate) const DAY: i64 = 24 * HOUR;

/// The first and the last instant, in milliseconds from 1970-01-01 00:00: those of [`DAYS`].
///
/// ```
/// use ovenquill::{day_of_instant, DAYS, INSTANTS};
///
/// assert_eq!(day_of_instant(*INSTANTS.start()), Ok(*DAYS.start()));
/// assert_eq!(day_of_instant(*INSTANTS.end()), Ok(*DAYS.end()));
/// ```
pub const INSTANTS: RangeInclusive<i64> = *DAYS.start() * DAY..=*DAYS.end() * DAY + (DAY - 1);

/// The date and the time of day of an instant: any seven numbers, which [`join_instant`] accepts or refuses.
///
/// The order of right fields is that of time.
///
/// ```
/// use ovenquill::{join_instant, split_instant, Fields};
///
/// let fields = split_instant(1683729000000)?;
/// assert_eq!(fields, Fields { year: 2023, month: 5, day: 10, hour: 14, minute: 30, second: 0, millisecond: 0 });
/// assert_eq!(join_instant(Fields { hour: 15, ..fields })?, 1683732600000);
/// # Ok::<(), ovenquill::Refusal>(())
/// ```
#[derive(Clone, Copy, Debug, PartialEq, Eq, PartialOrd, Ord, Hash)]
#[repr(C)]
pub struct Fields {
    /// The year, counted as in [`YEARS`](crate::YEARS).
    pub year: i64,
    /// The month, from 1.
    pub month: i64,
    /// The day of the month, from 1.
    pub day: i64,
    /// The hour, from 0 to 23.
    pub hour: i64,
    /// The minute, from 0 to 59.
    pub minute: i64,
    /// The second, from 0 to 59.
    pub second: i64,
    /// The millisecond of the second, from 0.
    pub millisecond: i64,
}

/// The place that a call writes fields to, before it does.
const NO_FIELDS: Fields = Fields { year: 0, month: 0, day: 0, hour: 0, minute: 0, second: 0, millisecond: 0 };

/// The day of an instant, in days from 1970-01-01: the quotient rounded toward minus infinity, also below zero.
///
/// Refused is an instant outside [`INSTANTS`] ([`Refusal::OutOfRange`]).
///
/// ```
/// use ovenquill::{day_of_instant, Refusal};
///
/// assert_eq!(day_of_instant(86400000), Ok(1));
/// assert_eq!(day_of_instant(-1), Ok(-1));
/// assert_eq!(day_of_instant(i64::MIN), Err(Refusal::OutOfRange));
/// ```
#[inline]
pub fn day_of_instant(instant: i64) -> Result<i64, Refusal> {
    // SAFETY: the place is ours to lend.
    placed(0, |days| unsafe { raw::ovenquill_day_of_instant(instant, days) })
}

/// The date and the time of day of an instant, also of one whose year has no label.
///
/// Refused is an instant outside [`INSTANTS`] ([`Refusal::OutOfRange`]).
///
/// ```
/// use ovenquill::{split_instant, Fields, Refusal};
///
/// let last = Fields { year: 1969, month: 12, day: 31, hour: 23, minute: 59, second: 59, millisecond: 999 };
/// assert_eq!(split_instant(-1), Ok(last));
/// assert_eq!(split_instant(-62167219200001), Ok(Fields { year: -1, ..last }));
/// assert_eq!(split_instant(i64::MAX), Err(Refusal::OutOfRange));
/// ```
#[inline]
pub fn split_instant(instant: i64) -> Result<Fields, Refusal> {
    // SAFETY: the place is ours to lend.
    placed(NO_FIELDS, |fields| unsafe { raw::ovenquill_split_instant(instant, fields) })
}

/// The instant with a date and a time of day.
///
/// Refused are a date that is none, as by [`days_from_civil`](crate::days_from_civil), and then an hour, minute, second or
/// millisecond that no day has ([`Refusal::TimeOutOfRange`]).
///
/// ```
/// use ovenquill::{join_instant, Fields, Refusal};
///
/// let noon = Fields { year: 1970, month: 1, day: 1, hour: 12, minute: 0, second: 0, millisecond: 0 };
/// assert_eq!(join_instant(noon), Ok(43200000));
/// assert_eq!(join_instant(Fields { second: 60, ..noon }), Err(Refusal::TimeOutOfRange));
/// ```
#[inline]
pub fn join_instant(fields: Fields) -> Result<i64, Refusal> {
    let Fields { year, month, day, hour, minute, second, millisecond } = fields;
    placed(0, |instant| {
        // SAFETY: the place is ours to lend.
        unsafe { raw::ovenquill_join_instant(year, month, day, hour, minute, second, millisecond, instant) }
    })
}

/// Why an index was refused, and where.
///
/// ```
/// use ovenquill::{index_days, Refusal};
///
/// let error = index_days(&[0, i64::MAX], &mut [0; 2]).unwrap_err();
/// assert_eq!((error.refusal, error.place), (Refusal::OutOfRange, Some(1)));
/// assert_eq!(error.to_string(), format!("{}, first at place 1", error.refusal));
///
/// let error = index_days(&[3, 5, 5, 4], &mut [0; 4]).unwrap_err();
/// assert_eq!((error.refusal, error.place), (Refusal::OutOfOrder, Some(3)));
/// assert_eq!(error.to_string(), "index instant smaller than the one before it, first at place 3");
///
/// let error = index_days(&[0, i64::MAX], &mut [0; 3]).unwrap_err();
/// assert_eq!((error.refusal, error.place), (Refusal::UnequalLengths, None));
/// ```
#[derive(Clone, Copy, Debug, PartialEq, Eq, Hash)]
#[non_exhaustive]
pub struct IndexError {
    /// The refusal.
    pub refusal: Refusal,
    /// Where the refusal is about an instant, the place of the first such, counted from 0: the first outside the range, or
    /// the first that is smaller than the one before it, which is then at `place - 1`.
    pub place: Option<usize>,
}

impl fmt::Display for IndexError {
    fn fmt(&self, f: &mut fmt::Formatter<'_>) -> fmt::Result {
        match self.place {
            Some(place) => pad(f, format_args!("{}, first at place {place}", self.refusal)),
            None => self.refusal.fmt(f),
        }
    }
}

impl Error for IndexError {}

/// The refusal alone.
impl From<IndexError> for Refusal {
    fn from(error: IndexError) -> Refusal {
        error.refusal
    }
}

/// Writes the day of each instant of a recording index to the same place of a second list, and answers how many it wrote. An
/// index is accepted only if its instants never go down; its days then never do either. Places are counted from 0.
///
/// Refused are lists of unequal length ([`Refusal::UnequalLengths`]), then an instant outside [`INSTANTS`], also one behind
/// instants that go down ([`Refusal::OutOfRange`], with the place of the first such instant), and then an instant smaller than
/// the one before it ([`Refusal::OutOfOrder`], with the place of the first such instant, 1 or more); equal instants are
/// accepted. A refused call writes no day at all.
///
/// Each call looks at its own list only: whoever hands in an index in parts compares the last instant of a part with the
/// first of the next. For instants in any order there is [`day_of_instant`].
///
/// ```
/// use ovenquill::{index_days, Refusal};
///
/// let mut days = [0; 4];
/// assert_eq!(index_days(&[-1, 0, 0, 86400000], &mut days), Ok(4));
/// assert_eq!(days, [-1, 0, 0, 1]);
///
/// let error = index_days(&[1, 0, i64::MAX, 0], &mut days).unwrap_err();
/// assert_eq!((error.refusal, error.place), (Refusal::OutOfRange, Some(2)));
/// let error = index_days(&[1, 0, 86400000, 0], &mut days).unwrap_err();
/// assert_eq!((error.refusal, error.place), (Refusal::OutOfOrder, Some(1)));
/// assert_eq!(days, [-1, 0, 0, 1]);
/// ```
#[inline]
pub fn index_days(instants: &[i64], days: &mut [i32]) -> Result<usize, IndexError> {
    // No place: the call leaves it so where it has none to hand back.
    let mut place = -1;
    // SAFETY: each pointer and length are those of one slice, and the place is ours to lend.
    let answer = unsafe {
        raw::ovenquill_index_days(instants.as_ptr(), instants.len(), days.as_mut_ptr(), days.len(), &mut place)
    };
    counted(answer).map_err(|refusal| IndexError { refusal, place: usize::try_from(place).ok() })
}
