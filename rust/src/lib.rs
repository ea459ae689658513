//! The proleptic Gregorian calendar, ISO 8601 week dates and their labels, instants and their RFC 3339 labels, position
//! labels (WebVTT timestamps) and cue lines, a checker of multiply-and-shift constants, sheets of claims about them, and a
//! follower of the 33-bit transport clock, proved right.
//!
//! This package is a safe wrapper over the archive `libovenquill.a`, whose functions are proved to meet their contracts.
//! What the wrapper itself does is small: it lends the calls places for their answers and gives the numbers of refusals
//! their names. It allocates nothing, keeps no state, needs no `std` and panics on no input.
//!
//! | subject | types | calls |
//! |---|---|---|
//! | days and dates | [`Date`], [`Weekday`] | [`days_from_civil`], [`civil_from_days`], [`civil_from_days_plain`], [`civil_from_days_audit`], [`weekday`], [`is_leap`], [`last_day_of_month`], [`day_of_year`], [`add_days`] |
//! | week dates and their labels | [`WeekDate`], [`WeekLabel`] | [`week_from_days`], [`days_from_week`], [`week_label`], [`write_week`], [`read_week`] |
//! | instants | [`Fields`], [`IndexError`] | [`day_of_instant`], [`split_instant`], [`join_instant`], [`index_days`] |
//! | labels of instants | [`InstantLabel`] | [`instant_label`], [`write_instant`], [`read_instant`] |
//! | labels of positions, cue lines | [`PositionLabel`], [`Cue`] | [`position_label`], [`write_position`], [`read_position`], [`read_cue`] |
//! | constants that stand for a division | [`Constants`], [`ClaimError`] | [`first_difference`], [`check_bound`] |
//! | claims by file, in [`sheet`] | [`Record`](sheet::Record), [`Records`](sheet::Records), [`Contents`](sheet::Contents) | [`read`](sheet::read), [`note`](sheet::note), [`record`](sheet::record), [`records`](sheet::records), [`check`](sheet::check), [`write`](sheet::write), [`report`](sheet::report) |
//! | the clock of a transport stream | [`Clock`], [`ClockPosition`] | [`Clock::follow`], [`Clock::follow_all`] |
//!
//! Every call takes any numbers and any slices. What it does not take it answers with a [`Refusal`], which has a number and
//! words; a refused call changes nothing that was lent to it. [`Clock::follow_all`] is never refused: it passes over the
//! values that [`Clock::follow`] refuses, and counts them. A count of days is counted from 1970-01-01, an instant in
//! milliseconds from 1970-01-01 00:00, both negative before. There are no time zones, no leap seconds and no locale.
//!
//! From a count to its date there are three ways with the same answers: [`civil_from_days`] is the fastest and the one for a program,
//! [`civil_from_days_plain`] divides as the published algorithm does, and [`civil_from_days_audit`], for audits at a desk, counts
//! from the leap rule.
//!
//! The calendar has the years of [`YEARS`], which are astronomical: year 0 is the one before year 1. Labels of instants and of week
//! dates have those of [`LABEL_YEARS`] only; of an instant in another year [`split_instant`] gives the fields, and of a day
//! [`week_from_days`] the week date.
//!
//! ```
//! use ovenquill::{
//!     civil_from_days, day_of_instant, instant_label, read_instant, week_label, weekday, Date, Refusal, Weekday,
//! };
//!
//! let instant = read_instant(b"2023-05-10T14:30:00.000Z")?;
//! assert_eq!(instant, 1683729000000);
//! assert_eq!(instant_label(instant)?, "2023-05-10T14:30:00.000Z");
//!
//! let days = day_of_instant(instant)?;
//! assert_eq!(civil_from_days(days)?, Date::new(2023, 5, 10));
//! assert_eq!(weekday(days)?, Weekday::Wednesday);
//! assert_eq!(week_label(days)?, "2023-W19-3");
//!
//! let refused = read_instant(b"2016-12-31T23:59:60.000Z");
//! assert_eq!(refused, Err(Refusal::TimeOutOfRange));
//! # Ok::<(), Refusal>(())
//! ```

#![no_std]
#![deny(missing_docs)]
#![deny(clippy::unwrap_used, clippy::expect_used, clippy::panic, clippy::unreachable, clippy::indexing_slicing)]

mod calendar;
mod constants;
mod instant;
mod labels;
#[doc(hidden)]
pub mod raw;
mod refusal;
pub mod sheet;
mod text;
mod transport;
mod week;
mod weekday;

pub use calendar::{
    add_days, civil_from_days, civil_from_days_audit, civil_from_days_plain, day_of_year, days_from_civil, is_leap,
    last_day_of_month, Date, DAYS, MONTHS, YEARS,
};
pub use constants::{check_bound, first_difference, ClaimError, Constants, CLAIM_BOUNDS, SEARCH_ENDS};
pub use instant::{day_of_instant, index_days, join_instant, split_instant, Fields, IndexError, INSTANTS};
pub use labels::{
    instant_label, position_label, read_cue, read_instant, read_position, read_week, week_label, write_instant,
    write_position, write_week, Cue, InstantLabel, PositionLabel, WeekLabel, INSTANT_LABEL_BYTES, LABEL_YEARS,
    POSITIONS, POSITION_LABEL_BYTES, WEEK_LABEL_BYTES,
};
pub use refusal::Refusal;
pub use transport::{Clock, ClockPosition, CLOCK_POSITIONS, CLOCK_TICKS_PER_MILLISECOND, CLOCK_VALUES};
pub use week::{days_from_week, week_from_days, WeekDate, WEEK_YEARS};
pub use weekday::{weekday, Weekday};
