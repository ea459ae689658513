//! The numbered refusals, and how a call's answer is told from one.

use crate::calendar::{MONTHS, YEARS};
use crate::instant::{DAY, HOUR, MINUTE, SECOND};
use crate::labels::{INSTANT_LABEL_BYTES, LABEL_YEARS, POSITIONS, WEEK_LABEL_BYTES};
use crate::text::pad;
use crate::transport::{CLOCK_POSITIONS, CLOCK_VALUES};
use crate::week::WEEK_YEARS;
use crate::weekday::Weekday;
use core::cmp::Ordering;
use core::error::Error;
use core::fmt;

/// Makes [`Refusal`] of a list that has each refusal once: its meaning, its name, its number and its words.
macro_rules! refusals {
    ($($(#[$meaning:meta])+ $name:ident = $number:literal, ($($words:tt)+);)+) => {
        /// Why a call was refused.
        ///
        /// Each is given exactly when its cause holds and no cause before it in the call's order does; each call says its
        /// order. A refused call changes nothing that was lent to it.
        ///
        /// ```
        /// use ovenquill::{days_from_civil, Date, Refusal};
        ///
        /// let refusal = days_from_civil(Date::new(2023, 13, 99)).unwrap_err();
        /// assert_eq!(refusal, Refusal::MonthOutOfRange);
        /// assert_eq!(refusal.number(), 2);
        /// assert_eq!(refusal.to_string(), "month outside 1..12");
        /// assert_eq!(format!("{refusal:>21}"), "  month outside 1..12");
        /// ```
        #[derive(Clone, Copy, Debug, PartialEq, Eq, Hash)]
        #[non_exhaustive]
        pub enum Refusal {
            $($(#[$meaning])+ $name,)+
            /// An answer that the calls' contracts do not allow, negated: the archive that was linked is not the one that
            /// this package was made for.
            #[non_exhaustive]
            Unknown(i64),
        }

        impl Refusal {
            /// Every refusal that has a number of its own, in the order of the numbers.
            ///
            /// ```
            /// use ovenquill::Refusal;
            ///
            /// for refusal in Refusal::ALL {
            ///     println!("{}: {refusal}", refusal.number());
            /// }
            /// # assert!(Refusal::ALL.windows(2).all(|pair| pair[0].number() < pair[1].number()));
            /// ```
            pub const ALL: &'static [Refusal] = &[$(Refusal::$name),+];

            /// The refusal's number, which the C interface answers negated.
            ///
            /// ```
            /// assert_eq!(ovenquill::Refusal::UnequalLengths.number(), 12);
            /// ```
            pub const fn number(self) -> i64 {
                match self {
                    $(Refusal::$name => $number,)+
                    Refusal::Unknown(number) => number,
                }
            }

            /// The refusal that has a number.
            ///
            /// ```
            /// use ovenquill::Refusal;
            ///
            /// assert_eq!(Refusal::from_number(Refusal::BufferTooShort.number()), Some(Refusal::BufferTooShort));
            /// assert_eq!(Refusal::from_number(0), None);
            /// ```
            pub const fn from_number(number: i64) -> Option<Refusal> {
                match number {
                    $($number => Some(Refusal::$name),)+
                    _ => None,
                }
            }
        }

        impl fmt::Display for Refusal {
            fn fmt(&self, f: &mut fmt::Formatter<'_>) -> fmt::Result {
                match self {
                    $(Refusal::$name => pad(f, format_args!($($words)+)),)+
                    Refusal::Unknown(number) => {
                        pad(f, format_args!("refusal {number}, which this version does not know"))
                    }
                }
            }
        }
    };
}

refusals! {
    /// A year outside [`YEARS`], a week year outside [`WEEK_YEARS`], or either outside [`LABEL_YEARS`] where a label is written.
    YearOutOfRange = 1, (
        "year outside {}..{}, week year outside {}..{}, or either outside {}..{} in a label",
        YEARS.start(),
        YEARS.end(),
        WEEK_YEARS.start(),
        WEEK_YEARS.end(),
        LABEL_YEARS.start(),
        LABEL_YEARS.end()
    );
    /// A month outside [`MONTHS`].
    MonthOutOfRange = 2, ("month outside {}..{}", MONTHS.start(), MONTHS.end());
    /// A day that its month does not have.
    DayOutOfRange = 3, ("day outside 1..length of that month");
    /// A count outside [`DAYS`](crate::DAYS), an instant outside [`INSTANTS`](crate::INSTANTS), or a shifted date or a week
    /// date that is outside the range of dates.
    OutOfRange = 4, ("day count, instant, shifted date or week date outside the range");
    /// An hour, minute, second or millisecond that no day has. Second 60 is one.
    TimeOutOfRange = 5, (
        "hour outside 0..{}, minute or second outside 0..{}, or millisecond outside 0..{}",
        DAY / HOUR - 1,
        HOUR / MINUTE - 1,
        SECOND - 1
    );
    /// A position outside [`POSITIONS`].
    PositionOutOfRange = 6, ("position below {} or above {}", POSITIONS.start(), POSITIONS.end());
    /// A buffer with fewer bytes than the label, or than the sheet of constants or the report on one.
    BufferTooShort = 7, ("buffer shorter than the label, the sheet or the report");
    /// A label of another length or shape than the writer's; but its T and Z may be small.
    MalformedLabel = 8, (
        "label not {INSTANT_LABEL_BYTES} bytes, of a week date not {WEEK_LABEL_BYTES}, a non-digit where a digit stands, \
         or a wrong mark (T and Z may be small, W not)"
    );
    /// A constant outside [`Constants::LEAST`](crate::Constants::LEAST) and
    /// [`Constants::LARGEST`](crate::Constants::LARGEST), an end outside [`SEARCH_ENDS`](crate::SEARCH_ENDS) or a bound
    /// outside [`CLAIM_BOUNDS`](crate::CLAIM_BOUNDS).
    ConstantOutOfLimits = 9, ("a constant, a search end or a claimed bound outside its limits");
    /// The quotients differ at an input below the claimed bound.
    DifferenceBelowBound = 10, ("claim: a difference stands below the bound");
    /// The quotients differ at no input up to the claimed bound.
    NoDifferenceUpToBound = 11, ("claim: no difference at or below the bound");
    /// An index's two lists are of unequal length.
    UnequalLengths = 12, ("index lists of unequal length");
    /// A timestamp or a cue line of a wrong shape, one that [`read_position`](crate::read_position) or
    /// [`read_cue`](crate::read_cue) does not read, or a cue whose end is not later than its start.
    MalformedTiming = 13, ("timestamp or cue line of a wrong shape, or a cue's end not later than its start");
    /// A value of the transport clock outside [`CLOCK_VALUES`], or a position of it, handed in or reached, outside
    /// [`CLOCK_POSITIONS`].
    ClockOutOfRange = 14, (
        "clock value outside {}..{}, or position handed in or reached outside {}..{}",
        CLOCK_VALUES.start(),
        CLOCK_VALUES.end(),
        CLOCK_POSITIONS.start(),
        CLOCK_POSITIONS.end()
    );
    /// An instant of an index ([`index_days`](crate::index_days)) is smaller than the one before it; equal ones are accepted.
    OutOfOrder = 15, ("index instant smaller than the one before it");
    /// A week that its week year does not have, or a weekday outside 1 to 7.
    WeekOutOfRange = 16, (
        "week that its year does not have, or weekday outside {}..{}",
        Weekday::Monday.number(),
        Weekday::Sunday.number()
    );
    /// Bytes that are no sheet of constants, a place where a sheet has no record, or a note and numbers that make no sheet
    /// ([`sheet`](crate::sheet)).
    MalformedSheet = 17, ("bytes that are no sheet, a note and numbers that make none, or a record that is not there");
}

impl Error for Refusal {}

impl Refusal {
    /// The refusal that a call answered.
    pub(crate) const fn of(answer: i64) -> Refusal {
        let number = answer.wrapping_neg();
        match Refusal::from_number(number) {
            Some(refusal) => refusal,
            None => Refusal::Unknown(number),
        }
    }
}

/// What a call answered that returns its value.
#[inline]
pub(crate) fn returned(answer: i64) -> Result<i64, Refusal> {
    if answer < 0 {
        Err(Refusal::of(answer))
    } else {
        Ok(answer)
    }
}

/// What a call answered that returns how much it wrote.
#[inline]
pub(crate) fn counted(answer: i64) -> Result<usize, Refusal> {
    usize::try_from(answer).map_err(|_| Refusal::of(answer))
}

/// What a call answered that returns 0 for no and 1 for yes.
#[inline]
pub(crate) fn decided(answer: i64) -> Result<bool, Refusal> {
    match answer {
        0 => Ok(false),
        1 => Ok(true),
        _ => Err(Refusal::of(answer)),
    }
}

/// What a search below an end answered that returns the end where it found nothing.
#[inline]
pub(crate) fn found(answer: i64, end: i64) -> Result<Option<i64>, Refusal> {
    let number = returned(answer)?;
    match number.cmp(&end) {
        Ordering::Less => Ok(Some(number)),
        Ordering::Equal => Ok(None),
        Ordering::Greater => Err(Refusal::of(answer)),
    }
}

/// How much a call passed over that is never refused; an answer below zero is another archive's, and more than any list has.
#[inline]
pub(crate) fn passed_over(answer: i64) -> usize {
    counted(answer).unwrap_or(usize::MAX)
}

/// What a call wrote to the place that it was lent, if it returned 0. The place's value before the call doesn't matter.
#[inline]
pub(crate) fn placed<T>(mut place: T, call: impl FnOnce(&mut T) -> i64) -> Result<T, Refusal> {
    match call(&mut place) {
        0 => Ok(place),
        answer => Err(Refusal::of(answer)),
    }
}

#[cfg(test)]
mod tests {
    extern crate std;

    use super::{counted, decided, found, passed_over, placed, returned, Refusal};
    use std::format;
    use std::string::ToString;

    #[test]
    fn every_answer_below_or_above_zero_is_some_refusal() {
        for &refusal in Refusal::ALL {
            assert_eq!(Refusal::of(-refusal.number()), refusal);
        }
        let unknown = 1 + Refusal::ALL.iter().map(|refusal| refusal.number()).max().unwrap_or_default();
        let above_zero = Refusal::ALL.iter().map(|refusal| refusal.number());
        for answer in above_zero.chain([i64::MIN, -1000, -unknown, i64::MAX]) {
            let refusal = Refusal::of(answer);
            assert!(!Refusal::ALL.contains(&refusal));
            assert_eq!(refusal.number(), answer.wrapping_neg());
        }
        let words = format!("refusal {unknown}, which this version does not know");
        assert_eq!(Refusal::of(-unknown).to_string(), words);
        assert_eq!(format!("{:>90}", Refusal::of(-unknown)), format!("{words:>90}"));
    }

    /// Answers below zero, of refusals and of none.
    const BELOW_ZERO: [i64; 5] = [i64::MIN, -1000, -18, -4, -1];

    #[test]
    fn a_returned_value_or_count_is_not_below_zero() {
        for answer in [0, 1, 2, 1000, i64::MAX] {
            assert_eq!(returned(answer), Ok(answer));
            assert_eq!(counted(answer), usize::try_from(answer).map_err(|_| Refusal::of(answer)));
            assert_eq!(passed_over(answer), usize::try_from(answer).unwrap_or(usize::MAX));
        }
        for answer in BELOW_ZERO {
            assert_eq!(returned(answer), Err(Refusal::of(answer)));
            assert_eq!(counted(answer), Err(Refusal::of(answer)));
            assert_eq!(passed_over(answer), usize::MAX, "{answer}");
        }
    }

    #[test]
    fn only_0_and_1_decide() {
        assert_eq!(decided(0), Ok(false));
        assert_eq!(decided(1), Ok(true));
        for answer in BELOW_ZERO.into_iter().chain([2, 3, 256, i64::MAX]) {
            assert_eq!(decided(answer), Err(Refusal::of(answer)));
        }
    }

    #[test]
    fn nothing_is_found_at_the_end_or_behind_it() {
        for end in [0, 1, 69, i64::MAX - 1] {
            for below in [0, 1, 68, end - 1].into_iter().filter(|below| (0..end).contains(below)) {
                assert_eq!(found(below, end), Ok(Some(below)));
            }
            assert_eq!(found(end, end), Ok(None));
            for answer in BELOW_ZERO.into_iter().chain([end + 1, i64::MAX]) {
                assert_eq!(found(answer, end), Err(Refusal::of(answer)), "{answer} of {end}");
            }
        }
    }

    #[test]
    fn a_place_counts_only_where_0_is_returned() {
        for answer in BELOW_ZERO.into_iter().chain([0, 1, 2, 256, 1 << 32, i64::MAX]) {
            let answered = placed(5, |place| {
                *place = 7;
                answer
            });
            assert_eq!(answered, if answer == 0 { Ok(7) } else { Err(Refusal::of(answer)) });
        }
    }
}
