//! Days of the week.

use crate::raw;
use crate::refusal::Refusal;
use core::fmt;

/// Makes [`Weekday`] of a list that has each weekday once: its name and its number.
macro_rules! weekdays {
    ($($name:ident = $number:literal,)+) => {
        /// A day of the week. Its number is that of ISO 8601: 1 Monday to 7 Sunday.
        ///
        /// ```
        /// use ovenquill::{weekday, Weekday};
        ///
        /// let day = weekday(19487)?;
        /// assert_eq!(day, Weekday::Wednesday);
        /// assert_eq!(Weekday::from_number(day.number()), Some(day));
        /// assert_eq!(day.name(), "Wednesday");
        /// assert_eq!(format!("on a {day}"), "on a Wednesday");
        /// # Ok::<(), ovenquill::Refusal>(())
        /// ```
        #[derive(Clone, Copy, Debug, PartialEq, Eq, Hash)]
        #[allow(missing_docs)]
        pub enum Weekday {
            $($name = $number,)+
        }

        impl Weekday {
            /// All seven, in the order of their numbers. These begin with 1, so a weekday's number is not its place here:
            /// [`from_number`](Self::from_number) goes by the number.
            ///
            /// ```
            /// use ovenquill::Weekday;
            ///
            /// for day in Weekday::ALL {
            ///     println!("{}: {day}", day.number());
            /// }
            /// # assert!(Weekday::ALL.windows(2).all(|pair| pair[0].number() + 1 == pair[1].number()));
            /// ```
            pub const ALL: [Weekday; 7] = [$(Weekday::$name),+];

            /// The weekday that has a number, 1 Monday to 7 Sunday; none has another number, as 0.
            ///
            /// ```
            /// use ovenquill::Weekday;
            ///
            /// for day in Weekday::ALL {
            ///     assert_eq!(Weekday::from_number(day.number()), Some(day));
            /// }
            /// assert_eq!(Weekday::from_number(0), None);
            /// assert_eq!(Weekday::from_number(8), None);
            /// ```
            pub const fn from_number(number: i64) -> Option<Weekday> {
                match number {
                    $($number => Some(Weekday::$name),)+
                    _ => None,
                }
            }

            /// The English name.
            ///
            /// ```
            /// assert_eq!(ovenquill::Weekday::Saturday.name(), "Saturday");
            /// ```
            pub const fn name(self) -> &'static str {
                match self {
                    $(Weekday::$name => stringify!($name),)+
                }
            }
        }
    };
}

weekdays! {
    Monday = 1,
    Tuesday = 2,
    Wednesday = 3,
    Thursday = 4,
    Friday = 5,
    Saturday = 6,
    Sunday = 7,
}

impl Weekday {
    /// The number, 1 Monday to 7 Sunday, which stands at each name.
    ///
    /// ```
    /// use ovenquill::Weekday;
    ///
    /// assert_eq!(Weekday::Monday.number(), 1);
    /// assert_eq!(Weekday::Sunday.number(), 7);
    /// ```
    pub const fn number(self) -> i64 {
        self as i64
    }
}

impl fmt::Display for Weekday {
    fn fmt(&self, f: &mut fmt::Formatter<'_>) -> fmt::Result {
        f.pad(self.name())
    }
}

/// The weekday of a count of days from 1970-01-01.
///
/// Refused is a count outside [`DAYS`](crate::DAYS) ([`Refusal::OutOfRange`]).
///
/// ```
/// use ovenquill::{weekday, Refusal, Weekday};
///
/// assert_eq!(weekday(0), Ok(Weekday::Thursday));
/// assert_eq!(weekday(-1), Ok(Weekday::Wednesday));
/// assert_eq!(weekday(i64::MAX), Err(Refusal::OutOfRange));
/// ```
#[inline]
pub fn weekday(days: i64) -> Result<Weekday, Refusal> {
    // SAFETY: the call takes any number.
    let answer = unsafe { raw::ovenquill_weekday(days) };
    Weekday::from_number(answer).ok_or(Refusal::of(answer))
}
