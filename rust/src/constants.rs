//! Constants that stand for a division: the least input where a multiply-and-shift quotient goes wrong.

use crate::raw;
use crate::refusal::{found, placed, Refusal};
use crate::text::pad;
use core::error::Error;
use core::fmt;
use core::ops::RangeInclusive;

/// The least and the largest end of a search.
pub const SEARCH_ENDS: RangeInclusive<i64> = 0..=4294967295;

/// The least and the largest bound of a claim: inputs below the largest end.
pub const CLAIM_BOUNDS: RangeInclusive<i64> = *SEARCH_ENDS.start()..=*SEARCH_ENDS.end() - 1;

/// Constants of a device that divides by multiplying and shifting, and the division that they stand for.
///
/// At each input n from 0, the exact quotient is the floor of `(a*n + b) / d` and the device's is `(m*n + c) >> k`. The two
/// differ at n where they are more than `t` apart. Any seven numbers are constants; the calls refuse those outside
/// [`Constants::LEAST`] and [`Constants::LARGEST`].
///
/// ```
/// use ovenquill::{first_difference, Constants};
///
/// // A tenth by (26*n) >> 8.
/// let tenth = Constants { a: 1, b: 0, d: 10, m: 26, c: 0, k: 8, t: 0 };
/// assert_eq!(first_difference(tenth, 1000), Ok(Some(69)));
/// assert_eq!(first_difference(Constants { t: 1, ..tenth }, 1000), Ok(Some(709)));
/// ```
#[derive(Clone, Copy, Debug, PartialEq, Eq, Hash)]
pub struct Constants {
    /// The exact fraction's multiplier.
    pub a: i64,
    /// The exact fraction's offset.
    pub b: i64,
    /// The exact fraction's divisor.
    pub d: i64,
    /// The device's multiplier.
    pub m: i64,
    /// The device's offset.
    pub c: i64,
    /// The device's shift to the right.
    pub k: i64,
    /// The tolerance.
    pub t: i64,
}

impl Constants {
    /// The least of each number that is allowed.
    ///
    /// ```
    /// use ovenquill::{first_difference, Constants, Refusal};
    ///
    /// assert_eq!(first_difference(Constants::LEAST, 1), Ok(None));
    /// assert_eq!(first_difference(Constants { d: 0, ..Constants::LEAST }, 1), Err(Refusal::ConstantOutOfLimits));
    /// ```
    pub const LEAST: Constants = Constants { a: 1, b: 0, d: 1, m: 0, c: 0, k: 0, t: 0 };

    /// The largest of each number that is allowed.
    ///
    /// ```
    /// use ovenquill::{first_difference, Constants, Refusal};
    ///
    /// assert!(first_difference(Constants::LARGEST, 1).is_ok());
    /// assert_eq!(first_difference(Constants { k: 48, ..Constants::LARGEST }, 1), Err(Refusal::ConstantOutOfLimits));
    /// ```
    pub const LARGEST: Constants =
        Constants { a: 1023, b: 1023, d: 1048575, m: 4294967295, c: 4294967295, k: 47, t: 255 };
}

/// The least input below `end` at which the quotients differ; `None` where there is none.
///
/// Refused are numbers outside their limits ([`Refusal::ConstantOutOfLimits`]): the constants, or an end outside
/// [`SEARCH_ENDS`].
///
/// ```
/// use ovenquill::{first_difference, Constants, Refusal};
///
/// let tenth = Constants { a: 1, b: 0, d: 10, m: 26, c: 0, k: 8, t: 0 };
/// assert_eq!(first_difference(tenth, 70), Ok(Some(69)));
/// assert_eq!(first_difference(tenth, 69), Ok(None));
/// assert_eq!(first_difference(tenth, -1), Err(Refusal::ConstantOutOfLimits));
/// ```
#[inline]
pub fn first_difference(constants: Constants, end: i64) -> Result<Option<i64>, Refusal> {
    let Constants { a, b, d, m, c, k, t } = constants;
    // SAFETY: the call takes any numbers.
    found(unsafe { raw::ovenquill_first_difference(a, b, d, m, c, k, t, end) }, end)
}

/// Why a claim was turned down, and the input that speaks against it.
///
/// ```
/// use ovenquill::{check_bound, Constants, Refusal};
///
/// let tenth = Constants { a: 1, b: 0, d: 10, m: 26, c: 0, k: 8, t: 0 };
/// let error = check_bound(tenth, 79).unwrap_err();
/// assert_eq!((error.refusal, error.least), (Refusal::DifferenceBelowBound, Some(69)));
/// assert_eq!(error.to_string(), format!("{}, the least at 69", error.refusal));
///
/// let error = check_bound(tenth, 68).unwrap_err();
/// assert_eq!((error.refusal, error.least), (Refusal::NoDifferenceUpToBound, None));
/// ```
#[derive(Clone, Copy, Debug, PartialEq, Eq, Hash)]
#[non_exhaustive]
pub struct ClaimError {
    /// The refusal.
    pub refusal: Refusal,
    /// The least input with a difference, where one stands below the bound.
    pub least: Option<i64>,
}

impl fmt::Display for ClaimError {
    fn fmt(&self, f: &mut fmt::Formatter<'_>) -> fmt::Result {
        match self.least {
            Some(least) => pad(f, format_args!("{}, the least at {least}", self.refusal)),
            None => self.refusal.fmt(f),
        }
    }
}

impl Error for ClaimError {}

/// The refusal alone.
impl From<ClaimError> for Refusal {
    fn from(error: ClaimError) -> Refusal {
        error.refusal
    }
}

/// Accepts the claim that the quotients differ at `bound` and at no input below it.
///
/// Refused are numbers outside their limits ([`Refusal::ConstantOutOfLimits`]): the constants, or a bound outside
/// [`CLAIM_BOUNDS`]. Turned down is a claim where the quotients differ below the bound already
/// ([`Refusal::DifferenceBelowBound`], with the least such input), or differ nowhere up to it
/// ([`Refusal::NoDifferenceUpToBound`]).
///
/// ```
/// use ovenquill::{check_bound, Constants};
///
/// let tenth = Constants { a: 1, b: 0, d: 10, m: 26, c: 0, k: 8, t: 0 };
/// assert_eq!(check_bound(tenth, 69), Ok(()));
/// assert_eq!(check_bound(tenth, 79).unwrap_err().least, Some(69));
/// ```
#[inline]
pub fn check_bound(constants: Constants, bound: i64) -> Result<(), ClaimError> {
    let Constants { a, b, d, m, c, k, t } = constants;
    // SAFETY: the place is ours to lend.
    judged(|least| unsafe { raw::ovenquill_check_bound(a, b, d, m, c, k, t, bound, least) })
}

/// What a call answered that accepts a claim or turns it down, and then may write the least input to the place that it was lent.
#[inline]
pub(crate) fn judged(call: impl FnOnce(&mut i64) -> i64) -> Result<(), ClaimError> {
    // No input: the call leaves it so where it has none to hand back.
    let mut least = -1;
    let checked = placed((), |()| call(&mut least));
    checked.map_err(|refusal| ClaimError { refusal, least: (least >= 0).then_some(least) })
}
