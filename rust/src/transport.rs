//! The 33-bit clock of a transport stream, followed past its wraps.

use crate::raw;
use crate::refusal::{passed_over, returned, Refusal};
use core::ops::RangeInclusive;

/// The values of the clock, in ticks: what 33 bits hold. After the last one comes the first again.
pub const CLOCK_VALUES: RangeInclusive<i64> = 0..=(1 << 33) - 1;

/// The unwrapped positions that are followed to, in ticks.
pub const CLOCK_POSITIONS: RangeInclusive<i64> = 0..=1 << 53;

/// The ticks of a millisecond.
pub const CLOCK_TICKS_PER_MILLISECOND: i64 = 90;

/// A follower of the clock of a transport stream, which counts 90,000 ticks in a second and begins again at 0 after
/// 26 h 30 min 43.7 s: the base of a program clock reference (PCR), or the time stamps of pictures and sound (PTS, DTS).
///
/// It counts on, forwards and backwards and past any number of wraps. The first value is taken as it is. From one accepted
/// value to the next goes the one step `s`, -2^32 <= `s` < 2^32, that leads to the new value modulo 2^33: the shorter way
/// round, and backwards where both are as long. So a stream may jump by less than half a wrap, 13 h 15 min 21.86 s, either
/// way; a longer jump is taken for the shorter one that leads to the same value, and every position from then on is off by a
/// whole number of wraps. No position is below 0: a value that would lead there, as 8589934591 does after a first value of
/// 0, is refused. Where a stream changes its time base, at a discontinuity, begin with a new clock.
///
/// A follower that is restarted knows nothing of earlier wraps: it takes its first value as it is, and counts from there. To
/// go on after a restart, keep the clock, or its ticks and begin with `Clock::At(ticks)`, and hand it the next value before
/// the stream has moved by half a wrap.
///
/// ```
/// use ovenquill::{Clock, ClockPosition, Refusal};
///
/// let mut clock = Clock::Nothing;
/// assert_eq!(clock.follow(8589934500)?, ClockPosition { ticks: 8589934500, milliseconds: 95443716 });
/// // after the wrap
/// assert_eq!(clock.follow(2910)?, ClockPosition { ticks: 8589937502, milliseconds: 95443750 });
/// // a picture sent out of order
/// assert_eq!(clock.follow(8589934590)?, ClockPosition { ticks: 8589934590, milliseconds: 95443717 });
/// assert_eq!(clock, Clock::At(8589934590));
/// # Ok::<(), Refusal>(())
/// ```
#[derive(Clone, Debug, Default, PartialEq, Eq, Hash)]
pub enum Clock {
    /// Nothing has been heard yet.
    #[default]
    Nothing,
    /// The unwrapped position, in ticks. Any number may stand here; outside [`CLOCK_POSITIONS`] every value is refused.
    At(i64),
}

/// The unwrapped position that a value stands for. The order is that of the ticks.
#[derive(Clone, Copy, Debug, PartialEq, Eq, PartialOrd, Ord, Hash)]
pub struct ClockPosition {
    /// In ticks, [`CLOCK_TICKS_PER_MILLISECOND`] to the millisecond.
    pub ticks: i64,
    /// In milliseconds, rounded down, as [`position_label`](crate::position_label) takes it; above the last of
    /// [`POSITIONS`](crate::POSITIONS), after some 11 years, it has no label.
    pub milliseconds: i64,
}

impl Clock {
    /// Follows one value: answers its position, and is then there.
    ///
    /// Refused ([`Refusal::ClockOutOfRange`]) is a value outside [`CLOCK_VALUES`], or one where the position that was handed
    /// in or is reached lies outside [`CLOCK_POSITIONS`]. The clock is then as it was, so that the next value is read as if
    /// the refused one had not come.
    ///
    /// ```
    /// use ovenquill::{Clock, Refusal};
    ///
    /// let mut clock = Clock::At(1 << 40);
    /// assert_eq!(clock.follow(-1), Err(Refusal::ClockOutOfRange));
    /// assert_eq!(clock, Clock::At(1 << 40));
    ///
    /// let mut clock = Clock::At(-1);
    /// assert_eq!(clock.follow(0), Err(Refusal::ClockOutOfRange));
    /// ```
    #[inline]
    pub fn follow(&mut self, value: i64) -> Result<ClockPosition, Refusal> {
        let mut numbers = self.numbers();
        // SAFETY: the numbers are ours to lend.
        let milliseconds = returned(unsafe { raw::ovenquill_follow(&mut numbers, value) })?;
        *self = Clock::At(numbers.position);
        Ok(ClockPosition { ticks: numbers.position, milliseconds })
    }

    /// Follows a list of values in order, each as [`follow`](Clock::follow) does, and passes over those that it refuses.
    /// Answers how many it passed over.
    ///
    /// From a position outside [`CLOCK_POSITIONS`] every value is passed over, and the clock stays. A list may be split into
    /// batches anywhere: the clock after the last is the same, and the answers add up.
    ///
    /// ```
    /// use ovenquill::Clock;
    ///
    /// let mut clock = Clock::default();
    /// assert_eq!(clock.follow_all(&[8589934500, -1, 2910, i64::MAX]), 2);
    /// assert_eq!(clock, Clock::At(8589937502));
    /// ```
    #[inline]
    pub fn follow_all(&mut self, values: &[i64]) -> usize {
        let mut numbers = self.numbers();
        // SAFETY: the pointer and the length are those of one slice, and the numbers are ours to lend.
        let skipped = unsafe { raw::ovenquill_follow_all(&mut numbers, values.as_ptr(), values.len()) };
        if numbers.heard != 0 {
            *self = Clock::At(numbers.position);
        }
        passed_over(skipped)
    }

    /// The clock as C has it.
    fn numbers(&self) -> raw::Clock {
        match *self {
            Clock::Nothing => raw::Clock { heard: 0, position: 0 },
            Clock::At(position) => raw::Clock { heard: 1, position },
        }
    }
}
