//! The transport clock: three ways from a position to the next one, with the same refusals.

use super::returned;
use core::slice;
use ovenquill::raw::Clock;
use ovenquill::{CLOCK_POSITIONS, CLOCK_TICKS_PER_MILLISECOND, CLOCK_VALUES};

const WRAP: i64 = *CLOCK_VALUES.end() + 1;
const HALF_WRAP: i64 = WRAP / 2;
const LAST: i64 = *CLOCK_POSITIONS.end();

/// The three ways: the step by a signed remainder, or by the rest of the position and two compares, or unsigned and from the
/// value before, as the library has it.
pub const BY_REMAINDER: u8 = 0;
pub const BY_COMPARES: u8 = 1;
pub const BY_VALUE_BEFORE: u8 = 2;

/// The value, or refusal 14.
#[inline(always)]
fn checked_value(value: i64) -> Result<i64, i64> {
    if (0..WRAP).contains(&value) {
        Ok(value)
    } else {
        Err(14)
    }
}

/// The position, or refusal 14.
#[inline(always)]
fn checked_position(position: i64) -> Result<i64, i64> {
    if (0..=LAST).contains(&position) {
        Ok(position)
    } else {
        Err(14)
    }
}

#[inline(always)]
fn by_remainder(position: i64, value: i64) -> Result<i64, i64> {
    let value = checked_value(value)?;
    let step = (value - position + HALF_WRAP).rem_euclid(WRAP) - HALF_WRAP;
    checked_position(position + step)
}

#[inline(always)]
fn by_compares(position: i64, value: i64) -> Result<i64, i64> {
    let value = checked_value(value)?;
    let mut step = value - value_at(position);
    if step >= HALF_WRAP {
        step -= WRAP;
    } else if step < -HALF_WRAP {
        step += WRAP;
    }
    checked_position(position + step)
}

#[inline(always)]
fn by_value_before(position: i64, before: i64, value: i64) -> Result<i64, i64> {
    const HALF: u64 = HALF_WRAP as u64;
    let [position, before, value] = [position, before, value].map(|number| number as u64);
    if value >= 2 * HALF {
        return Err(14);
    }
    let reached = position + (value + 3 * HALF - before) % (2 * HALF);
    if (HALF..=LAST as u64 + HALF).contains(&reached) {
        Ok((reached - HALF) as i64)
    } else {
        Err(14)
    }
}

/// The position that a value leads to from one in the range, where the value was `before`; or refusal 14.
#[inline(always)]
fn reached<const WAY: u8>(position: i64, before: i64, value: i64) -> Result<i64, i64> {
    match WAY {
        BY_REMAINDER => by_remainder(position, value),
        BY_COMPARES => by_compares(position, value),
        _ => by_value_before(position, before, value),
    }
}

/// The value at a position in the range.
#[inline(always)]
fn value_at(position: i64) -> i64 {
    (position as u64 % WRAP as u64) as i64
}

#[inline(never)]
pub unsafe extern "C" fn follow<const WAY: u8>(clock: *mut Clock, value: i64) -> i64 {
    let Clock { heard, position } = *clock;
    let next = if heard == 0 {
        checked_value(value)
    } else {
        checked_position(position).and_then(|position| reached::<WAY>(position, value_at(position), value))
    };
    returned(next.map(|position| {
        clock.write(Clock { heard: 1, position });
        (position as u64 / CLOCK_TICKS_PER_MILLISECOND as u64) as i64
    }))
}

#[inline(never)]
pub unsafe extern "C" fn follow_all<const WAY: u8>(clock: *mut Clock, values: *const i64, count: usize) -> i64 {
    let values = slice::from_raw_parts(values, count);
    let (mut position, rest, mut passed_over) = if (*clock).heard != 0 {
        ((*clock).position, values, 0)
    } else {
        match values.iter().position(|&value| checked_value(value).is_ok()) {
            Some(first) => (values[first], &values[first + 1..], first),
            None => return count as i64,
        }
    };
    if checked_position(position).is_err() {
        return count as i64;
    }
    let mut before = value_at(position);
    for &value in rest {
        let Ok(next) = reached::<WAY>(position, before, value) else {
            passed_over += 1;
            continue;
        };
        position = next;
        before = value;
    }
    if passed_over < count {
        clock.write(Clock { heard: 1, position });
    }
    passed_over as i64
}
