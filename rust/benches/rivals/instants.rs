//! Instants: counted from the first, so that the quotient and the rest are unsigned ones, with the same refusals.

use super::calendar::{checked_date, date_of, days_of, Parts, BY_SHIFTS};
use super::to_place;
use core::slice;
use ovenquill::{Fields, DAYS, INSTANTS};

pub const SECOND: i64 = 1000;
pub const MINUTE: i64 = 60 * SECOND;
pub const HOUR: i64 = 60 * MINUTE;
pub const DAY: i64 = 24 * HOUR;
/// The rivals keep the time of day in 32 bits.
const _: () = assert!(DAY <= u32::MAX as i64);

const FIRST: i64 = *INSTANTS.start();
const LAST: i64 = *INSTANTS.end();

/// The instant, or refusal 4.
#[inline(always)]
pub fn checked(instant: i64) -> Result<i64, i64> {
    if (FIRST..=LAST).contains(&instant) {
        Ok(instant)
    } else {
        Err(4)
    }
}

/// The day of an instant in the range, and its time of day.
#[inline(always)]
pub fn day_and_time(instant: i64) -> (i64, u32) {
    let from_first = (instant - FIRST) as u64;
    ((from_first / DAY as u64) as i64 + *DAYS.start(), (from_first % DAY as u64) as u32)
}

/// The instant of a date and a time of day that are right.
#[inline(always)]
pub const fn joined(date: Parts, hour: u32, minute: u32, second: u32, millisecond: u32) -> i64 {
    let time = ((hour * 60 + minute) * 60 + second) * SECOND as u32 + millisecond;
    days_of::<BY_SHIFTS>(date) * DAY + time as i64
}

#[inline(never)]
pub unsafe extern "C" fn day_of_instant(instant: i64, days: *mut i64) -> i64 {
    to_place(days, checked(instant).map(|instant| day_and_time(instant).0))
}

#[inline(never)]
pub unsafe extern "C" fn split_instant(instant: i64, fields: *mut Fields) -> i64 {
    let split = checked(instant).map(|instant| {
        let (days, time) = day_and_time(instant);
        let date = date_of(days);
        let seconds = time / SECOND as u32;
        Fields {
            year: date.calendar_year(),
            month: date.month.into(),
            day: date.day.into(),
            hour: (seconds / 3600).into(),
            minute: (seconds / 60 % 60).into(),
            second: (seconds % 60).into(),
            millisecond: (time % SECOND as u32).into(),
        }
    });
    to_place(fields, split)
}

#[inline(never)]
pub unsafe extern "C" fn join_instant(
    year: i64,
    month: i64,
    day: i64,
    hour: i64,
    minute: i64,
    second: i64,
    millisecond: i64,
    instant: *mut i64,
) -> i64 {
    let in_time = (0..24).contains(&hour)
        && (0..60).contains(&minute)
        && (0..60).contains(&second)
        && (0..SECOND).contains(&millisecond);
    let fields = checked_date(year, month, day).and_then(|date| if in_time { Ok(date) } else { Err(5) });
    to_place(instant, fields.map(|date| joined(date, hour as u32, minute as u32, second as u32, millisecond as u32)))
}

/// The index's tests one after the other, each up to the first fault, and `div_euclid`.
pub const PLAIN: u8 = 0;
/// The tests in one pass over the whole list, and an unsigned quotient.
pub const WITHOUT_EARLY_EXIT: u8 = 1;
/// The library's steps, eight neighbours compared at a time and blocks of one day filled with it, and an unsigned quotient.
pub const BY_BLOCKS: u8 = 2;

/// The refusal of an index whose lists are equally long, and its place, each test up to the first fault.
#[inline(always)]
fn fault(instants: &[i64]) -> Option<(i64, usize)> {
    if let Some(bad) = instants.iter().position(|&instant| checked(instant).is_err()) {
        return Some((4, bad));
    }
    instants.windows(2).position(|pair| pair[1] < pair[0]).map(|before| (15, before + 1))
}

/// Whether such an index has a fault: below zero is every difference of one that lies outside or falls, in a form that
/// becomes vector code. Where every instant lies in the range, no difference wraps.
#[inline(always)]
fn has_fault(instants: &[i64]) -> bool {
    let outside = |instant: i64| instant.wrapping_sub(FIRST) | LAST.wrapping_sub(instant);
    let first = instants.first().map_or(0, |&instant| outside(instant));
    instants.windows(2).fold(first, |signs, pair| signs | outside(pair[1]) | pair[1].wrapping_sub(pair[0])) < 0
}

/// The same, from the first instant of the range to the last, eight neighbours in a turn.
#[inline(always)]
fn falls(instants: &[i64]) -> bool {
    let mut before = FIRST;
    let blocks = instants.chunks_exact(8);
    let rest = blocks.remainder();
    for block in blocks {
        if block[0] < before || (1..8).fold(false, |falls, i| falls | (block[i] < block[i - 1])) {
            return true;
        }
        before = block[7];
    }
    for &instant in rest {
        if instant < before {
            return true;
        }
        before = instant;
    }
    LAST < before
}

#[inline(always)]
fn fill(instants: &[i64], days: &mut [i32]) {
    for (day, &instant) in days.iter_mut().zip(instants) {
        *day = day_and_time(instant).0 as i32;
    }
}

#[inline(always)]
fn fill_blocks(instants: &[i64], days: &mut [i32]) {
    let whole = instants.len() / 16 * 16;
    for (block, days) in instants[..whole].chunks_exact(16).zip(days.chunks_exact_mut(16)) {
        let first = day_and_time(block[0]).0;
        if first == day_and_time(block[15]).0 {
            days.fill(first as i32);
        } else {
            fill(block, days);
        }
    }
    fill(&instants[whole..], &mut days[whole..]);
}

#[inline(never)]
pub unsafe extern "C" fn index_days<const WAY: u8>(
    instants: *const i64,
    count: usize,
    days: *mut i32,
    days_length: usize,
    place: *mut i64,
) -> i64 {
    let instants = slice::from_raw_parts(instants, count);
    let days = slice::from_raw_parts_mut(days, days_length);
    if instants.len() != days.len() {
        return -12;
    }
    let looked_for = match WAY {
        PLAIN => true,
        WITHOUT_EARLY_EXIT => has_fault(instants),
        _ => falls(instants),
    };
    if looked_for {
        if let Some((refusal, at)) = fault(instants) {
            place.write(at as i64);
            return -refusal;
        }
    }
    match WAY {
        PLAIN => days.iter_mut().zip(instants).for_each(|(day, instant)| *day = instant.div_euclid(DAY) as i32),
        WITHOUT_EARLY_EXIT => fill(instants, days),
        _ => fill_blocks(instants, days),
    }
    days.len() as i64
}
