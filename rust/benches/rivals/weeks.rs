//! Week dates and their labels. Years begin in January here and are counted from the one after the last multiple of 400 before the
//! range, days from its first, a Monday: no number is negative, a week begins at a multiple of 7, and a leap year is the last of
//! four, so that algorithms 3 and 5 of source document 000, sections 6 and 8, without their months, give the year and the week of
//! a Thursday.

use super::calendar::checked_count;
use super::labels::put_pair;
use super::to_place;
use core::ops::RangeInclusive;
use core::slice;
use ovenquill::{WeekDate, DAYS, LABEL_YEARS, WEEK_LABEL_BYTES, WEEK_YEARS, YEARS};

/// The cycles of 400 years from the first year that is counted to year 1.
const CYCLES: i64 = 1 - *YEARS.start() / 400;
const FIRST_YEAR: i64 = 1 - 400 * CYCLES;
/// From the first day of that year to 1970-01-01, which is 719162 days after 0001-01-01.
const EPOCH: i64 = 719162 + 146097 * CYCLES;
/// The year 0, and the first and the last day of the range.
const YEAR_0: u32 = -FIRST_YEAR as u32;
const FIRST: u32 = (*DAYS.start() + EPOCH) as u32;
const LAST: u32 = (*DAYS.end() + EPOCH) as u32;

/// The counts of the days whose week years have a label.
pub const LABEL_DAYS: RangeInclusive<i64> = monday(*LABEL_YEARS.start())..=monday(*LABEL_YEARS.end() + 1) - 1;

/// The count of the first day of a week year.
const fn monday(year: i64) -> i64 {
    7 * first_week((year - FIRST_YEAR) as u32) as i64 - EPOCH
}

/// The Thursday of a day's week, and the weekday, of a count in the range.
#[inline(always)]
fn thursday_and_weekday(days: i64) -> (u32, u32) {
    const SEVENTH: u64 = (1 << 32) / 7 + 1;
    let n = (days + EPOCH) as u32;
    let weeks = ((u64::from(n) * SEVENTH) >> 32) as u32;
    (7 * weeks + 3, n - 7 * weeks + 1)
}

#[inline(never)]
pub unsafe extern "C" fn week_from_days(days: i64, week: *mut WeekDate) -> i64 {
    let date = checked_count(days).map(|days| {
        let (thursday, weekday) = thursday_and_weekday(days);
        let c = (4 * thursday + 3) / 146097;
        // With the days that three of four centuries leave out put in, every fourth year has a leap day.
        let n_2 = 4 * (thursday + c - c / 4) + 3;
        let (year, week) = (n_2 / 1461, n_2 % 1461 / 4 / 7 + 1);
        WeekDate::new(i64::from(year) + FIRST_YEAR, week.into(), weekday.into())
    });
    to_place(week, date)
}

/// The same by remainders and quotients alone: algorithm 3 without its months, of the week's Thursday.
#[inline(never)]
pub unsafe extern "C" fn week_from_days_by_divisions(days: i64, week: *mut WeekDate) -> i64 {
    let date = checked_count(days).map(|days| {
        let n = (days + EPOCH) as u32;
        let thursday = n - n % 7 + 3;
        let n_1 = 4 * thursday + 3;
        let c = n_1 / 146097;
        let n_c = n_1 % 146097 / 4;
        let n_2 = 4 * n_c + 3;
        let (z, n_y) = (n_2 / 1461, n_2 % 1461 / 4);
        WeekDate::new(i64::from(100 * c + z) + FIRST_YEAR, (n_y / 7 + 1).into(), (n % 7 + 1).into())
    });
    to_place(week, date)
}

/// How many weeks lie before a year's first.
#[inline(always)]
const fn first_week(year: u32) -> u32 {
    let c = year / 100;
    let new_year = 1461 * year / 4 - c + c / 4;
    (new_year + 3) / 7
}

/// Whether a year has a week 53. It is asked of dates in that week only.
#[inline(always)]
fn long(year: u32) -> bool {
    first_week(year + 1) - first_week(year) == 53
}

/// The day of a week date that is one.
#[inline(always)]
fn day_of(year: u32, week: u32, weekday: u32) -> u32 {
    (first_week(year) + week) * 7 + weekday - 8
}

/// The count of a week date, or a refusal.
#[inline(always)]
fn checked_days_of(year: i64, week: i64, weekday: i64) -> Result<i64, i64> {
    if !(*WEEK_YEARS.start()..=*WEEK_YEARS.end()).contains(&year) {
        return Err(1);
    }
    let year = (year - FIRST_YEAR) as u32;
    let has_week = if week == 53 { long(year) } else { (1..=52).contains(&week) };
    if !has_week || !(1..=7).contains(&weekday) {
        return Err(16);
    }
    let day = day_of(year, week as u32, weekday as u32);
    if (FIRST..=LAST).contains(&day) {
        Ok(i64::from(day) - EPOCH)
    } else {
        Err(4)
    }
}

#[inline(never)]
pub unsafe extern "C" fn days_from_week(year: i64, week: i64, weekday: i64, days: *mut i64) -> i64 {
    to_place(days, checked_days_of(year, week, weekday))
}

/// The Monday of a year's first week, by the leap rule as it is said.
#[inline(always)]
fn first_monday(year: u32) -> u32 {
    let in_first_week = 365 * year + year / 4 - year / 100 + year / 400 + 3;
    in_first_week - in_first_week % 7
}

/// The same by remainders and quotients alone. Whether a year has a week 53 is asked of dates in that week only.
#[inline(never)]
pub unsafe extern "C" fn days_from_week_by_divisions(year: i64, week: i64, weekday: i64, days: *mut i64) -> i64 {
    if !(*WEEK_YEARS.start()..=*WEEK_YEARS.end()).contains(&year) {
        return -1;
    }
    let year = (year - FIRST_YEAR) as u32;
    let monday = first_monday(year);
    let has_week = if week == 53 { first_monday(year + 1) - monday == 371 } else { (1..=52).contains(&week) };
    if !has_week || !(1..=7).contains(&weekday) {
        return -16;
    }
    let reached = i64::from(monday + 7 * (week as u32 - 1) + weekday as u32 - 1) - EPOCH;
    to_place(days, checked_count(reached))
}

#[inline(never)]
pub unsafe extern "C" fn write_week<const TABLE: bool>(days: i64, out: *mut u8, length: usize) -> i64 {
    // A day that has a label lies in the range, so most are tested once.
    if !(*LABEL_DAYS.start()..=*LABEL_DAYS.end()).contains(&days) {
        return -checked_count(days).err().unwrap_or(1);
    }
    if length < WEEK_LABEL_BYTES {
        return -7;
    }
    let (thursday, weekday) = thursday_and_weekday(days);
    let n_1 = 4 * thursday + 3;
    let c = n_1 / 146097;
    let p_2 = 2939745 * u64::from((n_1 % 146097) | 3);
    let (z, week) = ((p_2 >> 32) as u32, p_2 as u32 / 2939745 / 4 / 7 + 1);
    // The last of a hundred years has the digits of the next century.
    let (century, year) = if z == 99 { (c + 1, 0) } else { (c, z + 1) };
    put_pair::<TABLE>(out, century - (YEAR_0 + 1) / 100);
    put_pair::<TABLE>(out.add(2), year);
    out.add(4).cast::<[u8; 2]>().write(*b"-W");
    put_pair::<TABLE>(out.add(6), week);
    out.add(8).cast::<[u8; 2]>().write([b'-', b'0' + weekday as u8]);
    WEEK_LABEL_BYTES as i64
}

/// The count of a label, or a refusal: eight bytes at a time, and the two behind them.
#[inline(always)]
fn read(label: &[u8; WEEK_LABEL_BYTES]) -> Result<i64, i64> {
    const HIGH: u64 = 0x8080_8080_8080_8080;
    /// What a value can be raised by and stay below 128, at a digit by 9 less than at a mark.
    const ROOM: u64 = u64::from_le_bytes(*b"vvvv\x7f\x7fvv");
    let &[y, e, a, r, dash, w, k, l, second_dash, d] = label;
    let values = u64::from_le_bytes([y, e, a, r, dash, w, k, l]) ^ u64::from_le_bytes(*b"0000-W00");
    let weekday = d.wrapping_sub(b'0');
    if (values | values.wrapping_add(ROOM)) & HIGH != 0 || second_dash != b'-' || weekday > 9 {
        return Err(8);
    }
    let pairs = values * 10 + (values >> 8);
    let pair = |place: u32| (pairs >> (8 * place)) as u32 & 0xff;
    let (year, week) = (pair(0) * 100 + pair(2) + YEAR_0, pair(6));
    let has_week = (1..=52).contains(&week) || week == 53 && long(year);
    if !has_week || !(1..=7).contains(&weekday) {
        return Err(16);
    }
    Ok(i64::from(day_of(year, week, weekday.into())) - EPOCH)
}

#[inline(never)]
pub unsafe extern "C" fn read_week(label: *const u8, length: usize, days: *mut i64) -> i64 {
    let answer = match <&[u8; WEEK_LABEL_BYTES]>::try_from(slice::from_raw_parts(label, length)) {
        Ok(label) => read(label),
        Err(_) => Err(8),
    };
    to_place(days, answer)
}
