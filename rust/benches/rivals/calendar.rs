//! The calendar: algorithms 3 and 4 of source document 000, section 6, with ordinary divisions, and algorithms 5 and 6 of its
//! section 8, which multiply and shift. Years are counted from the first of the range, and days from a whole cycle of 400 years
//! before its 1 March, so that no number is negative. Month lengths come from a table, and what is added to them is computed
//! without a branch.

use super::{returned, to_place};
use ovenquill::{Date, DAYS, YEARS};

const FIRST_YEAR: i64 = *YEARS.start();
const LAST_YEAR: i64 = *YEARS.end();
const FIRST_DAY: i64 = *DAYS.start();
const LAST_DAY: i64 = *DAYS.end();
/// The years from the first to year 0: whole cycles, which leave the leap years where they are.
pub const YEAR_0: u32 = -FIRST_YEAR as u32;
const _: () = assert!(YEAR_0 % 400 == 0);
/// From the first count of the computational calendar to 1970-01-01, which is 719468 days after 0000-03-01.
const EPOCH: i64 = 719468 + 146097 * (YEAR_0 as i64 / 400 + 1);
/// The year that it begins in.
const BASE_YEAR: i64 = FIRST_YEAR - 400;
/// A Monday before the first day: 1970-01-01 is three days after one.
const MONDAY_BEFORE: i64 = 7 * (FIRST_DAY / 7 - 1) - 3;

/// The two ways from a date to its count: algorithms 4 and 6.
pub const BY_DIVISIONS: bool = false;
pub const BY_SHIFTS: bool = true;

/// A date that is right, with its year counted from the first.
#[derive(Clone, Copy)]
pub struct Parts {
    pub year: u32,
    pub month: u32,
    pub day: u32,
}

impl Parts {
    /// The year of the calendar, which may be below zero.
    #[inline(always)]
    pub fn calendar_year(self) -> i64 {
        i64::from(self.year) + FIRST_YEAR
    }
}

/// Algorithm 5, of a count in the range, and what is made of its numbers: the year, which begins in March, the month, 3 to 14, the
/// day, from 0, and whether the month is of the next year that begins in January. As a function it takes a tenth longer.
macro_rules! by_shifts {
    ($days:expr, |$y:ident, $m:ident, $d:ident, $j:ident| $date:expr) => {{
        let n = ($days + EPOCH) as u32;
        let n_1 = 4 * n + 3;
        let c = n_1 / 146097;
        let n_c = n_1 % 146097 / 4;
        let n_2 = 4 * n_c + 3;
        let p_2 = 2939745 * n_2 as u64;
        let z = (p_2 >> 32) as u32;
        let n_y = p_2 as u32 / 2939745 / 4;
        let $y = 100 * c + z;
        let n_3 = 2141 * n_y + 197913;
        let $m = n_3 >> 16;
        let $d = n_3 % (1 << 16) / 2141;
        let $j = n_y >= 306;
        $date
    }};
}

/// The same, as a date.
macro_rules! civil_by_shifts {
    ($days:expr) => {
        by_shifts!($days, |y, m, d, j| {
            let month = if j { m - 12 } else { m };
            Date::new(y as i64 + BASE_YEAR + j as i64, month as i64, (d + 1) as i64)
        })
    };
}

/// The date of a count in the range, by algorithm 5.
#[inline(always)]
pub fn civil_of(days: i64) -> Date {
    civil_by_shifts!(days)
}

/// The same, with its year counted from the first.
#[inline(always)]
pub fn date_of(days: i64) -> Parts {
    by_shifts!(days, |y, m, d, j| Parts { year: y + u32::from(j) - 400, month: m - 12 * u32::from(j), day: d + 1 })
}

/// Algorithm 6 by shifts, else algorithm 4.
#[inline(always)]
pub const fn days_of<const SHIFTS: bool>(date: Parts) -> i64 {
    let j = (date.month <= 2) as u32;
    let y = date.year + 400 - j;
    let m = date.month + 12 * j;
    let d = date.day - 1;
    let c = y / 100;
    let days_before_month = if SHIFTS { (979 * m - 2919) >> 5 } else { (153 * m - 457) / 5 };
    let n = 1461 * y / 4 - c + c / 4 + days_before_month + d;
    n as i64 - EPOCH
}

#[inline(always)]
const fn leap(year: u32) -> bool {
    year & (if year % 100 == 0 { 15 } else { 3 }) == 0
}

/// Of a common year, by the month.
static LENGTHS: [u8; 13] = [0, 31, 28, 31, 30, 31, 30, 31, 31, 30, 31, 30, 31];
static DAYS_BEFORE: [u16; 13] = [0, 0, 31, 59, 90, 120, 151, 181, 212, 243, 273, 304, 334];

#[inline(always)]
pub const fn month_length(year: u32, month: u32) -> u32 {
    LENGTHS[month as usize] as u32 + ((month == 2) as u32 & leap(year) as u32)
}

/// The year, counted from the first, or refusal 1.
#[inline(always)]
fn checked_year(year: i64) -> Result<u32, i64> {
    if (FIRST_YEAR..=LAST_YEAR).contains(&year) {
        Ok((year - FIRST_YEAR) as u32)
    } else {
        Err(1)
    }
}

/// The year and the month, or refusal 1 or 2.
#[inline(always)]
fn checked_month(year: i64, month: i64) -> Result<(u32, u32), i64> {
    let year = checked_year(year)?;
    if (1..=12).contains(&month) {
        Ok((year, month as u32))
    } else {
        Err(2)
    }
}

/// The date, or refusal 1, 2 or 3. Most days are in every month.
#[inline(always)]
pub fn checked_date(year: i64, month: i64, day: i64) -> Result<Parts, i64> {
    let (year, month) = checked_month(year, month)?;
    if day < 1 || day > 28 && day > i64::from(month_length(year, month)) {
        return Err(3);
    }
    Ok(Parts { year, month, day: day as u32 })
}

/// The count, or refusal 4.
#[inline(always)]
pub fn checked_count(days: i64) -> Result<i64, i64> {
    if (FIRST_DAY..=LAST_DAY).contains(&days) {
        Ok(days)
    } else {
        Err(4)
    }
}

#[inline(never)]
pub unsafe extern "C" fn days_from_civil<const SHIFTS: bool>(year: i64, month: i64, day: i64, days: *mut i64) -> i64 {
    to_place(days, checked_date(year, month, day).map(days_of::<SHIFTS>))
}

/// Makes algorithm 3 in numbers of a type.
macro_rules! civil_from_days_by_divisions {
    ($name:ident, $number:ident) => {
        #[inline(never)]
        pub unsafe extern "C" fn $name(days: i64, date: *mut Date) -> i64 {
            if let Err(refusal) = checked_count(days) {
                return -refusal;
            }
            let n = (days + EPOCH) as $number;
            let n_1 = 4 * n + 3;
            let c = n_1 / 146097;
            let n_c = n_1 % 146097 / 4;
            let n_2 = 4 * n_c + 3;
            let z = n_2 / 1461;
            let n_y = n_2 % 1461 / 4;
            let y = 100 * c + z;
            let n_3 = 5 * n_y + 461;
            let m = n_3 / 153;
            let d = n_3 % 153 / 5;
            let j = n_y >= 306;
            let month = if j { m - 12 } else { m };
            date.write(Date::new(y as i64 + BASE_YEAR + j as i64, month as i64, (d + 1) as i64));
            0
        }
    };
}

civil_from_days_by_divisions!(civil_from_days_u32, u32);
civil_from_days_by_divisions!(civil_from_days_u64, u64);

#[inline(never)]
pub unsafe extern "C" fn civil_from_days_by_shifts(days: i64, date: *mut Date) -> i64 {
    if let Err(refusal) = checked_count(days) {
        return -refusal;
    }
    date.write(civil_by_shifts!(days));
    0
}

#[inline(never)]
pub unsafe extern "C" fn weekday(days: i64) -> i64 {
    returned(checked_count(days).map(|days| ((days - MONDAY_BEFORE) as u32 % 7 + 1).into()))
}

/// By a product in place of the remainder, as the library has it: a day is a seventh of 2^32.
#[inline(never)]
pub unsafe extern "C" fn weekday_by_product(days: i64) -> i64 {
    const SEVENTH: u32 = ((1 << 32) / 7_u64 + 1) as u32;
    returned(checked_count(days).map(|days| {
        let sevenths = ((days - MONDAY_BEFORE) as u32).wrapping_mul(SEVENTH);
        (sevenths.wrapping_add(1 << 29) >> 29).into()
    }))
}

#[inline(never)]
pub unsafe extern "C" fn is_leap(year: i64) -> i64 {
    returned(checked_year(year).map(|year| leap(year).into()))
}

#[inline(never)]
pub unsafe extern "C" fn last_day_of_month(year: i64, month: i64) -> i64 {
    returned(checked_month(year, month).map(|(year, month)| month_length(year, month).into()))
}

#[inline(never)]
pub unsafe extern "C" fn day_of_year(year: i64, month: i64, day: i64) -> i64 {
    returned(checked_month(year, month).and_then(|(year, month)| {
        // The year is tested for the leap day anyway, so the month's length costs less than a branch around it.
        if day < 1 || day > i64::from(month_length(year, month)) {
            return Err(3);
        }
        let leap_day = u32::from(month > 2) & u32::from(leap(year));
        Ok(i64::from(u32::from(DAYS_BEFORE[month as usize]) + leap_day) + day)
    }))
}

#[inline(never)]
pub unsafe extern "C" fn add_days(year: i64, month: i64, day: i64, days: i64, date: *mut Date) -> i64 {
    let shifted = checked_date(year, month, day)
        .and_then(|from| days_of::<BY_SHIFTS>(from).checked_add(days).ok_or(4))
        .and_then(checked_count)
        .map(civil_of);
    to_place(date, shifted)
}
