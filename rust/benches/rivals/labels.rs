//! Labels: written two digits at a time, from a table or by a division, and read.

use super::calendar::{civil_of, month_length, Parts, YEAR_0};
use super::instants::{checked, day_and_time, joined, DAY, HOUR, MINUTE, SECOND};
use super::{returned, to_place};
use core::ops::RangeInclusive;
use core::slice;
use ovenquill::{Cue, INSTANT_LABEL_BYTES, LABEL_YEARS, POSITIONS};

static PAIRS: [[u8; 2]; 100] = {
    let mut pairs = [[0; 2]; 100];
    let mut n = 0;
    while n < 100 {
        pairs[n] = [b'0' + (n / 10) as u8, b'0' + (n % 10) as u8];
        n += 1;
    }
    pairs
};

/// Two digits of a number below 100.
#[inline(always)]
pub unsafe fn put_pair<const TABLE: bool>(out: *mut u8, n: u32) {
    if TABLE {
        out.cast::<[u8; 2]>().write(*PAIRS.get_unchecked(n as usize));
    } else {
        *out = b'0' + (n / 10) as u8;
        *out.add(1) = b'0' + (n % 10) as u8;
    }
}

/// `MM:SS.` of a number of seconds below an hour.
#[inline(always)]
unsafe fn put_minutes<const TABLE: bool>(out: *mut u8, seconds: u32) {
    put_pair::<TABLE>(out, seconds / 60);
    *out.add(2) = b':';
    put_pair::<TABLE>(out.add(3), seconds % 60);
    *out.add(5) = b'.';
}

/// Three digits of a number below 1000.
#[inline(always)]
unsafe fn put_three<const TABLE: bool>(out: *mut u8, n: u32) {
    *out = b'0' + (n / 100) as u8;
    put_pair::<TABLE>(out.add(1), n % 100);
}

/// The instants of the years that have labels.
pub const LABEL_INSTANTS: RangeInclusive<i64> = new_year(*LABEL_YEARS.start())..=new_year(*LABEL_YEARS.end() + 1) - 1;

/// The first instant of a year.
const fn new_year(year: i64) -> i64 {
    joined(Parts { year: (year + YEAR_0 as i64) as u32, month: 1, day: 1 }, 0, 0, 0, 0)
}

#[inline(never)]
pub unsafe extern "C" fn write_instant<const TABLE: bool>(instant: i64, out: *mut u8, length: usize) -> i64 {
    // An instant that has a label lies in the range, so most are tested once.
    if !(*LABEL_INSTANTS.start()..=*LABEL_INSTANTS.end()).contains(&instant) {
        return -checked(instant).err().unwrap_or(1);
    }
    if length < INSTANT_LABEL_BYTES {
        return -7;
    }
    let (days, time) = day_and_time(instant);
    let date = civil_of(days);
    let year = date.year as u32;
    let rest = time % HOUR as u32;
    put_pair::<TABLE>(out, year / 100);
    put_pair::<TABLE>(out.add(2), year % 100);
    *out.add(4) = b'-';
    put_pair::<TABLE>(out.add(5), date.month as u32);
    *out.add(7) = b'-';
    put_pair::<TABLE>(out.add(8), date.day as u32);
    *out.add(10) = b'T';
    put_pair::<TABLE>(out.add(11), time / HOUR as u32);
    *out.add(13) = b':';
    put_minutes::<TABLE>(out.add(14), rest / SECOND as u32);
    put_three::<TABLE>(out.add(20), rest % SECOND as u32);
    *out.add(23) = b'Z';
    INSTANT_LABEL_BYTES as i64
}

/// A second and an hour of a position, in milliseconds.
const POSITION_SECOND: i64 = 1000;
pub const POSITION_HOUR: i64 = 3600 * POSITION_SECOND;

#[inline(never)]
pub unsafe extern "C" fn write_position<const TABLE: bool>(position: i64, out: *mut u8, length: usize) -> i64 {
    if !(*POSITIONS.start()..=*POSITIONS.end()).contains(&position) {
        return -6;
    }
    let hours = (position as u64 / POSITION_HOUR as u64) as u32;
    let rest = (position as u64 % POSITION_HOUR as u64) as u32;
    let digits = match hours {
        0..=99 => 2,
        100..=999 => 3,
        1000..=9999 => 4,
        _ => 5,
    };
    if length < digits + 10 {
        return -7;
    }
    match digits {
        2 => put_pair::<TABLE>(out, hours),
        3 => {
            *out = b'0' + (hours / 100) as u8;
            put_pair::<TABLE>(out.add(1), hours % 100);
        }
        4 => {
            put_pair::<TABLE>(out, hours / 100);
            put_pair::<TABLE>(out.add(2), hours % 100);
        }
        _ => {
            *out = b'0' + (hours / 10000) as u8;
            put_pair::<TABLE>(out.add(1), hours / 100 % 100);
            put_pair::<TABLE>(out.add(3), hours % 100);
        }
    }
    *out.add(digits) = b':';
    put_minutes::<TABLE>(out.add(digits + 1), rest / POSITION_SECOND as u32);
    put_three::<TABLE>(out.add(digits + 7), rest % POSITION_SECOND as u32);
    digits as i64 + 10
}

/// The shape of a label: 0 where a digit stands, else the mark, of which the letters are small; and the bit that makes a
/// letter small.
const SHAPE: [u8; INSTANT_LABEL_BYTES] = *b"\0\0\0\0-\0\0-\0\0t\0\0:\0\0:\0\0.\0\0\0z";
const SMALL: [u8; INSTANT_LABEL_BYTES] = *b"\0\0\0\0\0\0\0\0\0\0\x20\0\0\0\0\0\0\0\0\0\0\0\0\x20";

/// The instant of a label, or a refusal: every byte by itself.
#[inline(always)]
fn read_by_bytes(label: &[u8; INSTANT_LABEL_BYTES]) -> Result<i64, i64> {
    // Every byte is tested without a branch, in a form that the compiler turns into vector code.
    let mut wrong = 0;
    for place in 0..INSTANT_LABEL_BYTES {
        let digit = u8::from(label[place].wrapping_sub(b'0') > 9);
        let mark = (label[place] | SMALL[place]) ^ SHAPE[place];
        wrong |= if SHAPE[place] == 0 { digit } else { mark };
    }
    if wrong != 0 {
        return Err(8);
    }
    let digit = |place: usize| u32::from(label[place] - b'0');
    let pair = |place: usize| digit(place) * 10 + digit(place + 1);
    let date = Parts { year: pair(0) * 100 + pair(2) + YEAR_0, month: pair(5), day: pair(8) };
    instant_of(date, pair(11), pair(14), pair(17), digit(20) * 100 + pair(21))
}

/// The words of eight bytes of a shape.
const fn words(shape: &[u8; INSTANT_LABEL_BYTES]) -> [u64; 3] {
    let mut words = [0; 3];
    let mut place = INSTANT_LABEL_BYTES;
    while place > 0 {
        place -= 1;
        words[place / 8] = words[place / 8] << 8 | shape[place] as u64;
    }
    words
}

/// The shape as a label of zeros; and what a value can be raised by and stay below 128, at a digit by 9 less than at a mark.
const ZEROS: [u64; 3] = words(b"0000-00-00t00:00:00.000z");
const ROOMS: [u64; 3] = words(b"vvvv\x7fvv\x7fvv\x7fvv\x7fvv\x7fvv\x7fvvv\x7f");

/// The values of a label's digits, eight bytes at a time, and 0 at its marks.
#[inline(always)]
fn values(label: &[u8; INSTANT_LABEL_BYTES]) -> Result<[u64; 3], i64> {
    const HIGH: u64 = 0x8080_8080_8080_8080;
    const LETTERS: [u64; 3] = words(&SMALL);
    let word = |at: usize| u64::from_le_bytes(label[at..at + 8].try_into().expect("eight bytes"));
    let mut values = [word(0), word(8), word(16)];
    let mut wrong = 0;
    for (place, value) in values.iter_mut().enumerate() {
        *value = (*value | LETTERS[place]) ^ ZEROS[place];
        wrong |= *value | value.wrapping_add(ROOMS[place]);
    }
    if wrong & HIGH != 0 {
        return Err(8);
    }
    Ok(values)
}

/// The numbers of two digits, each in the byte of its tens.
#[inline(always)]
fn pairs(values: [u64; 3]) -> [u64; 3] {
    values.map(|word| word * 10 + (word >> 8))
}

/// One byte of a label's words.
#[inline(always)]
fn byte(words: [u64; 3], place: usize) -> u32 {
    (words[place / 8] >> (8 * (place % 8))) as u32 & 0xff
}

/// The instant of a label, or a refusal: eight bytes at a time.
#[inline(always)]
fn read_by_words(label: &[u8; INSTANT_LABEL_BYTES]) -> Result<i64, i64> {
    let values = values(label)?;
    let pair = |place: usize| byte(pairs(values), place);
    let date = Parts { year: pair(0) * 100 + pair(2) + YEAR_0, month: pair(5), day: pair(8) };
    instant_of(date, pair(11), pair(14), pair(17), byte(values, 20) * 100 + pair(21))
}

/// By twice the month and the leap day: a month's length, and 32 times the days before it, one more in a common year; 0 for no
/// month.
static MONTHS: [u16; 256] = {
    let mut months = [0; 256];
    let mut leap = 0;
    while leap < 2 {
        let mut before = 1 - leap;
        let mut month = 1;
        while month <= 12 {
            let length = month_length(if leap == 1 { 4 } else { 1 }, month as u32) as usize;
            months[2 * month + leap] = (32 * before + length) as u16;
            before += length;
            month += 1;
        }
        leap += 1;
    }
    months
};

/// The same, with the date by the century and the year of it, which the digits tell apart: the steps of the library.
#[inline(always)]
fn read_by_century(label: &[u8; INSTANT_LABEL_BYTES]) -> Result<i64, i64> {
    let values = values(label)?;
    let pair = |place: usize| u64::from(byte(pairs(values), place));
    let (century, year, month, day) = (pair(0), pair(2), pair(5), pair(8));
    let leap = u64::from((if year == 0 { century } else { year }) % 4 == 0);
    let entry = u64::from(MONTHS[(2 * month + leap) as usize & 0xff]);
    let (hour, minute, second) = (pair(11), pair(14), pair(17));
    let no_day = day.wrapping_sub(1) >= entry % 32;
    if no_day | (hour > 23) | (minute > 59) | (second > 59) {
        return Err(match month {
            1..=12 if no_day => 3,
            1..=12 => 5,
            _ => 2,
        });
    }
    let days = 146097 * century / 4 + 1461 * year / 4 + entry / 32 + day;
    let rest = second * SECOND as u64 + u64::from(byte(values, 20)) * 100 + pair(21);
    let minutes = days as i64 * (DAY / MINUTE) + (hour * 60 + minute) as i64;
    Ok(minutes * MINUTE + (rest as i64 - 719529 * DAY))
}

/// The instant of the numbers of a label, or a refusal.
#[inline(always)]
fn instant_of(date: Parts, hour: u32, minute: u32, second: u32, millisecond: u32) -> Result<i64, i64> {
    let Parts { year, month, day } = date;
    if !(1..=12).contains(&month) {
        return Err(2);
    }
    if day < 1 || day > month_length(year, month) {
        return Err(3);
    }
    if hour > 23 || minute > 59 || second > 59 {
        return Err(5);
    }
    Ok(joined(date, hour, minute, second, millisecond))
}

/// The three ways of reading a label.
pub const BY_BYTES: u8 = 0;
pub const BY_WORDS: u8 = 1;
pub const BY_CENTURY: u8 = 2;

#[inline(never)]
pub unsafe extern "C" fn read_instant<const WAY: u8>(label: *const u8, length: usize, instant: *mut i64) -> i64 {
    let answer = match (<&[u8; INSTANT_LABEL_BYTES]>::try_from(slice::from_raw_parts(label, length)), WAY) {
        (Ok(label), BY_BYTES) => read_by_bytes(label),
        (Ok(label), BY_WORDS) => read_by_words(label),
        (Ok(label), _) => read_by_century(label),
        (Err(_), _) => Err(8),
    };
    to_place(instant, answer)
}

/// The hours of the last position.
const LAST_HOURS: u64 = (*POSITIONS.end() / POSITION_HOUR) as u64;

/// The bytes of `MM:SS.mmm`.
const CLOCK_BYTES: usize = 9;

#[inline(always)]
fn digit(byte: u8) -> Result<u64, i64> {
    if byte.is_ascii_digit() {
        Ok((byte - b'0').into())
    } else {
        Err(13)
    }
}

/// The number below 60 of two digits.
#[inline(always)]
fn below_60(tens: u8, ones: u8) -> Result<u64, i64> {
    let number = digit(tens)? * 10 + digit(ones)?;
    if number < 60 {
        Ok(number)
    } else {
        Err(13)
    }
}

/// The hours that stand with their colon before `MM:SS.mmm`, one too many where they are too many; 0 where nothing does.
#[inline(always)]
fn hours(front: &[u8]) -> Result<u64, i64> {
    let mut hours = 0;
    if let Some((&colon, digits)) = front.split_last() {
        if colon != b':' || digits.len() < 2 {
            return Err(13);
        }
        for &byte in digits {
            hours = (hours * 10 + digit(byte)?).min(LAST_HOURS + 1);
        }
    }
    Ok(hours)
}

/// The position of a number of hours and of a time below an hour, or a refusal.
#[inline(always)]
fn position(hours: u64, minute: u64, second: u64, millisecond: u64) -> Result<i64, i64> {
    if hours > LAST_HOURS {
        return Err(6);
    }
    Ok((((hours * 60 + minute) * 60 + second) * POSITION_SECOND as u64 + millisecond) as i64)
}

/// The position of a timestamp, or a refusal: byte by byte, the first wrong one ends it.
#[inline(always)]
fn by_bytes(text: &[u8]) -> Result<i64, i64> {
    if text.len() < CLOCK_BYTES {
        return Err(13);
    }
    let (front, clock) = text.split_at(text.len() - CLOCK_BYTES);
    let minute = below_60(clock[0], clock[1])?;
    if clock[2] != b':' {
        return Err(13);
    }
    let second = below_60(clock[3], clock[4])?;
    if clock[5] != b'.' {
        return Err(13);
    }
    let millisecond = digit(clock[6])? * 100 + digit(clock[7])? * 10 + digit(clock[8])?;
    position(hours(front)?, minute, second, millisecond)
}

/// The same, with the tests of the bytes joined: those of `MM:SS.mmm`, and those of hours of two digits.
#[inline(always)]
fn by_joined_tests(text: &[u8]) -> Result<i64, i64> {
    // 0 for a digit up to the last one; a mark is tested by `^`. So no test is a branch of its own.
    let no_digit = |byte: u8, last: u8| u8::from(byte.wrapping_sub(b'0') > last);
    let number = |byte: u8| u64::from(byte - b'0');
    let (front, &[m, n, colon, s, t, point, a, b, c]) = text.split_last_chunk::<CLOCK_BYTES>().ok_or(13)?;
    let wrong_minute = no_digit(m, 5) | no_digit(n, 9) | (colon ^ b':');
    let wrong_second = no_digit(s, 5) | no_digit(t, 9) | (point ^ b'.');
    if wrong_minute | wrong_second | no_digit(a, 9) | no_digit(b, 9) | no_digit(c, 9) != 0 {
        return Err(13);
    }
    let hours = match *front {
        [h, o, colon] if no_digit(h, 9) | no_digit(o, 9) | (colon ^ b':') != 0 => return Err(13),
        [h, o, _] => number(h) * 10 + number(o),
        _ => hours(front)?,
    };
    let millisecond = number(a) * 100 + number(b) * 10 + number(c);
    position(hours, number(m) * 10 + number(n), number(s) * 10 + number(t), millisecond)
}

#[inline(always)]
fn timestamp<const JOINED: bool>(text: &[u8]) -> Result<i64, i64> {
    if JOINED {
        by_joined_tests(text)
    } else {
        by_bytes(text)
    }
}

#[inline(never)]
pub unsafe extern "C" fn read_position<const JOINED: bool>(text: *const u8, length: usize) -> i64 {
    returned(timestamp::<JOINED>(slice::from_raw_parts(text, length)))
}

fn blank(byte: &u8) -> bool {
    matches!(byte, b' ' | b'\t')
}

/// What follows the blanks that a text begins with, where it begins with one.
#[inline(always)]
fn after_blanks(text: &[u8]) -> Option<&[u8]> {
    let blanks = text.iter().position(|byte| !blank(byte))?;
    (blanks != 0).then(|| &text[blanks..])
}

/// Where the first timestamp of a line ends: at a blank. With joined tests, the two usual places are tried first; no line in
/// which a blank stands before them is right.
#[inline(always)]
fn first_end<const JOINED: bool>(line: &[u8]) -> Option<usize> {
    if JOINED {
        for usual in [CLOCK_BYTES, "HH:".len() + CLOCK_BYTES] {
            if line.get(usual).is_some_and(blank) {
                return Some(usual);
            }
        }
    }
    line.iter().position(blank)
}

/// The cue of a line, or a refusal.
#[inline(always)]
fn cue<const JOINED: bool>(line: &[u8]) -> Result<Cue, i64> {
    let (start, rest) = line.split_at(first_end::<JOINED>(line).ok_or(13)?);
    let rest = after_blanks(rest).and_then(|rest| rest.strip_prefix(b"-->")).ok_or(13)?;
    let end = after_blanks(rest).ok_or(13)?;
    match (timestamp::<JOINED>(start), timestamp::<JOINED>(end)) {
        (Ok(start), Ok(end)) if end > start => Ok(Cue { start, end }),
        (Ok(_), Ok(_)) | (Err(13), _) | (_, Err(13)) => Err(13),
        _ => Err(6),
    }
}

#[inline(never)]
pub unsafe extern "C" fn read_cue<const JOINED: bool>(line: *const u8, length: usize, place: *mut Cue) -> i64 {
    to_place(place, cue::<JOINED>(slice::from_raw_parts(line, length)))
}
