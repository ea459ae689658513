//! Document 01 and change requests One, Three, Four, Five, Six and Eight in plain Rust, written from their text and sharing
//! nothing with the library but the types of dates, fields, cues, constants and clocks. The calendar is a table of every day,
//! built by stepping from each day to the next; instants go by `div_euclid` and `rem_euclid`, an index by a search for a bad
//! instant and then one for a fall, labels by `write!`, the reader of instants byte by byte, timestamps and cue lines by splitting
//! them at their marks and blanks, the constants by trying every n, and the clock by trying every step that may fit. Week dates are
//! in plain_weeks.rs.

use super::answer::Answer::{self, Refused, RefusedAt, Value};
use ovenquill::{Clock, ClockPosition, Constants, Cue, Date, Fields};
use std::io::Write;
use std::sync::OnceLock;

// Document 01's numbers, the ends of the calendar as change request Eight has them

pub const FIRST_YEAR: i64 = -32000;
pub const LAST_YEAR: i64 = 31999;
pub const FIRST_DAY: i64 = -12407288;
pub const LAST_DAY: i64 = 10968231;

/// The years of labels, and their first and last day.
pub const FIRST_LABEL_YEAR: i64 = 0;
pub const LAST_LABEL_YEAR: i64 = 9999;
pub const FIRST_LABEL_DAY: i64 = -719528;
pub const LAST_LABEL_DAY: i64 = 2932896;

/// The weekdays' numbers, as change request Four has them, and names, each the day after the one before it.
pub const WEEKDAYS: [(i64, &str); 7] =
    [(1, "Monday"), (2, "Tuesday"), (3, "Wednesday"), (4, "Thursday"), (5, "Friday"), (6, "Saturday"), (7, "Sunday")];
const FIRST_WEEKDAY: &str = "Saturday";
const EPOCH_WEEKDAY: &str = "Thursday";

/// A second in the unit of an instant.
pub const SECOND: i64 = 1000;
pub const MINUTE: i64 = 60 * SECOND;
pub const HOUR: i64 = 60 * MINUTE;
pub const DAY: i64 = 24 * HOUR;
/// The first instant of the first day and the last of the last, in the range and in labels.
pub const FIRST_INSTANT: i64 = FIRST_DAY * DAY;
pub const LAST_INSTANT: i64 = (LAST_DAY + 1) * DAY - 1;
pub const FIRST_LABEL_INSTANT: i64 = FIRST_LABEL_DAY * DAY;
pub const LAST_LABEL_INSTANT: i64 = (LAST_LABEL_DAY + 1) * DAY - 1;

/// The shape of an instant label, with d for a digit.
const LABEL_SHAPE: &[u8; LABEL_BYTES] = b"dddd-dd-ddTdd:dd:dd.dddZ";
pub const LABEL_BYTES: usize = 24;

/// A second in the unit of a position.
pub const POSITION_SECOND: i64 = 1000;
pub const POSITION_MINUTE: i64 = 60 * POSITION_SECOND;
pub const POSITION_HOUR: i64 = 60 * POSITION_MINUTE;
pub const LAST_POSITION: i64 = 359999999999;

/// The least and the largest constants that are allowed.
pub const LEAST: Constants = Constants { a: 1, b: 0, d: 1, m: 0, c: 0, k: 0, t: 0 };
pub const LARGEST: Constants = Constants { a: 1023, b: 1023, d: 1048575, m: 4294967295, c: 4294967295, k: 47, t: 255 };
/// The largest search end, which is also the end that document 01's rows mean where they name none.
pub const LAST_END: i64 = 4294967295;
pub const LAST_BOUND: i64 = 4294967294;

// Change request Five's numbers

/// The ticks from one wrap of the clock to the next.
pub const WRAP: i64 = 8589934592;
/// A step is from minus that many ticks to one tick less than that many.
pub const HALF_WRAP: i64 = 4294967296;
pub const LAST_CLOCK_POSITION: i64 = 9007199254740992;
pub const TICKS_PER_MILLISECOND: i64 = 90;

// The calendar

/// A day as the table has it; `in_week` is the place of its weekday in the list of weekdays.
#[derive(Clone, Copy)]
pub struct Day {
    pub year: i16,
    pub month: u8,
    pub day: u8,
    pub in_week: u8,
    pub day_of_year: u16,
}

struct Calendar {
    /// Every day of the range, from the first.
    days: Vec<Day>,
    /// The count of the first day of each month, 12 to a year.
    months: Vec<i64>,
}

pub fn leap(year: i64) -> bool {
    year % 4 == 0 && !(year % 100 == 0 && year % 400 != 0)
}

fn length(year: i64, month: i64) -> i64 {
    let lengths = [31, if leap(year) { 29 } else { 28 }, 31, 30, 31, 30, 31, 31, 30, 31, 30, 31];
    lengths[month as usize - 1]
}

/// The day after.
pub fn next(today: Day) -> Day {
    let in_week = (today.in_week + 1) % 7;
    if i64::from(today.day) < length(today.year.into(), today.month.into()) {
        Day { day: today.day + 1, in_week, day_of_year: today.day_of_year + 1, ..today }
    } else if today.month < 12 {
        Day { month: today.month + 1, day: 1, in_week, day_of_year: today.day_of_year + 1, ..today }
    } else {
        Day { year: today.year + 1, month: 1, day: 1, in_week, day_of_year: 1 }
    }
}

fn calendar() -> &'static Calendar {
    static CALENDAR: OnceLock<Calendar> = OnceLock::new();
    CALENDAR.get_or_init(|| {
        let in_week = WEEKDAYS.iter().position(|weekday| weekday.1 == FIRST_WEEKDAY).expect("one of the seven") as u8;
        let mut days = Vec::with_capacity((LAST_DAY - FIRST_DAY + 1) as usize);
        let mut months = Vec::new();
        let mut today = Day { year: FIRST_YEAR as i16, month: 1, day: 1, in_week, day_of_year: 1 };
        for count in FIRST_DAY..=LAST_DAY {
            if today.day == 1 {
                months.push(count);
            }
            days.push(today);
            today = next(today);
        }
        // The counts of the definition and of the papers' rows.
        let at = |count: i64| days[(count - FIRST_DAY) as usize];
        for (count, date) in [
            (FIRST_LABEL_DAY, (FIRST_LABEL_YEAR, 1, 1)),
            (0, (1970, 1, 1)),
            (LAST_LABEL_DAY, (LAST_LABEL_YEAR, 12, 31)),
            (LAST_DAY, (LAST_YEAR, 12, 31)),
        ] {
            assert_eq!((i64::from(at(count).year), at(count).month, at(count).day), date);
        }
        assert_eq!(WEEKDAYS[usize::from(at(0).in_week)].1, EPOCH_WEEKDAY);
        Calendar { days, months }
    })
}

fn day_in_range(days: i64) -> Option<&'static Day> {
    (FIRST_DAY..=LAST_DAY).contains(&days).then(|| &calendar().days[(days - FIRST_DAY) as usize])
}

/// The first of refusals 1, 2 and 3 that a date has.
fn date_refusal(year: i64, month: i64, day: i64) -> Option<i64> {
    if !(FIRST_YEAR..=LAST_YEAR).contains(&year) {
        Some(1)
    } else if !(1..=12).contains(&month) {
        Some(2)
    } else if !(1..=length(year, month)).contains(&day) {
        Some(3)
    } else {
        None
    }
}

/// The count of a date that has no refusal.
fn count(date: Date) -> i64 {
    calendar().months[(12 * (date.year - FIRST_YEAR) + date.month - 1) as usize] + date.day - 1
}

pub fn days_from_civil(date: Date) -> Answer<i64> {
    match date_refusal(date.year, date.month, date.day) {
        Some(refusal) => Refused(refusal),
        None => Value(count(date)),
    }
}

pub fn civil_from_days(days: i64) -> Answer<Date> {
    match day_in_range(days) {
        Some(day) => Value(Date { year: day.year.into(), month: day.month.into(), day: day.day.into() }),
        None => Refused(4),
    }
}

/// The weekday's number and name.
pub fn weekday(days: i64) -> Answer<(i64, &'static str)> {
    day_in_range(days).map_or(Refused(4), |day| Value(WEEKDAYS[usize::from(day.in_week)]))
}

pub fn is_leap(year: i64) -> Answer<bool> {
    match date_refusal(year, 1, 1) {
        Some(refusal) => Refused(refusal),
        None => Value(leap(year)),
    }
}

pub fn last_day_of_month(year: i64, month: i64) -> Answer<i64> {
    match date_refusal(year, month, 1) {
        Some(refusal) => Refused(refusal),
        None => Value(length(year, month)),
    }
}

pub fn day_of_year(date: Date) -> Answer<i64> {
    match date_refusal(date.year, date.month, date.day) {
        Some(refusal) => Refused(refusal),
        None => {
            let day = day_in_range(count(date)).expect("the date is in the range");
            Value(day.day_of_year.into())
        }
    }
}

pub fn add_days(date: Date, days: i64) -> Answer<Date> {
    if let Some(refusal) = date_refusal(date.year, date.month, date.day) {
        return Refused(refusal);
    }
    let sum = i128::from(count(date)) + i128::from(days);
    i64::try_from(sum).map_or(Refused(4), civil_from_days)
}

// Instants

fn instant_in_range(instant: i64) -> bool {
    (FIRST_INSTANT..=LAST_INSTANT).contains(&instant)
}

pub fn day_of_instant(instant: i64) -> Answer<i64> {
    if instant_in_range(instant) {
        Value(instant.div_euclid(DAY))
    } else {
        Refused(4)
    }
}

pub fn split_instant(instant: i64) -> Answer<Fields> {
    if !instant_in_range(instant) {
        return Refused(4);
    }
    let Date { year, month, day } = civil_from_days(instant.div_euclid(DAY)).value();
    let rest = instant.rem_euclid(DAY);
    Value(Fields {
        year,
        month,
        day,
        hour: rest / HOUR,
        minute: rest / MINUTE % 60,
        second: rest / SECOND % 60,
        millisecond: rest % SECOND,
    })
}

pub fn join_instant(f: Fields) -> Answer<i64> {
    if let Some(refusal) = date_refusal(f.year, f.month, f.day) {
        return Refused(refusal);
    }
    let in_time = (0..24).contains(&f.hour)
        && (0..60).contains(&f.minute)
        && (0..60).contains(&f.second)
        && (0..SECOND).contains(&f.millisecond);
    if !in_time {
        return Refused(5);
    }
    let seconds = (f.hour * 60 + f.minute) * 60 + f.second;
    Value(count(Date::new(f.year, f.month, f.day)) * DAY + seconds * SECOND + f.millisecond)
}

pub fn index_days(instants: &[i64], days: &mut [i32]) -> Answer<usize> {
    if instants.len() != days.len() {
        return Refused(12);
    }
    if let Some(place) = instants.iter().position(|&instant| !instant_in_range(instant)) {
        return RefusedAt(4, place as i64);
    }
    if let Some(place) = (1..instants.len()).find(|&place| instants[place] < instants[place - 1]) {
        return RefusedAt(15, place as i64);
    }
    for (day, instant) in days.iter_mut().zip(instants) {
        *day = instant.div_euclid(DAY) as i32;
    }
    Value(days.len())
}

// Labels

/// Whether labels have a year, or a week year.
pub fn label_year(year: i64) -> bool {
    (FIRST_LABEL_YEAR..=LAST_LABEL_YEAR).contains(&year)
}

/// The label of an instant that has one.
pub fn instant_label(instant: i64) -> [u8; LABEL_BYTES] {
    let f = split_instant(instant).value();
    let mut label = [0; LABEL_BYTES];
    write!(
        &mut label[..],
        "{:04}-{:02}-{:02}T{:02}:{:02}:{:02}.{:03}Z",
        f.year,
        f.month,
        f.day,
        f.hour,
        f.minute,
        f.second,
        f.millisecond
    )
    .expect("a label has that many bytes");
    label
}

/// The label of a position from 0 to the last.
pub fn position_label(position: i64) -> String {
    let hours = position / POSITION_HOUR;
    let minutes = position % POSITION_HOUR / POSITION_MINUTE;
    let seconds = position % POSITION_MINUTE / POSITION_SECOND;
    format!("{hours:02}:{minutes:02}:{seconds:02}.{:03}", position % POSITION_SECOND)
}

/// Writes a label to the front of a buffer, if it is long enough.
pub fn put(label: &[u8], out: &mut [u8]) -> Answer<usize> {
    if out.len() < label.len() {
        return Refused(7);
    }
    out[..label.len()].copy_from_slice(label);
    Value(label.len())
}

pub fn write_instant(instant: i64, out: &mut [u8]) -> Answer<usize> {
    match split_instant(instant) {
        Value(fields) if label_year(fields.year) => put(&instant_label(instant), out),
        Value(_) => Refused(1),
        _ => Refused(4),
    }
}

pub fn write_position(position: i64, out: &mut [u8]) -> Answer<usize> {
    if (0..=LAST_POSITION).contains(&position) {
        put(position_label(position).as_bytes(), out)
    } else {
        Refused(6)
    }
}

pub fn read_instant(label: &[u8]) -> Answer<i64> {
    if label.len() != LABEL_BYTES {
        return Refused(8);
    }
    let mut fields = vec![0];
    for (&byte, &wanted) in label.iter().zip(LABEL_SHAPE) {
        if wanted == b'd' && byte.is_ascii_digit() {
            let field = fields.last_mut().expect("never empty");
            *field = *field * 10 + i64::from(byte - b'0');
        } else if wanted != b'd' && [wanted, wanted.to_ascii_lowercase()].contains(&byte) {
            fields.push(0);
        } else {
            return Refused(8);
        }
    }
    join_instant(Fields {
        year: fields[0],
        month: fields[1],
        day: fields[2],
        hour: fields[3],
        minute: fields[4],
        second: fields[5],
        millisecond: fields[6],
    })
}

// Timestamps and cue lines

/// A text that is digits and nothing else.
fn digits(text: &[u8]) -> Option<&str> {
    std::str::from_utf8(text).ok().filter(|text| text.bytes().all(|byte| byte.is_ascii_digit()))
}

/// The number of so many digits, where it is not above the last one.
fn field(text: &[u8], length: usize, last: i64) -> Option<i64> {
    let digits = digits(text).filter(|digits| digits.len() == length)?;
    digits.parse().ok().filter(|&number| number <= last)
}

/// The number of hours, all those that are too many being the same.
fn hours(text: &[u8]) -> Option<i64> {
    let digits = digits(text).filter(|digits| digits.len() >= 2)?;
    let last = LAST_POSITION / POSITION_HOUR;
    match digits.trim_start_matches('0') {
        "" => Some(0),
        long if long.len() > last.to_string().len() => Some(last + 1),
        short => short.parse().ok(),
    }
}

/// The position of a timestamp, above the last one where its hours are; nothing where it has a wrong shape.
fn timestamp(text: &[u8]) -> Option<i64> {
    let parts: Vec<&[u8]> = text.split(|&byte| byte == b':').collect();
    let (hours, minutes, rest) = match parts[..] {
        [minutes, rest] => (0, minutes, rest),
        [first, minutes, rest] => (hours(first)?, minutes, rest),
        _ => return None,
    };
    let parts: Vec<&[u8]> = rest.split(|&byte| byte == b'.').collect();
    let [seconds, decimals] = parts[..] else { return None };
    let (minutes, seconds) = (field(minutes, 2, 59)?, field(seconds, 2, 59)?);
    let milliseconds = field(decimals, 3, 999)?;
    Some(hours * POSITION_HOUR + minutes * POSITION_MINUTE + seconds * POSITION_SECOND + milliseconds)
}

pub fn read_position(text: &[u8]) -> Answer<i64> {
    match timestamp(text) {
        None => Refused(13),
        Some(position) if position > LAST_POSITION => Refused(6),
        Some(position) => Value(position),
    }
}

pub fn read_cue(line: &[u8]) -> Answer<Cue> {
    // What stands between two blanks that follow each other is empty.
    let parts: Vec<&[u8]> = line.split(|&byte| byte == b' ' || byte == b'\t').collect();
    let [first, between @ .., last] = &parts[..] else { return Refused(13) };
    let arrows: Vec<&[u8]> = between.iter().copied().filter(|part| !part.is_empty()).collect();
    match (timestamp(first), timestamp(last)) {
        (Some(start), Some(end)) if arrows == [b"-->"] => {
            if start > LAST_POSITION || end > LAST_POSITION {
                Refused(6)
            } else if end <= start {
                Refused(13)
            } else {
                Value(Cue { start, end })
            }
        }
        _ => Refused(13),
    }
}

// Constants that stand for a division

pub fn allowed(q: Constants) -> bool {
    (LEAST.a..=LARGEST.a).contains(&q.a)
        && (LEAST.b..=LARGEST.b).contains(&q.b)
        && (LEAST.d..=LARGEST.d).contains(&q.d)
        && (LEAST.m..=LARGEST.m).contains(&q.m)
        && (LEAST.c..=LARGEST.c).contains(&q.c)
        && (LEAST.k..=LARGEST.k).contains(&q.k)
        && (LEAST.t..=LARGEST.t).contains(&q.t)
}

/// Whether the two quotients of allowed constants are more than t apart at n.
pub fn differs(q: Constants, n: i64) -> bool {
    let exact = (i128::from(q.a) * i128::from(n) + i128::from(q.b)) / i128::from(q.d);
    let device = (i128::from(q.m) * i128::from(n) + i128::from(q.c)) >> q.k;
    (exact - device).abs() > i128::from(q.t)
}

/// The least difference below `end` of allowed constants: every n is tried.
pub fn scan(q: Constants, end: i64) -> Option<i64> {
    (0..end).find(|&n| differs(q, n))
}

/// The same by steps: from one n to the next, a is added to the exact quotient's numerator and m to the device's.
pub fn scan_by_steps(q: Constants, end: i64) -> Option<i64> {
    let [a, b, d, m, c, t] = [q.a, q.b, q.d, q.m, q.c, q.t].map(|x| x as u64);
    let (mut exact, mut rest, mut device) = (b / d, b % d, c);
    let (whole, part) = (a / d, a % d);
    for n in 0..end {
        if exact.abs_diff(device >> q.k) > t {
            return Some(n);
        }
        exact += whole;
        rest += part;
        if rest >= d {
            rest -= d;
            exact += 1;
        }
        device = device.wrapping_add(m); // wraps at most after the last n
    }
    None
}

/// The same by residues of n modulo d, for ends that are too far to scan: within a residue the device's error changes by
/// the same amount from each member to the next, so its first difference on either side is found by one division.
pub fn walk(q: Constants, end: i64) -> Option<i64> {
    let Constants { a, b, d, m, c, k, t } = q;
    let power = 1i64 << k;
    let gain = m * d - a * power;
    // The least j from 0 with j * rate >= need.
    let periods = |need: i64, rate: i64| match need {
        ..=0 => Some(0),
        _ if rate > 0 => Some((need + rate - 1) / rate),
        _ => None,
    };
    let mut least = end;
    for r in 0..d.min(end) {
        let (exact, device) = ((a * r + b) / d, m * r + c);
        let above = periods((exact + t + 1) * power - device, gain);
        let below = periods(device - (exact - t) * power + 1, -gain);
        for j in [above, below].into_iter().flatten() {
            least = least.min(j.saturating_mul(d).saturating_add(r));
        }
        if least == r {
            break;
        }
    }
    (least < end).then_some(least)
}

/// What the search answers, given the way to find the least difference below an end.
pub fn search(q: Constants, end: i64, find: fn(Constants, i64) -> Option<i64>) -> Answer<Option<i64>> {
    if allowed(q) && (0..=LAST_END).contains(&end) {
        Value(find(q, end))
    } else {
        Refused(9)
    }
}

/// What a claim with allowed numbers is answered, given the least difference at or below its bound.
pub fn judged(least: Option<i64>, bound: i64) -> Answer<()> {
    match least {
        Some(n) if n < bound => RefusedAt(10, n),
        Some(n) if n == bound => Value(()),
        _ => Refused(11),
    }
}

/// What the claim is answered, given the way to find the least difference below an end.
pub fn claim(q: Constants, bound: i64, find: fn(Constants, i64) -> Option<i64>) -> Answer<()> {
    if allowed(q) && (0..=LAST_BOUND).contains(&bound) {
        judged(find(q, bound + 1), bound)
    } else {
        Refused(9)
    }
}

// The transport clock

/// The step from a position to a value of the clock: of the numbers that may fit, the one that does and is within the limits.
fn clock_step(position: i128, value: i128) -> i128 {
    let [wrap, half] = [WRAP, HALF_WRAP].map(i128::from);
    let without_wrap = value - position.rem_euclid(wrap);
    let mut steps = [without_wrap - wrap, without_wrap, without_wrap + wrap]
        .into_iter()
        .filter(|step| (position + step - value) % wrap == 0)
        .filter(|step| (-half..half).contains(step));
    let step = steps.next().expect("one step fits");
    assert_eq!(steps.next(), None, "a second step fits");
    step
}

fn clock_position_in_range(position: i128) -> bool {
    (0..=i128::from(LAST_CLOCK_POSITION)).contains(&position)
}

/// The position that a value leads to, from which the clock goes on; after a refusal it goes on from where it was.
pub fn follow(clock: &Clock, value: i64) -> Answer<ClockPosition> {
    if !(0..WRAP).contains(&value) {
        return Refused(14);
    }
    let reached = match *clock {
        Clock::Nothing => value.into(),
        Clock::At(position) if !clock_position_in_range(position.into()) => return Refused(14),
        Clock::At(position) => i128::from(position) + clock_step(position.into(), value.into()),
    };
    if !clock_position_in_range(reached) {
        return Refused(14);
    }
    let ticks = reached as i64;
    Value(ClockPosition { ticks, milliseconds: ticks.div_euclid(TICKS_PER_MILLISECOND) })
}

/// The clock after a list of values, and how many of them were passed over.
pub fn follow_all(start: &Clock, values: &[i64]) -> (Clock, usize) {
    let (mut clock, mut passed_over) = (start.clone(), 0);
    for &value in values {
        match follow(&clock, value) {
            Value(position) => clock = Clock::At(position.ticks),
            _ => passed_over += 1,
        }
    }
    (clock, passed_over)
}
