//! The C calls themselves: what each returns, and what it leaves in the places and slices that it is lent. Every place
//! stands among guard numbers and holds a number of its own before the call, which a refusal must leave there.

mod support;

use ovenquill::sheet::Record;
use ovenquill::{raw, Clock, Constants, Cue, Date, Fields, WeekDate};
use std::fmt::Debug;
use std::ptr;
use support::answer::Answer::{self, Refused, RefusedAt, Value};
use support::plain::{
    self, FIRST_DAY, FIRST_INSTANT, FIRST_LABEL_INSTANT, FIRST_LABEL_YEAR, FIRST_YEAR, HALF_WRAP, LARGEST,
    LAST_CLOCK_POSITION, LAST_DAY, LAST_INSTANT, LAST_LABEL_INSTANT, LAST_LABEL_YEAR, LAST_POSITION, LAST_YEAR, SECOND,
    WRAP,
};
use support::plain_sheets::{self, sheet_of, TRAILER_BYTES};
use support::plain_weeks::{
    self, FIRST_WEEK_LABEL_DAY, FIRST_WEEK_YEAR, LAST_WEEK_LABEL_DAY, LAST_WEEK_YEAR, WEEK_LABEL_BYTES,
};
use support::random::Random;
use support::{some_claim, BAD_INSTANTS};

const GUARD: i64 = 0x5afe_c0de_5afe_c0de;
/// What a place holds before a call.
const BEFORE: i64 = -0x0123_4567_89ab_cdef;
const DATE_BEFORE: Date = Date { year: BEFORE, month: BEFORE + 1, day: BEFORE + 2 };
const WEEK_DATE_BEFORE: WeekDate = WeekDate { year: BEFORE, week: BEFORE + 1, weekday: BEFORE + 2 };
const FIELDS_BEFORE: Fields = Fields {
    year: BEFORE,
    month: BEFORE + 1,
    day: BEFORE + 2,
    hour: BEFORE + 3,
    minute: BEFORE + 4,
    second: BEFORE + 5,
    millisecond: BEFORE + 6,
};

const CUE_BEFORE: Cue = Cue { start: BEFORE, end: BEFORE + 1 };
const RECORD_BEFORE: Record = Record {
    a: BEFORE,
    b: BEFORE + 1,
    d: BEFORE + 2,
    m: BEFORE + 3,
    c: BEFORE + 4,
    k: BEFORE + 5,
    t: BEFORE + 6,
    bound: BEFORE + 7,
};

/// A place among guard numbers.
#[repr(C)]
struct Guarded<T> {
    ahead: [i64; 8],
    place: T,
    behind: [i64; 8],
}

/// Lends the call a place; answers what it returned and what the place holds then.
fn lend<T>(before: T, call: impl FnOnce(*mut T) -> i64) -> (i64, T) {
    let mut lent = Guarded { ahead: [GUARD; 8], place: before, behind: [GUARD; 8] };
    let returned = call(&mut lent.place);
    assert_eq!((lent.ahead, lent.behind), ([GUARD; 8], [GUARD; 8]), "written beside the place");
    (returned, lent.place)
}

/// Holds a call that writes its answer to a place to the plain one's answer.
fn try_place<T: Copy + Debug + PartialEq>(expected: Answer<T>, before: T, call: impl FnOnce(*mut T) -> i64) {
    let wanted = match expected {
        Value(value) => (0, value),
        Refused(number) | RefusedAt(number, _) => (-number, before),
    };
    assert_eq!(lend(before, call), wanted);
}

/// What a call returns that has no place.
fn returned(expected: Answer<i64>) -> i64 {
    match expected {
        Value(value) => value,
        Refused(number) | RefusedAt(number, _) => -number,
    }
}

/// Two times in three a number from first to last, both of these among them, else one beside them or anywhere.
fn some(random: &mut Random, first: i64, last: i64) -> i64 {
    let inside = random.within(first, last);
    let choices = [inside, inside, inside, inside, first, last, first - 1, last + 1, random.next() as i64];
    random.choose(&choices)
}

fn some_date(random: &mut Random) -> Date {
    Date::new(some(random, FIRST_YEAR, LAST_YEAR), some(random, 1, 12), some(random, 1, 31))
}

// SAFETY of every block below: each pointer is to a place, or to a slice of that length, that is ours to lend.

#[test]
fn calls_about_counts() {
    let mut random = Random::new(24);
    for _ in 0..300_000 {
        let days = some(&mut random, FIRST_DAY, LAST_DAY);
        let date = plain::civil_from_days(days);
        for way in
            [raw::ovenquill_civil_from_days, raw::ovenquill_civil_from_days_plain, raw::ovenquill_civil_from_days_audit]
        {
            try_place(date, DATE_BEFORE, |date| unsafe { way(days, date) });
        }
        let number = match plain::weekday(days) {
            Value((number, _)) => number,
            refused => -refused_number(refused),
        };
        assert_eq!(unsafe { raw::ovenquill_weekday(days) }, number, "{days}");
        try_place(plain_weeks::week_from_days(days), WEEK_DATE_BEFORE, |week| unsafe {
            raw::ovenquill_week_from_days(days, week)
        });
    }
}

fn refused_number<T: Debug>(answer: Answer<T>) -> i64 {
    match answer {
        Refused(number) => number,
        other => panic!("not refused by its number alone: {other:?}"),
    }
}

#[test]
fn calls_about_dates() {
    let mut random = Random::new(25);
    for _ in 0..300_000 {
        let date = some_date(&mut random);
        let Date { year, month, day } = date;
        try_place(plain::days_from_civil(date), BEFORE, |days| unsafe {
            raw::ovenquill_days_from_civil(year, month, day, days)
        });
        let any = some(&mut random, FIRST_DAY, LAST_DAY);
        let shift = match plain::days_from_civil(date) {
            Value(days) => {
                random.choose(&[any, FIRST_DAY - days, FIRST_DAY - 1 - days, LAST_DAY - days, LAST_DAY + 1 - days])
            }
            _ => any,
        };
        try_place(plain::add_days(date, shift), DATE_BEFORE, |date| unsafe {
            raw::ovenquill_add_days(year, month, day, shift, date)
        });
        let leap = match plain::is_leap(year) {
            Value(leap) => i64::from(leap),
            refused => -refused_number(refused),
        };
        assert_eq!(unsafe { raw::ovenquill_is_leap(year) }, leap, "{year}");
        let length = returned(plain::last_day_of_month(year, month));
        assert_eq!(unsafe { raw::ovenquill_last_day_of_month(year, month) }, length, "{year} {month}");
        let day_of_year = returned(plain::day_of_year(date));
        assert_eq!(unsafe { raw::ovenquill_day_of_year(year, month, day) }, day_of_year, "{date:?}");
    }
}

#[test]
fn calls_about_week_dates() {
    let mut random = Random::new(66);
    let mut seen = [0; 4];
    for _ in 0..300_000 {
        let any_year = some(&mut random, FIRST_WEEK_YEAR, LAST_WEEK_YEAR);
        let year = random.choose(&[any_year, any_year, FIRST_WEEK_YEAR, LAST_WEEK_YEAR]);
        let [week, weekday] = [some(&mut random, 1, 53), some(&mut random, 1, 7)];
        let days = plain_weeks::days_from_week(WeekDate { year, week, weekday });
        try_place(days, BEFORE, |days| unsafe { raw::ovenquill_days_from_week(year, week, weekday, days) });
        seen[match days {
            Value(_) => 0,
            Refused(1) => 1,
            Refused(16) => 2,
            _ => 3,
        }] += 1;
    }
    assert!(seen.iter().all(|&times| times > 10_000), "accepted, refused by 1, by 16 and by 4: {seen:?}");
}

#[test]
fn calls_about_instants() {
    let mut random = Random::new(26);
    for _ in 0..300_000 {
        let instant = some(&mut random, FIRST_INSTANT, LAST_INSTANT);
        try_place(plain::day_of_instant(instant), BEFORE, |days| unsafe {
            raw::ovenquill_day_of_instant(instant, days)
        });
        try_place(plain::split_instant(instant), FIELDS_BEFORE, |fields| unsafe {
            raw::ovenquill_split_instant(instant, fields)
        });
        let Date { year, month, day } = some_date(&mut random);
        let [hour, minute, second] = [23, 59, 59].map(|last| some(&mut random, 0, last));
        let millisecond = some(&mut random, 0, SECOND - 1);
        let joined = plain::join_instant(Fields { year, month, day, hour, minute, second, millisecond });
        try_place(joined, BEFORE, |instant| unsafe {
            raw::ovenquill_join_instant(year, month, day, hour, minute, second, millisecond, instant)
        });
    }
}

#[test]
fn the_index_writes_a_place_only_for_a_bad_instant_or_a_fall() {
    let mut random = Random::new(27);
    let mut seen = [0; 4];
    for _ in 0..100_000 {
        let count = random.within(0, 40) as usize;
        // In a list of close instants some are equal.
        let (first, last) = random.choose(&[(FIRST_INSTANT, LAST_INSTANT), (-9, 9)]);
        let mut instants: Vec<i64> = (0..count).map(|_| random.within(first, last)).collect();
        instants.sort();
        let stays = random.within(0, 1) == 0;
        for instant in instants.iter_mut().filter(|_| !stays) {
            match random.within(0, 30) {
                0 => *instant = random.choose(&BAD_INSTANTS),
                1..=3 => *instant = random.within(first, last),
                _ => {}
            }
        }
        let days_length = if random.within(0, 3) == 0 { random.within(0, 40) as usize } else { count };
        let mut days = vec![7; days_length];
        let mut expected_days = days.clone();
        let (wanted, kind) = match plain::index_days(&instants, &mut expected_days) {
            Value(written) => ((written as i64, BEFORE), 0),
            Refused(number) => ((-number, BEFORE), 1),
            RefusedAt(number, place) => ((-number, place), if number == 4 { 2 } else { 3 }),
        };
        let answered = lend(BEFORE, |place| unsafe {
            raw::ovenquill_index_days(instants.as_ptr(), count, days.as_mut_ptr(), days_length, place)
        });
        assert_eq!(answered, wanted, "{instants:?} to {days_length} days");
        assert_eq!(days, expected_days);
        seen[kind] += 1;
    }
    assert!(seen.iter().all(|&times| times > 10_000), "accepted, refused by 12, by 4 and by 15: {seen:?}");
}

/// The label as it is, with a byte changed to one of those, cut short, or of any length.
fn some_label(random: &mut Random, label: &[u8], bytes: &[u8]) -> Vec<u8> {
    let mut label = label.to_vec();
    if random.within(0, 1) == 0 {
        let place = random.within(0, label.len() as i64 - 1) as usize;
        label[place] = random.choose(bytes);
    }
    if random.within(0, 9) == 0 {
        label.pop();
    }
    if random.within(0, 99) == 0 {
        let lengths: Vec<usize> = support::lengths().collect();
        label.resize(random.choose(&lengths), b'0');
    }
    label
}

#[test]
fn the_reader_of_instant_labels() {
    let mut random = Random::new(28);
    for _ in 0..300_000 {
        let label = plain::instant_label(random.within(FIRST_LABEL_INSTANT, LAST_LABEL_INSTANT));
        let label = some_label(&mut random, &label, b"0123456789-:.TZ");
        try_place(plain::read_instant(&label), BEFORE, |instant| unsafe {
            raw::ovenquill_read_instant(label.as_ptr(), label.len(), instant)
        });
    }
}

#[test]
fn the_reader_of_week_labels() {
    let mut random = Random::new(67);
    let mut seen = [0; 3];
    for _ in 0..300_000 {
        let [any_year, any_week] = [random.within(FIRST_LABEL_YEAR, LAST_LABEL_YEAR), random.within(0, 99)];
        let year = random.choose(&[any_year, any_year, FIRST_LABEL_YEAR, LAST_LABEL_YEAR]);
        let week = random.choose(&[any_week, 1, 52, 53]);
        let label = plain_weeks::week_label(WeekDate { year, week, weekday: random.within(1, 7) });
        let label = some_label(&mut random, &label, b"0123456789-W");
        let days = plain_weeks::read_week(&label);
        try_place(days, BEFORE, |days| unsafe { raw::ovenquill_read_week(label.as_ptr(), label.len(), days) });
        seen[match days {
            Value(_) => 0,
            Refused(8) => 1,
            _ => 2,
        }] += 1;
    }
    assert!(seen.iter().all(|&times| times > 5_000), "read, refused by 8 and by 16: {seen:?}");
}

#[test]
fn the_readers_of_timestamps_and_cue_lines() {
    let mut random = Random::new(30);
    let mut seen = [0; 3];
    for _ in 0..300_000 {
        let start = random.of_any_size(0, LAST_POSITION);
        let end = some(&mut random, start, LAST_POSITION).clamp(0, LAST_POSITION);
        let [start, end] = [start, end].map(|position| match random.within(0, 7) {
            0 => format!("1{:05}:00:00.000", position % 100_000),
            _ => plain::position_label(position),
        });
        let mut line = [start.as_bytes(), b" --> ", end.as_bytes()].concat();
        if random.within(0, 2) == 0 {
            let place = random.within(0, line.len() as i64 - 1) as usize;
            line[place] = random.choose(b"0123456789:.-> \t");
        }
        let cue = plain::read_cue(&line);
        try_place(cue, CUE_BEFORE, |cue| unsafe { raw::ovenquill_read_cue(line.as_ptr(), line.len(), cue) });
        seen[match cue {
            Value(_) => 0,
            Refused(6) => 1,
            _ => 2,
        }] += 1;
        for text in [&line[..], &line[..start.len()], &line[line.len() - end.len()..]] {
            let position = unsafe { raw::ovenquill_read_position(text.as_ptr(), text.len()) };
            assert_eq!(position, returned(plain::read_position(text)), "{:?}", String::from_utf8_lossy(text));
        }
    }
    assert!(seen.iter().all(|&times| times > 10_000), "read, refused by 6 and by 13: {seen:?}");
}

#[test]
fn searches_and_claims() {
    let mut random = Random::new(29);
    let mut seen = [0; 4];
    for _ in 0..300_000 {
        let d = some(&mut random, 1, 50);
        let k = some(&mut random, 0, 12);
        let m = ((1 << k.clamp(0, 12)) / d.clamp(1, 50) + random.within(0, 1)).min(LARGEST.m);
        let (a, b, c, t) = (1, random.within(0, 3), random.within(0, 30), random.within(0, 1));
        let q = Constants { a, b, d, m, c, k, t };
        let end = some(&mut random, 0, 300);
        let found = match plain::search(q, end, plain::walk) {
            Value(least) => least.unwrap_or(end),
            refused => -refused_number(refused),
        };
        assert_eq!(unsafe { raw::ovenquill_first_difference(a, b, d, m, c, k, t, end) }, found, "{q:?} below {end}");
        // Half of the claims are right where there is a difference.
        let bound = if random.within(0, 1) == 0 { end } else { found };
        let (wanted, kind) = match plain::claim(q, bound, plain::walk) {
            Value(()) => ((0, BEFORE), 0),
            RefusedAt(number, least) => ((-number, least), 1),
            Refused(number) => ((-number, BEFORE), if number == 9 { 2 } else { 3 }),
        };
        let answered = lend(BEFORE, |least| unsafe { raw::ovenquill_check_bound(a, b, d, m, c, k, t, bound, least) });
        assert_eq!(answered, wanted, "{q:?} at {bound}");
        seen[kind] += 1;
    }
    assert!(seen.iter().all(|&times| times > 10_000), "accepted, refused by 10, by 9 and by 11: {seen:?}");
}

#[test]
fn the_readers_of_sheets() {
    let mut random = Random::new(90);
    let mut seen = [0; 6];
    for _ in 0..100_000 {
        let note: Vec<u8> = (0..random.of_any_size(0, 60)).map(|_| random.next() as u8).collect();
        let claims: Vec<u32> = (0..random.within(0, 4)).flat_map(|_| some_claim(&mut random)).collect();
        let mut sheet = sheet_of(&note, &claims);
        match random.within(0, 5) {
            0 => {
                let place = random.within((sheet.len() - TRAILER_BYTES) as i64, sheet.len() as i64 - 1) as usize;
                sheet[place] = random.next() as u8;
            }
            1 => sheet.truncate(random.within(0, sheet.len() as i64) as usize),
            _ => {}
        }
        let place = some(&mut random, 0, 3);
        let (bytes, length) = (sheet.as_ptr(), sheet.len());

        let wanted = match plain_sheets::read(&sheet) {
            Value(contents) => (contents.records, contents.note_length as i64),
            refused => (-refused_number(refused), BEFORE),
        };
        let answered = lend(BEFORE, |note_length| unsafe { raw::ovenquill_sheet_read(bytes, length, note_length) });
        assert_eq!(answered, wanted, "{sheet:?}");
        try_place(plain_sheets::record(&sheet, place), RECORD_BEFORE, |record| unsafe {
            raw::ovenquill_sheet_record(bytes, length, place, record)
        });
        let (wanted, kind) = match plain_sheets::check(&sheet, place) {
            Value(()) => ((0, BEFORE), 0),
            RefusedAt(number, least) => ((-number, least), 1),
            Refused(9) => ((-9, BEFORE), 2),
            Refused(11) => ((-11, BEFORE), 3),
            Refused(number) => ((-number, BEFORE), if wanted.0 < 0 { 4 } else { 5 }),
        };
        let answered = lend(BEFORE, |least| unsafe { raw::ovenquill_sheet_check(bytes, length, place, least) });
        assert_eq!(answered, wanted, "place {place} of {sheet:?}");
        seen[kind] += 1;
    }
    assert!(
        seen.iter().all(|&times| times > 3_000),
        "accepted, refused by 10, by 9 and by 11, no sheet and no such record: {seen:?}"
    );
}

#[test]
fn the_writers_of_sheets_and_reports() {
    let claims = [[1, 0, 10, 26, 0, 8, 0, 69], [1, 0, 10, 26, 0, 8, 0, 100]].concat();
    let sheet = sheet_of(b"note", &claims);
    let text = b"0 accepted\n1 10 69\n";
    for (count, length, returns) in [
        (16, 79, -7),
        (16, 80, 80),
        (16, 90, 80),
        (15, 80, -17),
        (9, 0, -17),
        (8, 48, 48),
        (8, 47, -7),
        (7, 100, -17),
        (0, 16, 16),
        (0, 15, -7),
    ] {
        let mut out = vec![b'?'; length];
        let expected = sheet_of(b"note", &claims[..count]);
        let written = unsafe {
            raw::ovenquill_sheet_write(b"note".as_ptr(), 4, claims.as_ptr(), count, out.as_mut_ptr(), length)
        };
        assert_eq!(written, returns, "{count} numbers to {length} bytes");
        let (front, rest) = out.split_at(written.max(0) as usize);
        assert!(front.is_empty() || front == expected, "{count} numbers to {length} bytes");
        assert!(rest.iter().all(|&byte| byte == b'?'), "{count} numbers to {length} bytes");
    }
    for (sheet, text) in [(&sheet[..], &text[..]), (&sheet[1..], b"17\n"), (&sheet_of(b"note", &[]), b"")] {
        for out_length in 0..=40 {
            let mut out = vec![b'?'; out_length];
            let written =
                unsafe { raw::ovenquill_sheet_report(sheet.as_ptr(), sheet.len(), out.as_mut_ptr(), out_length) };
            assert_eq!(written, if out_length < text.len() { -7 } else { text.len() as i64 }, "{out_length} bytes");
            let (front, rest) = out.split_at(written.max(0) as usize);
            assert!(front.is_empty() || front == text, "{out_length} bytes");
            assert!(rest.iter().all(|&byte| byte == b'?'), "{out_length} bytes");
        }
    }
}

/// What a clock may say that was heard: nothing yet is 0, and anything else is something.
const HEARD: [i64; 6] = [0, 1, -1, 2, i64::MIN, i64::MAX];

/// Any number, but mostly a position in the range.
fn some_clock_position(random: &mut Random) -> i64 {
    let inside = random.within(0, LAST_CLOCK_POSITION);
    let any = some(random, 0, LAST_CLOCK_POSITION);
    let near_first = random.within(-2, HALF_WRAP);
    let near_last = random.within(LAST_CLOCK_POSITION - HALF_WRAP, LAST_CLOCK_POSITION + 2);
    let far_outside = random.choose(&[BEFORE, i64::MIN, i64::MAX]);
    random.choose(&[inside, inside, inside, any, any, near_first, near_last, far_outside])
}

/// The clock that two numbers are.
fn clock_of(numbers: raw::Clock) -> Clock {
    match numbers.heard {
        0 => Clock::Nothing,
        _ => Clock::At(numbers.position),
    }
}

#[test]
fn one_value_of_a_clock() {
    let mut random = Random::new(50);
    for heard in HEARD {
        let mut seen = [0; 2];
        for _ in 0..50_000 {
            let numbers = raw::Clock { heard, position: some_clock_position(&mut random) };
            let value = some(&mut random, 0, WRAP - 1);
            let (wanted, kind) = match plain::follow(&clock_of(numbers), value) {
                Value(position) => ((position.milliseconds, raw::Clock { heard: 1, position: position.ticks }), 0),
                refused => ((-refused_number(refused), numbers), 1),
            };
            let answered = lend(numbers, |clock| unsafe { raw::ovenquill_follow(clock, value) });
            assert_eq!(answered, wanted, "{numbers:?} and {value}");
            seen[kind] += 1;
        }
        assert!(seen.iter().all(|&times| times > 10_000), "heard {heard}, accepted and refused: {seen:?}");
    }
}

#[test]
fn a_list_of_values_of_a_clock() {
    let mut random = Random::new(51);
    for heard in HEARD {
        let mut seen = [0; 3];
        for _ in 0..30_000 {
            let numbers = raw::Clock { heard, position: some_clock_position(&mut random) };
            let length = random.within(0, 6) as usize;
            let mostly_refused = random.within(0, 3) == 0;
            let mut value = || match random.within(0, 7) {
                0 => some(&mut random, 0, WRAP - 1),
                _ if mostly_refused => random.choose(&[i64::MIN, -1, WRAP, i64::MAX]),
                _ => random.within(0, WRAP - 1),
            };
            // Those on either side would be followed or counted if they were read.
            let around: Vec<i64> = (0..length + 4).map(|_| value()).collect();
            let values = &around[2..2 + length];
            let (behind, passed_over) = plain::follow_all(&clock_of(numbers), values);
            let wanted = match behind {
                Clock::At(position) if passed_over < length => raw::Clock { heard: 1, position },
                _ => numbers,
            };
            let (among_others, alone) = (around.clone(), values.to_vec());
            for lent in [&among_others[2..2 + length], &alone] {
                let answered =
                    lend(numbers, |clock| unsafe { raw::ovenquill_follow_all(clock, lent.as_ptr(), lent.len()) });
                assert_eq!(answered, (passed_over as i64, wanted), "{numbers:?} and {values:?}");
            }
            assert_eq!((&among_others[..], &alone[..]), (&around[..], values), "a value changed");
            seen[if passed_over == length { 2 } else { usize::from(passed_over > 0) }] += 1;
        }
        assert!(seen.iter().all(|&times| times > 3_000), "heard {heard}, all, some and none accepted: {seen:?}");
    }
}

#[test]
fn writers() {
    for (number, length, instant_returns, week_returns, position_returns) in [
        (0, plain::LABEL_BYTES, plain::LABEL_BYTES as i64, WEEK_LABEL_BYTES as i64, 12),
        (0, 12, -7, WEEK_LABEL_BYTES as i64, 12),
        (0, 11, -7, WEEK_LABEL_BYTES as i64, -7),
        (0, WEEK_LABEL_BYTES, -7, WEEK_LABEL_BYTES as i64, -7),
        (0, WEEK_LABEL_BYTES - 1, -7, -7, -7),
        (-1, 11, -7, WEEK_LABEL_BYTES as i64, -6),
        (FIRST_DAY, WEEK_LABEL_BYTES, -7, -1, -6),
        (FIRST_DAY - 1, 0, -7, -4, -6),
        (FIRST_WEEK_LABEL_DAY - 1, 0, -7, -1, -6),
        (FIRST_WEEK_LABEL_DAY, WEEK_LABEL_BYTES, -7, WEEK_LABEL_BYTES as i64, -6),
        (LAST_WEEK_LABEL_DAY, WEEK_LABEL_BYTES, -7, WEEK_LABEL_BYTES as i64, -7),
        (LAST_WEEK_LABEL_DAY + 1, WEEK_LABEL_BYTES, -7, -1, -7),
        (LAST_DAY, 0, -7, -1, -7),
        (LAST_DAY + 1, 0, -7, -4, -7),
        (FIRST_INSTANT - 1, 0, -4, -4, -6),
        (FIRST_INSTANT, 0, -1, -4, -6),
        (FIRST_LABEL_INSTANT - 1, plain::LABEL_BYTES - 1, -1, -4, -6),
        (FIRST_LABEL_INSTANT, plain::LABEL_BYTES - 1, -7, -4, -6),
        (FIRST_LABEL_INSTANT, plain::LABEL_BYTES, plain::LABEL_BYTES as i64, -4, -6),
        (LAST_LABEL_INSTANT, plain::LABEL_BYTES, plain::LABEL_BYTES as i64, -4, -6),
        (LAST_LABEL_INSTANT + 1, plain::LABEL_BYTES, -1, -4, -6),
        (LAST_INSTANT, plain::LABEL_BYTES, -1, -4, -6),
        (i64::MAX, 40, -4, -4, -6),
        (i64::MIN, 0, -4, -4, -6),
    ] {
        for (writer, returns) in [
            (raw::ovenquill_write_instant as unsafe extern "C" fn(i64, *mut u8, usize) -> i64, instant_returns),
            (raw::ovenquill_write_week, week_returns),
            (raw::ovenquill_write_position, position_returns),
        ] {
            let mut out = vec![b'?'; length];
            assert_eq!(unsafe { writer(number, out.as_mut_ptr(), length) }, returns, "{number} in {length} bytes");
            // What is written has no question mark, and behind it nothing is written.
            let written = out.iter().take_while(|&&byte| byte != b'?').count();
            assert_eq!(written as i64, returns.max(0), "{number} in {length} bytes");
            assert!(out[written..].iter().all(|&byte| byte == b'?'), "{number} in {length} bytes");
        }
    }
}

#[test]
fn no_slice_at_all() {
    // As C may lend it: null, with the length 0.
    for (instant, returns) in [(0, -7), (FIRST_INSTANT, -1), (LAST_INSTANT, -1), (LAST_INSTANT + 1, -4)] {
        assert_eq!(unsafe { raw::ovenquill_write_instant(instant, ptr::null_mut(), 0) }, returns);
    }
    for (days, returns) in [(0, -7), (FIRST_DAY, -1), (LAST_DAY, -1), (LAST_DAY + 1, -4)] {
        assert_eq!(unsafe { raw::ovenquill_write_week(days, ptr::null_mut(), 0) }, returns);
    }
    assert_eq!(unsafe { raw::ovenquill_write_position(0, ptr::null_mut(), 0) }, -7);
    let read = lend(BEFORE, |instant| unsafe { raw::ovenquill_read_instant(ptr::null(), 0, instant) });
    assert_eq!(read, (-8, BEFORE));
    let read = lend(BEFORE, |days| unsafe { raw::ovenquill_read_week(ptr::null(), 0, days) });
    assert_eq!(read, (-8, BEFORE));
    assert_eq!(unsafe { raw::ovenquill_read_position(ptr::null(), 0) }, -13);
    let read = lend(CUE_BEFORE, |cue| unsafe { raw::ovenquill_read_cue(ptr::null(), 0, cue) });
    assert_eq!(read, (-13, CUE_BEFORE));
    let indexed = lend(BEFORE, |place| unsafe { raw::ovenquill_index_days(ptr::null(), 0, ptr::null_mut(), 0, place) });
    assert_eq!(indexed, (0, BEFORE));
    let mut days = [7; 1];
    let indexed =
        lend(BEFORE, |place| unsafe { raw::ovenquill_index_days(ptr::null(), 0, days.as_mut_ptr(), 1, place) });
    assert_eq!((indexed, days), ((-12, BEFORE), [7]));
    let read = lend(BEFORE, |note_length| unsafe { raw::ovenquill_sheet_read(ptr::null(), 0, note_length) });
    assert_eq!(read, (-17, BEFORE));
    let read = lend(RECORD_BEFORE, |record| unsafe { raw::ovenquill_sheet_record(ptr::null(), 0, 0, record) });
    assert_eq!(read, (-17, RECORD_BEFORE));
    let checked = lend(BEFORE, |least| unsafe { raw::ovenquill_sheet_check(ptr::null(), 0, 0, least) });
    assert_eq!(checked, (-17, BEFORE));
    let mut out = [b'?'; 13];
    let write =
        |out: *mut u8, length| unsafe { raw::ovenquill_sheet_write(ptr::null(), 0, ptr::null(), 0, out, length) };
    assert_eq!(write(ptr::null_mut(), 0), -7);
    assert_eq!(write(out.as_mut_ptr(), 13), 12);
    assert_eq!(&out, b"\0\0\0\0\0\0\0\0\x0c\0\0\0?");
    let empty = out;
    assert_eq!(unsafe { raw::ovenquill_sheet_report(empty.as_ptr(), 12, ptr::null_mut(), 0) }, 0);
    assert_eq!(unsafe { raw::ovenquill_sheet_report(empty.as_ptr(), 11, ptr::null_mut(), 0) }, -7);
    assert_eq!(unsafe { raw::ovenquill_sheet_report(ptr::null(), 0, ptr::null_mut(), 0) }, -7);
    assert_eq!(unsafe { raw::ovenquill_sheet_report(ptr::null(), 0, out.as_mut_ptr(), 13) }, 3);
    assert_eq!(&out, b"17\n\0\0\0\0\0\x0c\0\0\0?");
    for heard in HEARD {
        for position in [0, WRAP, LAST_CLOCK_POSITION, BEFORE] {
            let numbers = raw::Clock { heard, position };
            let followed = lend(numbers, |clock| unsafe { raw::ovenquill_follow_all(clock, ptr::null(), 0) });
            assert_eq!(followed, (0, numbers));
        }
    }
}
