//! The library against its rivals: one line for each pair, ours / rival, measured as benches/measure says.
//!
//! Ours are the shipped C calls. The rivals are plain Rust (benches/rivals) and, where OVENQUILL_CHRONO is set, libstdc++'s
//! chrono (benches/chrono.cpp), with the same signatures, answers and refusals. Where OVENQUILL_LENGTHS is set, a table of
//! its own compares the two ways to a month's length. `make bench` has every function of either side begin at a multiple of
//! 64 bytes, or of the 32 or 16 of its ALIGN, which in the shipped archive it does not: ours come from a copy.

mod measure;
#[path = "../tests/support/random.rs"]
#[allow(dead_code)]
mod random;
mod rivals;

use measure::call::{
    CueReader, Eight, EightTo, Follower, FourTo, GoingOn, Index, ListFollower, One, OneTo, PositionReader, Reader,
    Reporter, SevenTo, SheetReader, SheetWriter, Text, Three, ThreeTo, Two, Waiting, WaitingTo, WeekReader, Writer,
    MOST_BLANKS, MOST_NOTE,
};
use measure::{best_times, line, line_alone, percentile, shown, Inputs, PARTS, ROUNDS};
use ovenquill::sheet::{self, MAX_BYTES, MAX_RECORDS, RECORD_NUMBERS};
use ovenquill::{
    raw, Constants, Date, Fields, WeekDate, CLAIM_BOUNDS, CLOCK_POSITIONS, CLOCK_VALUES, DAYS, INSTANTS,
    INSTANT_LABEL_BYTES, POSITIONS, SEARCH_ENDS, WEEK_LABEL_BYTES, YEARS,
};
use random::Random;
use rivals::calendar::{BY_DIVISIONS, BY_SHIFTS};
#[cfg(chrono)]
use rivals::chrono;
use rivals::instants::{BY_BLOCKS, PLAIN, WITHOUT_EARLY_EXIT};
use rivals::labels::{BY_BYTES, BY_CENTURY, BY_WORDS};
#[cfg(lengths)]
use rivals::lengths;
use rivals::transport::{BY_COMPARES, BY_REMAINDER, BY_VALUE_BEFORE};
use rivals::{calendar, constants, instants, labels, sheets, transport, weeks};

/// The inputs of most lines.
const INPUTS: usize = 131072;
/// The inputs of the audit way, which takes longer.
const AUDITS: usize = INPUTS / 64;
/// The length of a long list.
const MILLION: usize = 1_000_000;
/// Every part of a line on a long list is the same list.
const LONG_PARTS: usize = 5;

fn main() {
    println!("{ROUNDS} rounds, ours and the rival in turn on each part of the inputs.");
    println!("Ratio: ours / the rival's, each the sum over the parts of a part's median over the rounds.");
    println!("Rounds: the ratios of single rounds, in which a part counts at most twice its median.");
    println!(
        "Best: the sum over the parts of a part's least time, for one call; a line without a rival has only that."
    );
    println!("The walk of the residues takes time linear in d, ours does not: its lines compare two algorithms.");
    heading();
    calendar_lines();
    week_lines();
    instant_lines();
    label_lines();
    timing_lines();
    index_lines();
    constants_lines();
    sheet_lines();
    transport_lines();
    println!();
    constants_times();
    #[cfg(lengths)]
    month_length_line();
}

/// Begins a table of lines.
fn heading() {
    println!();
    println!("| call | rival | ratio | rounds, least to largest | rounds, middle half | best of ours | of the rival |");
    println!("|---|---|---|---|---|---|---|");
}

#[cfg(chrono)]
const CHRONO: &str = "libstdc++ chrono";
const RUST: &str = "plain Rust";
const BY_HAND: &str = "hand-written Rust";
const STEPS: &str = "Rust, the library's steps";
const TABLE: &str = "Rust, table of two digits";
const DIGITS: &str = "Rust, digit by digit";

/// As many numbers from a range as a line has inputs.
fn numbers(random: &mut Random, range: std::ops::RangeInclusive<i64>) -> Vec<i64> {
    (0..INPUTS).map(|_| random.within(*range.start(), *range.end())).collect()
}

// The calendar

fn some_counts(random: &mut Random) -> Vec<[i64; 1]> {
    numbers(random, DAYS).into_iter().map(|days| [days]).collect()
}

fn dates_of(counts: &[[i64; 1]]) -> Vec<[i64; 3]> {
    let date_of = |&[days]: &[i64; 1]| {
        let Date { year, month, day } = ovenquill::civil_from_days(days).expect("a count in the range");
        [year, month, day]
    };
    counts.iter().map(date_of).collect()
}

fn months_of(dates: &[[i64; 3]]) -> Vec<[i64; 2]> {
    dates.iter().map(|&[year, month, _]| [year, month]).collect()
}

/// From each date to another one of the range.
fn shifts_of(random: &mut Random, counts: &[[i64; 1]], dates: &[[i64; 3]]) -> Vec<[i64; 4]> {
    counts
        .iter()
        .zip(dates)
        .map(|(&[days], &[year, month, day])| [year, month, day, random.within(*DAYS.start(), *DAYS.end()) - days])
        .collect()
}

fn calendar_lines() {
    let mut random = Random::new(101);
    let counts = some_counts(&mut random);
    let dates = dates_of(&counts);
    // One in eight is refused, at random.
    let past_the_range = DAYS.end() - DAYS.start() + 1;
    let past_the_years = YEARS.end() - YEARS.start() + 1;
    let mixed_counts: Vec<[i64; 1]> = counts
        .iter()
        .map(|&[days]| match random.within(0, 7) {
            0 => [random.choose(&[days - past_the_range, days + past_the_range])],
            _ => [days],
        })
        .collect();
    let mixed_dates: Vec<[i64; 3]> = dates
        .iter()
        .map(|&[year, month, day]| match random.within(0, 23) {
            0 => [year + past_the_years, month, day],
            1 => [year, month + 12, day],
            2 => [year, month, day + 31],
            _ => [year, month, day],
        })
        .collect();
    let shifts = shifts_of(&mut random, &counts, &dates);
    let years: Vec<[i64; 1]> = dates.iter().map(|&[year, ..]| [year]).collect();
    let months = months_of(&dates);

    let ways_to_a_date: &[(&str, OneTo<Date>)] = &[
        ("algorithm 3 in Rust, u32", calendar::civil_from_days_u32),
        ("algorithm 3 in Rust, u64", calendar::civil_from_days_u64),
        ("algorithm 5 in Rust, multiply and shift", calendar::civil_from_days_by_shifts),
        #[cfg(chrono)]
        (CHRONO, chrono::chrono_civil_from_days),
    ];
    for (what, inputs) in [("days to date", &counts), ("days to date, 1 in 8 refused", &mixed_counts)] {
        line::<OneTo<Date>>(what, &Inputs::of(inputs), raw::ovenquill_civil_from_days, ways_to_a_date);
    }
    let waiting: Vec<(&str, WaitingTo<Date>)> =
        ways_to_a_date.iter().map(|&(name, way)| (name, WaitingTo(way))).collect();
    line(
        "days to date, each call waiting for the one before",
        &Inputs::of(&counts),
        WaitingTo(raw::ovenquill_civil_from_days),
        &waiting,
    );
    let by_divisions = &ways_to_a_date[..2];
    line::<OneTo<Date>>(
        "days to date, the plain way",
        &Inputs::of(&counts),
        raw::ovenquill_civil_from_days_plain,
        by_divisions,
    );
    line_alone::<OneTo<Date>>(
        "days to date, the audit way",
        &Inputs::of(&counts[..AUDITS]),
        raw::ovenquill_civil_from_days_audit,
    );
    for (what, inputs) in [("date to days", &dates), ("date to days, 1 in 8 refused", &mixed_dates)] {
        line::<ThreeTo<i64>>(
            what,
            &Inputs::of(inputs),
            raw::ovenquill_days_from_civil,
            &[
                ("algorithm 4 in Rust", calendar::days_from_civil::<BY_DIVISIONS>),
                ("algorithm 6 in Rust, multiply and shift", calendar::days_from_civil::<BY_SHIFTS>),
                #[cfg(chrono)]
                (CHRONO, chrono::chrono_days_from_civil),
            ],
        );
    }
    line::<FourTo<Date>>(
        "shift a date",
        &Inputs::of(&shifts),
        raw::ovenquill_add_days,
        &[
            ("algorithms 6 and 5 in Rust", calendar::add_days),
            #[cfg(chrono)]
            (CHRONO, chrono::chrono_add_days),
        ],
    );
    line::<One>(
        "weekday",
        &Inputs::of(&counts),
        raw::ovenquill_weekday,
        &[
            (RUST, calendar::weekday),
            (STEPS, calendar::weekday_by_product),
            #[cfg(chrono)]
            (CHRONO, chrono::chrono_weekday),
        ],
    );
    line(
        "weekday, each call waiting for the one before",
        &Inputs::of(&counts),
        Waiting(raw::ovenquill_weekday),
        &[
            (RUST, Waiting(calendar::weekday)),
            (STEPS, Waiting(calendar::weekday_by_product)),
            #[cfg(chrono)]
            (CHRONO, Waiting(chrono::chrono_weekday)),
        ],
    );
    line::<One>(
        "leap year",
        &Inputs::of(&years),
        raw::ovenquill_is_leap,
        &[
            (RUST, calendar::is_leap),
            #[cfg(chrono)]
            (CHRONO, chrono::chrono_is_leap),
        ],
    );
    line::<Two>(
        "month length",
        &Inputs::of(&months),
        raw::ovenquill_last_day_of_month,
        &[
            (RUST, calendar::last_day_of_month),
            #[cfg(chrono)]
            (CHRONO, chrono::chrono_last_day_of_month),
        ],
    );
    line::<Three>(
        "day of the year",
        &Inputs::of(&dates),
        raw::ovenquill_day_of_year,
        &[
            (RUST, calendar::day_of_year),
            #[cfg(chrono)]
            (CHRONO, chrono::chrono_day_of_year),
        ],
    );
}

// Week dates and their labels

fn week_dates_of(counts: &[[i64; 1]]) -> Vec<[i64; 3]> {
    let date_of = |&[days]: &[i64; 1]| {
        let WeekDate { year, week, weekday } = ovenquill::week_from_days(days).expect("a count in the range");
        [year, week, weekday]
    };
    counts.iter().map(date_of).collect()
}

fn week_labels_of(counts: &[i64]) -> Vec<[u8; WEEK_LABEL_BYTES]> {
    let label_of = |&days: &i64| {
        let mut label = [0; WEEK_LABEL_BYTES];
        ovenquill::write_week(days, &mut label).expect("a count that has a label");
        label
    };
    counts.iter().map(label_of).collect()
}

fn week_lines() {
    let mut random = Random::new(110);
    let counts = some_counts(&mut random);
    line::<OneTo<WeekDate>>(
        "days to week date",
        &Inputs::of(&counts),
        raw::ovenquill_week_from_days,
        &[
            (RUST, weeks::week_from_days_by_divisions),
            (BY_HAND, weeks::week_from_days),
            #[cfg(chrono)]
            (CHRONO, chrono::chrono_week_from_days),
        ],
    );
    line::<ThreeTo<i64>>(
        "week date to days",
        &Inputs::of(&week_dates_of(&counts)),
        raw::ovenquill_days_from_week,
        &[
            (RUST, weeks::days_from_week_by_divisions),
            (BY_HAND, weeks::days_from_week),
            #[cfg(chrono)]
            (CHRONO, chrono::chrono_days_from_week),
        ],
    );
    let list = numbers(&mut random, weeks::LABEL_DAYS);
    line::<Writer>(
        "write a week label",
        &Inputs::of(&list),
        raw::ovenquill_write_week,
        &[(TABLE, weeks::write_week::<true>), (DIGITS, weeks::write_week::<false>)],
    );
    line(
        "read a week label",
        &Inputs::of(&week_labels_of(&list)),
        WeekReader(raw::ovenquill_read_week),
        &[("Rust, eight bytes at a time", WeekReader(weeks::read_week))],
    );
}

// Instants

fn fields_of(instants: &[[i64; 1]]) -> Vec<[i64; 7]> {
    let fields_of = |&[instant]: &[i64; 1]| {
        let f = ovenquill::split_instant(instant).expect("an instant in the range");
        [f.year, f.month, f.day, f.hour, f.minute, f.second, f.millisecond]
    };
    instants.iter().map(fields_of).collect()
}

fn instant_lines() {
    let mut random = Random::new(106);
    let list: Vec<[i64; 1]> = numbers(&mut random, INSTANTS).into_iter().map(|instant| [instant]).collect();
    let fields = fields_of(&list);
    line::<OneTo<i64>>(
        "day of an instant",
        &Inputs::of(&list),
        raw::ovenquill_day_of_instant,
        &[
            ("unsigned quotient in Rust", instants::day_of_instant),
            #[cfg(chrono)]
            (CHRONO, chrono::chrono_day_of_instant),
        ],
    );
    line::<OneTo<Fields>>(
        "split an instant",
        &Inputs::of(&list),
        raw::ovenquill_split_instant,
        &[
            (RUST, instants::split_instant),
            #[cfg(chrono)]
            (CHRONO, chrono::chrono_split_instant),
        ],
    );
    line::<SevenTo<i64>>(
        "join an instant",
        &Inputs::of(&fields),
        raw::ovenquill_join_instant,
        &[
            (RUST, instants::join_instant),
            #[cfg(chrono)]
            (CHRONO, chrono::chrono_join_instant),
        ],
    );
}

// Labels

/// The same texts, of which one in eight has a byte changed to `?` or to `9`. That leaves some of them right.
fn damaged<T: Clone + AsMut<[u8]>>(random: &mut Random, texts: &[T]) -> Vec<T> {
    let mut damaged = texts.to_vec();
    for text in &mut damaged {
        if random.within(0, 7) == 0 {
            let bytes = text.as_mut();
            let place = random.within(0, bytes.len() as i64 - 1) as usize;
            bytes[place] = random.choose(b"?9");
        }
    }
    damaged
}

fn labels_of(instants: &[i64]) -> Vec<[u8; INSTANT_LABEL_BYTES]> {
    let label_of = |&instant: &i64| {
        let mut label = [0; INSTANT_LABEL_BYTES];
        ovenquill::write_instant(instant, &mut label).expect("an instant that has a label");
        label
    };
    instants.iter().map(label_of).collect()
}

/// Each letter as often small as capital.
fn in_either_case(random: &mut Random, labels: Vec<[u8; INSTANT_LABEL_BYTES]>) -> Vec<[u8; INSTANT_LABEL_BYTES]> {
    let mut either = |byte: u8| random.choose(&[byte, byte.to_ascii_lowercase()]);
    labels.into_iter().map(|label| label.map(&mut either)).collect()
}

fn label_lines() {
    let mut random = Random::new(102);
    let list = numbers(&mut random, labels::LABEL_INSTANTS);
    let right = in_either_case(&mut random, labels_of(&list));
    let damaged = damaged(&mut random, &right);
    let short = numbers(&mut random, *POSITIONS.start()..=100 * labels::POSITION_HOUR - 1);
    let long: Vec<i64> = (0..INPUTS).map(|_| random.of_any_size(*POSITIONS.start(), *POSITIONS.end())).collect();

    line::<Writer>(
        "write an instant label",
        &Inputs::of(&list),
        raw::ovenquill_write_instant,
        &[(TABLE, labels::write_instant::<true>), (DIGITS, labels::write_instant::<false>)],
    );
    for (what, inputs) in
        [("write a position label, below 100 hours", &short), ("write a position label, of any size", &long)]
    {
        line::<Writer>(
            what,
            &Inputs::of(inputs),
            raw::ovenquill_write_position,
            &[(TABLE, labels::write_position::<true>), (DIGITS, labels::write_position::<false>)],
        );
    }
    for (what, inputs) in [("read an instant label", &right), ("read a label, 1 in 8 damaged", &damaged)] {
        line::<Reader>(
            what,
            &Inputs::of(inputs),
            raw::ovenquill_read_instant,
            &[
                (BY_HAND, labels::read_instant::<BY_BYTES>),
                ("Rust, eight bytes at a time", labels::read_instant::<BY_WORDS>),
                (STEPS, labels::read_instant::<BY_CENTURY>),
            ],
        );
    }
}

// Timestamps and cue lines

/// How many digits the hours of a timestamp have, 0 where it has none.
type HourDigits = u32;

/// As often none as two as more.
fn some_digits(random: &mut Random) -> HourDigits {
    random.choose(&[0, 0, 0, 2, 2, 2, 3, 4, 5])
}

/// A position whose hours have that many digits.
fn some_position(random: &mut Random, digits: HourDigits) -> i64 {
    let hours = match digits {
        0 => 0,
        2 => random.within(0, 99),
        _ => random.within(10i64.pow(digits - 1), 10i64.pow(digits) - 1),
    };
    hours * labels::POSITION_HOUR + random.within(0, labels::POSITION_HOUR - 1)
}

fn timestamp(position: i64, digits: HourDigits) -> String {
    let label = ovenquill::position_label(position).expect("a position in the range");
    let without_hours = if digits == 0 { "00:".len() } else { 0 };
    label.as_str()[without_hours..].to_string()
}

/// A line of two positions whose hours have that many digits, and so many blanks on either side of the arrow at most.
fn some_line(random: &mut Random, digits: [HourDigits; 2], most_blanks: usize) -> String {
    let mut positions = digits.map(|digits| (some_position(random, digits), digits));
    positions.sort();
    let [start, end] = positions.map(|(position, digits)| timestamp(position, digits));
    let mut blanks = || -> String {
        let count = random.within(1, most_blanks as i64);
        (0..count).map(|_| if most_blanks == 1 { ' ' } else { random.choose(&[' ', '\t']) }).collect()
    };
    format!("{start}{}-->{}{end}", blanks(), blanks())
}

/// As many texts as a line has inputs.
fn texts<const MOST: usize>(mut text: impl FnMut() -> String) -> Vec<Text<MOST>> {
    (0..INPUTS).map(|_| Text::of(text().as_bytes())).collect()
}

/// Either of two, as often.
fn either<const MOST: usize>(random: &mut Random, a: &[Text<MOST>], b: &[Text<MOST>]) -> Vec<Text<MOST>> {
    a.iter().zip(b).map(|(&a, &b)| random.choose(&[a, b])).collect()
}

fn timing_lines() {
    let random = &mut Random::new(107);
    let joined = "Rust, tests joined";
    let without_hours = texts(|| timestamp(some_position(random, 0), 0));
    let with_hours = texts(|| timestamp(some_position(random, 2), 2));
    let both = either(random, &with_hours, &without_hours);
    let damaged_texts = damaged(random, &with_hours);
    let of_any_size = texts(|| timestamp(random.of_any_size(*POSITIONS.start(), *POSITIONS.end()), 2));
    let of_any_form = texts(|| {
        let digits = some_digits(random);
        timestamp(some_position(random, digits), digits)
    });
    for (what, inputs) in [
        ("read a position, HH:MM:SS.mmm", &with_hours),
        ("read a position, MM:SS.mmm", &without_hours),
        ("read a position, either", &both),
        ("read a position, 1 in 8 damaged", &damaged_texts),
        ("read a position, of any size", &of_any_size),
        ("read a position, of any form", &of_any_form),
    ] {
        line::<PositionReader>(
            what,
            &Inputs::of(inputs),
            raw::ovenquill_read_position,
            &[(BY_HAND, labels::read_position::<false>), (joined, labels::read_position::<true>)],
        );
    }

    let with_hours = texts(|| some_line(random, [2; 2], 1));
    let without_hours = texts(|| some_line(random, [0; 2], 1));
    let both = either(random, &with_hours, &without_hours);
    let damaged_lines = damaged(random, &with_hours);
    let of_any_form = texts(|| {
        let digits = [some_digits(random), some_digits(random)];
        some_line(random, digits, MOST_BLANKS)
    });
    for (what, inputs) in [
        ("read a cue line, with hours", &with_hours),
        ("read a cue line, without hours", &without_hours),
        ("read a cue line, either", &both),
        ("read a cue line, 1 in 8 damaged", &damaged_lines),
        ("read a cue line, any hours and blanks", &of_any_form),
    ] {
        line::<CueReader>(
            what,
            &Inputs::of(inputs),
            raw::ovenquill_read_cue,
            &[(BY_HAND, labels::read_cue::<false>), (joined, labels::read_cue::<true>)],
        );
    }
}

// The recording index

/// Instants of the whole range, in order.
fn of_any_days(random: &mut Random, length: usize) -> Vec<i64> {
    let mut list: Vec<i64> = (0..length).map(|_| random.within(*INSTANTS.start(), *INSTANTS.end())).collect();
    list.sort_unstable();
    list
}

/// Instants each of which follows the one before it after at most so long.
fn apart(random: &mut Random, length: usize, most: i64) -> Vec<i64> {
    let mut instant = random.within(*INSTANTS.start(), 0);
    let next = |_| {
        instant += random.within(0, most);
        instant
    };
    (0..length).map(next).collect()
}

fn index_lines() {
    let random = &mut Random::new(103);
    for (what, most_apart) in [
        ("of any days", None),
        ("two hours apart at most", Some(2 * instants::HOUR)),
        ("a minute apart at most", Some(instants::MINUTE)),
    ] {
        let mut list = |length| match most_apart {
            None => of_any_days(random, length),
            Some(most) => apart(random, length, most),
        };
        let long = vec![list(MILLION); LONG_PARTS];
        let short: Vec<Vec<i64>> = (0..INPUTS / 1024).map(|_| list(1024)).collect();
        for (list, parts) in [(long, LONG_PARTS), (short, PARTS)] {
            let length = list[0].len();
            line::<Index>(
                &format!("index of {length} instants {what}, for each"),
                &Inputs { list: &list, parts, units: length },
                raw::ovenquill_index_days,
                &[
                    ("plain Rust", instants::index_days::<PLAIN>),
                    ("Rust without an early exit", instants::index_days::<WITHOUT_EARLY_EXIT>),
                    ("Rust by blocks, unsigned quotient", instants::index_days::<BY_BLOCKS>),
                ],
            );
        }
    }
}

// The transport clock

/// The ticks of a frame, where 30 frames take 1.001 seconds.
const FRAME: i64 = 3003;

/// Values a frame apart, of which one in so many is refused, at random.
fn frames(random: &mut Random, start: i64, one_refused_in: i64) -> Vec<i64> {
    let wrap = CLOCK_VALUES.end() + 1;
    let value = |frame| match ((start + frame * FRAME) % wrap, random.within(1, one_refused_in)) {
        (value, 1) => random.choose(&[value - wrap, value + wrap]),
        (value, _) => value,
    };
    (1..=MILLION as i64).map(value).collect()
}

fn transport_lines() {
    let random = &mut Random::new(109);
    // In the middle of the range, where no step leads out of it; the clock wraps at half the frames.
    let start = raw::Clock { heard: 1, position: CLOCK_POSITIONS.end() / 2 - MILLION as i64 / 2 * FRAME };
    let any_steps = (0..MILLION).map(|_| random.within(*CLOCK_VALUES.start(), *CLOCK_VALUES.end())).collect();
    for (what, values) in [
        ("a frame apart, 1 in 1000 refused", frames(random, start.position, 1000)),
        ("a frame apart, 1 in 8 refused", frames(random, start.position, 8)),
        ("any steps", any_steps),
    ] {
        line::<ListFollower>(
            &format!("follow {MILLION} clock values, {what}, for each value"),
            &Inputs { list: &vec![(start, values); LONG_PARTS], parts: LONG_PARTS, units: MILLION },
            raw::ovenquill_follow_all,
            &[
                (RUST, transport::follow_all::<BY_REMAINDER>),
                (BY_HAND, transport::follow_all::<BY_COMPARES>),
                (STEPS, transport::follow_all::<BY_VALUE_BEFORE>),
            ],
        );
    }
    let going_on: Vec<(raw::Clock, i64)> =
        frames(random, start.position, 1000).into_iter().take(INPUTS).map(|value| (start, value)).collect();
    line::<GoingOn>(
        "follow a clock value, each call going on from the one before, a frame apart, 1 in 1000 refused",
        &Inputs::of(&going_on),
        GoingOn(raw::ovenquill_follow),
        &[
            (RUST, GoingOn(transport::follow::<BY_REMAINDER>)),
            (BY_HAND, GoingOn(transport::follow::<BY_COMPARES>)),
            (STEPS, GoingOn(transport::follow::<BY_VALUE_BEFORE>)),
        ],
    );
    let positions = numbers(random, CLOCK_POSITIONS);
    let values = numbers(random, CLOCK_VALUES);
    let one_value: Vec<(raw::Clock, i64)> =
        positions.iter().zip(values).map(|(&position, value)| (raw::Clock { heard: 1, position }, value)).collect();
    line::<Follower>(
        "follow a clock value, from any position",
        &Inputs::of(&one_value),
        raw::ovenquill_follow,
        &[
            (RUST, transport::follow::<BY_REMAINDER>),
            (BY_HAND, transport::follow::<BY_COMPARES>),
            (STEPS, transport::follow::<BY_VALUE_BEFORE>),
        ],
    );
}

// The two ways to a month's length

/// The call that asks for a month's length, by bits and by the match.
#[cfg(lengths)]
fn month_length_line() {
    let random = &mut Random::new(108);
    let dates = dates_of(&some_counts(random));
    heading();
    line::<Two>(
        "month length, by bits",
        &Inputs::of(&months_of(&dates)),
        lengths::by_bits_ovenquill_last_day_of_month,
        &[("by the match", lengths::by_match_ovenquill_last_day_of_month)],
    );
}

// Constants that stand for a division

/// The numbers of a call: constants, and the search end or claimed bound.
type Set = [i64; 8];

const LEAST: Constants = Constants::LEAST;
const LARGEST: Constants = Constants::LARGEST;
const LAST_END: i64 = *SEARCH_ENDS.end();

fn set(q: Constants, end: i64) -> Set {
    [q.a, q.b, q.d, q.m, q.c, q.k, q.t, end]
}

/// The exact fraction's multiplier: often a small one.
fn some_a(random: &mut Random) -> i64 {
    let any = random.within(LEAST.a, LARGEST.a);
    random.choose(&[1, 1, 4, 5, any])
}

/// The largest shift for which the largest of these numerators, divided by d, is below the largest multiplier.
fn shift_for(numerator: i64, d: i64) -> i64 {
    let fits = |&k: &i64| (numerator << k) / d < LARGEST.m;
    (LEAST.k..=LARGEST.k).rev().find(fits).unwrap_or(LEAST.k)
}

/// A divisor up to `d_last` and the nearest multiplier that fits, rounded up or down. In two of three sets the offset c is
/// fitted to b, which is 0 in half of them; in the third it is 0.
fn near_exact(random: &mut Random, d_last: i64) -> Constants {
    let d = random.within(LEAST.d, d_last);
    let a = some_a(random);
    let k = shift_for(a, d);
    let m = (a << k) / d + random.within(0, 1);
    let b = random.within(0, 1) * random.within(LEAST.b, LARGEST.b);
    let c = random.choose(&[0, (b << k) / d, ((b << k) + (1 << k) - 1) / d]).min(LARGEST.c);
    Constants { a, b, d, m, c, k, t: random.choose(&[0, 0, 1, LARGEST.t]) }
}

/// The same with b from 1 and, in every set, the nearest offset too, rounded down or up, or as far up as leaves the quotient
/// at 0 right. The shift is one that both fit.
fn near_exact_with_fitted_offset(random: &mut Random, d_last: i64) -> Constants {
    let d = random.within(LEAST.d, d_last);
    let (a, b) = (some_a(random), random.within(1, LARGEST.b));
    let k = shift_for(a.max(b + 1), d);
    let m = (a << k) / d + random.within(0, 1);
    let c = random.choose(&[(b << k) / d, (b << k) / d + 1, ((b << k) + (1 << k) - 1) / d]);
    Constants { a, b, d, m, c, k, t: random.choose(&[0, 0, 1, LARGEST.t]) }
}

fn any_allowed(random: &mut Random) -> Constants {
    Constants {
        a: random.within(LEAST.a, LARGEST.a),
        b: random.within(LEAST.b, LARGEST.b),
        d: random.within(LEAST.d, LARGEST.d),
        m: random.of_any_size(LEAST.m, LARGEST.m),
        c: random.of_any_size(LEAST.c, LARGEST.c),
        k: random.within(LEAST.k, LARGEST.k),
        t: random.within(LEAST.t, LARGEST.t),
    }
}

/// Every combination of the constants' limits.
fn corners() -> Vec<Constants> {
    let side = |corner: usize, place: usize, least, largest| if corner >> place & 1 == 0 { least } else { largest };
    (0..1 << 7)
        .map(|corner| Constants {
            a: side(corner, 0, LEAST.a, LARGEST.a),
            b: side(corner, 1, LEAST.b, LARGEST.b),
            d: side(corner, 2, LEAST.d, LARGEST.d),
            m: side(corner, 3, LEAST.m, LARGEST.m),
            c: side(corner, 4, LEAST.c, LARGEST.c),
            k: side(corner, 5, LEAST.k, LARGEST.k),
            t: side(corner, 6, LEAST.t, LARGEST.t),
        })
        .collect()
}

/// Searches to the last end.
fn searches_of(constants: &[Constants]) -> Vec<Set> {
    constants.iter().map(|&q| set(q, LAST_END)).collect()
}

/// Right claims where there is a difference, and else a bound with none at or below it.
fn claims_of(constants: &[Constants]) -> Vec<Set> {
    let least = |q| ovenquill::first_difference(q, LAST_END).expect("allowed constants");
    constants.iter().map(|&q| set(q, least(q).unwrap_or(*CLAIM_BOUNDS.end()))).collect()
}

/// The walk takes up to milliseconds, so the lines with large divisors have fewer sets.
fn constants_lines() {
    const WALK: &str = "walk of the residues in Rust";
    let mut random = Random::new(104);
    for (d_last, count) in [(16, INPUTS), (256, INPUTS), (4096, 4096), (LARGEST.d, 64)] {
        let sets: Vec<Constants> = (0..count).map(|_| near_exact(&mut random, d_last)).collect();
        line::<Eight>(
            &format!("search, d up to {d_last}"),
            &Inputs::of(&searches_of(&sets)),
            raw::ovenquill_first_difference,
            &[(WALK, constants::first_difference)],
        );
        line::<EightTo<i64>>(
            &format!("claim, d up to {d_last}"),
            &Inputs::of(&claims_of(&sets)),
            raw::ovenquill_check_bound,
            &[(WALK, constants::check_bound)],
        );
    }
    let any: Vec<Constants> = (0..256).map(|_| any_allowed(&mut random)).collect();
    line::<Eight>(
        "search, any allowed constants",
        &Inputs::of(&searches_of(&any)),
        raw::ovenquill_first_difference,
        &[(WALK, constants::first_difference)],
    );
}

// Sheets

/// A note of any length up to the most.
fn some_note(random: &mut Random, most: usize) -> Vec<u8> {
    let length = random.within(0, most as i64);
    (0..length).map(|_| random.next() as u8).collect()
}

fn any_numbers(random: &mut Random, records: usize) -> Vec<u32> {
    (0..records * RECORD_NUMBERS).map(|_| random.next() as u32).collect()
}

/// Claims of any allowed constants and of the nearest multipliers, as often right as with another bound, and one in eight with a
/// number outside its limits.
fn some_claims(random: &mut Random, records: usize) -> Vec<u32> {
    let mut claim = |_| {
        let q = if random.within(0, 1) == 0 { any_allowed(random) } else { near_exact(random, LARGEST.d) };
        let right = claims_of(&[q])[0];
        let mut numbers = right.map(|number| number as u32);
        if random.within(0, 1) == 0 {
            numbers[7] = random.of_any_size(*CLAIM_BOUNDS.start(), *CLAIM_BOUNDS.end()) as u32;
        }
        if random.within(0, 7) == 0 {
            numbers[5] += LARGEST.k as u32 + 1;
        }
        numbers
    };
    (0..records).flat_map(&mut claim).collect()
}

fn sheet_of(note: &[u8], numbers: &[u32]) -> Vec<u8> {
    let mut sheet = vec![0; MAX_BYTES];
    let length = sheet::write(note, numbers, &mut sheet).expect("a note and records that make a sheet");
    sheet.truncate(length);
    sheet
}

fn sheet_lines() {
    let random = &mut Random::new(111);
    for (records, count, most_note) in
        [(MAX_RECORDS, INPUTS / MAX_RECORDS, MOST_NOTE), (2, INPUTS / 8, MOST_NOTE), (2, INPUTS / 8, 0)]
    {
        let parts: Vec<(Vec<u8>, Vec<u32>)> =
            (0..count).map(|_| (some_note(random, most_note), any_numbers(random, records))).collect();
        let sheets: Vec<Vec<u8>> = parts.iter().map(|(note, numbers)| sheet_of(note, numbers)).collect();
        let what = match most_note {
            0 => format!("{records} records, no note"),
            _ => format!("{records} records, a note of 0 to {most_note} bytes"),
        };
        line::<SheetWriter>(
            &format!("sheet written, {what}"),
            &Inputs::of(&parts),
            raw::ovenquill_sheet_write,
            &[(BY_HAND, sheets::write)],
        );
        line(
            &format!("sheet read, {what}"),
            &Inputs::of(&sheets),
            SheetReader::ByPlaces(raw::ovenquill_sheet_read, raw::ovenquill_sheet_record),
            &[
                (BY_HAND, SheetReader::ByPlaces(sheets::read, sheets::record)),
                ("Rust, all records by one call", SheetReader::AtOnce(sheets::all_records)),
            ],
        );
    }
    for (what, numbers) in
        [("random claims", some_claims as fn(&mut Random, usize) -> Vec<u32>), ("records of any numbers", any_numbers)]
    {
        let sheets: Vec<Vec<u8>> =
            (0..PARTS).map(|_| sheet_of(&some_note(random, MOST_NOTE), &numbers(random, MAX_RECORDS))).collect();
        line::<Reporter>(
            &format!("report of {MAX_RECORDS} {what}"),
            &Inputs::of(&sheets),
            raw::ovenquill_sheet_report,
            &[("Rust, with our verdicts", sheets::report)],
        );
    }
}

/// Prints the mean and the worst time of a search to the last end, and of a claim of what it found.
fn constants_times() {
    const SETS: usize = 100_000;
    let mut random = Random::new(105);
    let nearest = format!("nearest multipliers, d up to {}", LARGEST.d);
    let kinds: [(&str, Vec<Constants>); 4] = [
        ("random constants", (0..SETS).map(|_| any_allowed(&mut random)).collect()),
        (&nearest, (0..SETS).map(|_| near_exact(&mut random, LARGEST.d)).collect()),
        (
            "the same, c always fitted to b",
            (0..SETS).map(|_| near_exact_with_fitted_offset(&mut random, LARGEST.d)).collect(),
        ),
        ("all corners of the limits", corners()),
    ];
    println!("| constants, to the last end | sets | search, mean | search, worst | claim, mean | claim, worst |");
    println!("|---|---|---|---|---|---|");
    for (kind, sets) in kinds {
        let search = best_times::<Eight>(raw::ovenquill_first_difference, &searches_of(&sets));
        let claim = best_times::<EightTo<i64>>(raw::ovenquill_check_bound, &claims_of(&sets));
        let mean = |times: &[f64]| shown(times.iter().sum::<f64>() / times.len() as f64);
        println!(
            "| {kind} | {} | {} | {} | {} | {} |",
            sets.len(),
            mean(&search),
            shown(percentile(&search, 100)),
            mean(&claim),
            shown(percentile(&claim, 100))
        );
    }
}
