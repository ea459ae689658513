//! Indexes a recording: the label, the day, the date and the weekday of the instant that each of its parts starts at. Instants of
//! years that four digits do not tell have a day, a date and a weekday, but no label.
//!
//!     index_recording              a recording that is built in, the same with a bad instant in it, and with two swapped
//!     index_recording - < FILE     instants in milliseconds from 1970-01-01 00:00, one to a line; empty lines are passed over
//!
//! The exit status is 1, with a message on standard error, where a line is no instant, where the index is refused and where
//! not everything could be read or written; it is 2 with any other arguments.

use ovenquill::{civil_from_days, index_days, instant_label, weekday, Refusal, INSTANTS, INSTANT_LABEL_BYTES};
use std::error::Error;
use std::ffi::OsString;
use std::io::{self, BufRead, Write};
use std::process::ExitCode;

/// A scene that is set in the year -8000, and a camera that was first switched on in 1969, and then ran over a new year and a leap
/// day.
const RECORDING: [i64; 7] =
    [-314622835200000, -1, 1683729000000, 1704067199999, 1704067200000, 1704153599999, 1709208000000];

/// What a day is before the index writes it.
const NO_DAY: i32 = i32::MIN;

/// The label of an instant in the range, or that its year has none.
fn label_or_none(instant: i64) -> Result<String, Refusal> {
    match instant_label(instant) {
        Ok(label) => Ok(label.to_string()),
        Err(Refusal::YearOutOfRange) => Ok("no label for this year".into()),
        Err(refusal) => Err(refusal),
    }
}

/// Writes a line for each part.
fn show(instants: &[i64], days: &[i32], out: &mut impl Write) -> Result<(), Box<dyn Error>> {
    writeln!(out, "{} parts", days.len())?;
    for (&instant, &day) in instants.iter().zip(days) {
        let day = i64::from(day);
        let (label, date, weekday) = (label_or_none(instant)?, civil_from_days(day)?, weekday(day)?);
        writeln!(out, "{label:INSTANT_LABEL_BYTES$}  day {day:>9}  {date:>12}  {weekday}")?;
    }
    Ok(())
}

/// The instant at the place of a refusal; one that is out of order with the one that it follows.
fn refused_instant(refusal: Refusal, instants: &[i64], place: usize) -> String {
    match refusal {
        Refusal::OutOfOrder => format!("{} after {}", instants[place], instants[place - 1]),
        _ => instants[place].to_string(),
    }
}

/// Shows what the index answers about a recording that it refuses.
fn show_refused(instants: &[i64], out: &mut impl Write) -> Result<(), Box<dyn Error>> {
    let mut days = vec![NO_DAY; instants.len()];
    if let Err(error) = index_days(instants, &mut days) {
        writeln!(out, "\nrefused ({}): {error}", error.refusal.number())?;
        if let Some(place) = error.place {
            let instant = refused_instant(error.refusal, instants, place);
            let written = days.iter().filter(|&&day| day != NO_DAY).count();
            writeln!(out, "the refused instant is {instant}; {written} days were written")?;
        }
    }
    Ok(())
}

/// Shows the recording that is built in, and what the index answers where one of its instants is bad and where two are swapped.
fn show_built_in(out: &mut impl Write) -> Result<(), Box<dyn Error>> {
    let mut days = [NO_DAY; RECORDING.len()];
    index_days(&RECORDING, &mut days)?;
    show(&RECORDING, &days, out)?;

    let mut with_a_bad_one = RECORDING;
    with_a_bad_one[4] = INSTANTS.end() + 1;
    show_refused(&with_a_bad_one, out)?;

    let mut with_two_swapped = RECORDING;
    with_two_swapped.swap(4, 5);
    show_refused(&with_two_swapped, out)
}

/// Shows the recording whose instants are the lines of the input.
fn show_lines(input: impl BufRead, out: &mut impl Write) -> Result<(), Box<dyn Error>> {
    let (mut instants, mut numbers) = (Vec::new(), Vec::new());
    for (number, line) in (1..).zip(input.lines()) {
        let line = line.map_err(|error| format!("line {number}: {error}"))?;
        let text = line.trim();
        if text.is_empty() {
            continue;
        }
        let instant: i64 = text.parse().map_err(|_| {
            let text = text.escape_debug();
            format!("line {number}: \"{text}\" is no whole number of milliseconds that fits 64 bits")
        })?;
        instants.push(instant);
        numbers.push(number);
    }
    let mut days = vec![NO_DAY; instants.len()];
    index_days(&instants, &mut days).map_err(|error| match error.place {
        Some(place) => format!(
            "line {}: {} refused ({}): {}",
            numbers[place],
            refused_instant(error.refusal, &instants, place),
            error.refusal.number(),
            error.refusal
        ),
        None => format!("refused ({}): {error}", error.refusal.number()),
    })?;
    show(&instants, &days, out)
}

/// Does what the arguments ask for, and answers the exit status.
pub fn run(arguments: &[OsString], input: impl BufRead, out: &mut impl Write, messages: &mut impl Write) -> u8 {
    let shown = match arguments {
        [] => show_built_in(out),
        [dash] if dash == "-" => show_lines(input, out),
        _ => {
            // A message that cannot be written is not worth another.
            let _ = writeln!(messages, "usage: index_recording, or index_recording - < FILE");
            return 2;
        }
    };
    match shown.and_then(|()| Ok(out.flush()?)) {
        Ok(()) => 0,
        Err(error) => {
            let _ = writeln!(messages, "index_recording: {error}");
            1
        }
    }
}

fn main() -> ExitCode {
    let arguments: Vec<OsString> = std::env::args_os().skip(1).collect();
    run(&arguments, io::stdin().lock(), &mut io::stdout().lock(), &mut io::stderr().lock()).into()
}
