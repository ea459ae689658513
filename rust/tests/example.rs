//! The example that indexes a recording: what it prints, its messages and its exit status; tests/rust/run tries its main.

#[path = "../examples/index_recording.rs"]
#[allow(dead_code)] // its main
mod index_recording;

use ovenquill::{Refusal, INSTANTS};
use std::io::{self, Write};

/// The output, the messages and the exit status with these arguments and that input.
fn run(arguments: &[&str], input: &[u8]) -> (String, String, u8) {
    let arguments: Vec<_> = arguments.iter().map(Into::into).collect();
    let (mut out, mut messages) = (Vec::new(), Vec::new());
    let status = index_recording::run(&arguments, input, &mut out, &mut messages);
    (String::from_utf8(out).unwrap(), String::from_utf8(messages).unwrap(), status)
}

#[test]
fn the_recording_that_is_built_in() {
    let expected = include_str!("../examples/index_recording.out");
    assert_eq!(run(&[], b"abc\n"), (expected.into(), String::new(), 0));
}

#[test]
fn lines() {
    let expected = "2 parts\n\
        1969-12-31T23:59:59.999Z  day        -1    1969-12-31  Wednesday\n\
        2023-05-10T14:30:00.000Z  day     19487    2023-05-10  Wednesday\n";
    for input in ["-1\n1683729000000\n", "\n-1\r\n\n \t\n 1683729000000 ", "-1\n1683729000000\n\n"] {
        assert_eq!(run(&["-"], input.as_bytes()), (expected.into(), String::new(), 0), "{input:?}");
    }
    assert_eq!(run(&["-"], b"\n"), ("0 parts\n".into(), String::new(), 0));
}

#[test]
fn instants_whose_years_have_no_label() {
    let expected = "6 parts\n\
        no label for this year    day -12407288  -32000-01-01  Saturday\n\
        no label for this year    day   -719529   -0001-12-31  Friday\n\
        0000-01-01T00:00:00.000Z  day   -719528    0000-01-01  Saturday\n\
        9999-12-31T23:59:59.999Z  day   2932896    9999-12-31  Friday\n\
        no label for this year    day   2932897   10000-01-01  Saturday\n\
        no label for this year    day  10968231   31999-12-31  Friday\n";
    let instants =
        [*INSTANTS.start(), -62167219200001, -62167219200000, 253402300799999, 253402300800000, *INSTANTS.end()];
    let input = instants.map(|instant| format!("{instant}\n")).concat();
    assert_eq!(run(&["-"], input.as_bytes()), (expected.into(), String::new(), 0));
}

#[test]
fn bad_lines_and_refused_instants() {
    let no_number = |line: u32, text: &str| {
        format!("index_recording: line {line}: \"{text}\" is no whole number of milliseconds that fits 64 bits\n")
    };
    for (input, line, text) in [
        ("abc\n", 1, "abc"),
        ("0\n\n1.5\n", 3, "1.5"),
        ("9223372036854775808", 1, "9223372036854775808"),
        ("0\n1\0\n", 2, "1\\0"),
    ] {
        assert_eq!(run(&["-"], input.as_bytes()), (String::new(), no_number(line, text), 1), "{input:?}");
    }

    let bad = INSTANTS.end() + 1;
    let refused = format!("index_recording: line 3: {bad} refused (4): {}\n", Refusal::OutOfRange);
    assert_eq!(run(&["-"], format!("0\n\n{bad}\n{bad}\n").as_bytes()), (String::new(), refused, 1));
    let refused = format!("index_recording: line 4: -1 after 5 refused (15): {}\n", Refusal::OutOfOrder);
    assert_eq!(run(&["-"], b"5\n5\n\n-1\n-2\n"), (String::new(), refused, 1));

    let (out, messages, status) = run(&["-"], b"0\n\xff\n");
    assert_eq!((out, status), (String::new(), 1));
    assert!(messages.starts_with("index_recording: line 2: "), "{messages}");
}

#[test]
fn other_arguments() {
    for arguments in [&["my.txt"][..], &["--help"], &["-", "-"], &[""]] {
        let (out, messages, status) = run(arguments, b"0\n");
        assert_eq!((out, status), (String::new(), 2), "{arguments:?}");
        assert!(messages.starts_with("usage: index_recording"), "{messages}");
    }
}

/// An output that takes everything and fails only when it is flushed.
struct Full;

impl Write for Full {
    fn write(&mut self, bytes: &[u8]) -> io::Result<usize> {
        Ok(bytes.len())
    }

    fn flush(&mut self) -> io::Result<()> {
        Err(io::Error::other("no room"))
    }
}

#[test]
fn an_output_that_fails() {
    let mut messages = Vec::new();
    assert_eq!(index_recording::run(&[], io::empty(), &mut Full, &mut messages), 1);
    assert_eq!(messages, b"index_recording: no room\n");
}
