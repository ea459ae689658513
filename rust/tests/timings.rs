//! Timestamps and cue lines: both readers, on texts that are right, nearly right or of any bytes, against a reader that
//! splits them (tests/support/plain.rs), and against the words of change request One.

mod support;

use ovenquill::{position_label, read_cue, read_position, write_position, Cue, POSITION_LABEL_BYTES};
use std::time::{Duration, Instant};
use support::answer::answer;
use support::answer::Answer::{Refused, Value};
use support::plain::{self, LAST_POSITION, POSITION_HOUR, POSITION_MINUTE, POSITION_SECOND};
use support::random::Random;

/// Holds what both readers answer to the plain ones, whatever bytes stand on either side of the text. A position that is
/// read is written again, and then has the full form.
fn try_text(text: impl AsRef<[u8]>) {
    let text = text.as_ref();
    let (position, cue) = (plain::read_position(text), plain::read_cue(text));
    for around in *b"0 \0" {
        let bytes = [&[around; 4], text, &[around; 4]].concat();
        let lent = &bytes[4..4 + text.len()];
        assert_eq!(answer(read_position(lent)), position, "{:?}", String::from_utf8_lossy(text));
        assert_eq!(answer(read_cue(lent)), cue, "{:?}", String::from_utf8_lossy(text));
    }
    if let Value(position) = position {
        assert_eq!(position_label(position).unwrap(), &plain::position_label(position)[..]);
    }
}

/// Tries a timestamp alone, and as the start and the end of a line.
fn try_timestamp(text: impl AsRef<[u8]>) {
    let text = text.as_ref();
    try_text(text);
    try_text([text, b" --> 99999:59:59.999"].concat());
    try_text([b"00:00.000 --> ", text].concat());
}

/// Writes a position, reads it back, and reads it in its other forms.
fn try_written(position: i64) {
    let mut label = [0; POSITION_LABEL_BYTES];
    let length = write_position(position, &mut label).unwrap();
    assert_eq!(read_position(&label[..length]), Ok(position));
    assert_eq!(read_position(&[b"0", &label[..length]].concat()), Ok(position));
    if position < POSITION_HOUR {
        assert_eq!(read_position(&label[3..length]), Ok(position));
    }
}

/// A position's timestamp: as it is written, with more leading zeros, or without hours where it is below one.
fn some_timestamp(random: &mut Random, position: i64) -> String {
    let label = plain::position_label(position);
    match random.within(0, 2) {
        0 => format!("{label:0>width$}", width = label.len() + random.within(1, 20) as usize),
        1 if position < POSITION_HOUR => label[3..].to_string(),
        _ => label,
    }
}

/// One to four spaces and tabs.
fn some_blanks(random: &mut Random) -> String {
    (0..random.within(1, 4)).map(|_| random.choose(&[' ', '\t'])).collect()
}

fn some_line(random: &mut Random, cue: Cue) -> String {
    let [start, end] = [cue.start, cue.end].map(|position| some_timestamp(random, position));
    let [before, behind] = [(), ()].map(|()| some_blanks(random));
    format!("{start}{before}-->{behind}{end}")
}

/// A cue, of positions of any size.
fn some_cue(random: &mut Random) -> Cue {
    let end = random.of_any_size(1, LAST_POSITION);
    let near = random.within((end - 1000).max(0), end - 1);
    let any = random.within(0, end - 1);
    Cue { start: random.choose(&[near, any]), end }
}

/// Right timestamps and lines: some that are fixed, and so many random ones of each.
fn right_texts(random: &mut Random, count: usize) -> Vec<Vec<u8>> {
    let mut texts: Vec<String> = ["00:00.000", "59:59.999", "00:00:00.000", "99:59:59.999", "99999:59:59.999"]
        .into_iter()
        .chain(["00:00.000 --> 00:00.001", "00:00:59.999\t-->\t01:00.000", "59:59.999 --> 99999:59:59.999"])
        .map(String::from)
        .collect();
    for _ in 0..count {
        let cue = some_cue(random);
        texts.extend([some_timestamp(random, cue.start), some_line(random, cue)]);
    }
    texts.into_iter().map(String::into_bytes).collect()
}

/// Bytes that stand in timestamps and lines, and some that are like them.
const LIKELY: &[u8] = b"0000123456789:::...---> > \t \t\n\r\x0b\x0c,;+/\0\x80\xa0\xb0\xff";

#[test]
fn words_of_change_request_one() {
    for (text, position, full_form) in [
        ("01:02.003", 62003, "00:01:02.003"),
        ("00:01:02.003", 62003, "00:01:02.003"),
        ("00:00.000", 0, "00:00:00.000"),
        ("59:59.999", 3599999, "00:59:59.999"),
        ("01:00:00.000", 3600000, "01:00:00.000"),
        ("000000000000000000000000100:00:00.001", 360000001, "100:00:00.001"),
        ("1193:02:47.296", 4294967296, "1193:02:47.296"),
        ("99999:59:59.999", 359999999999, "99999:59:59.999"),
    ] {
        assert_eq!(read_position(text.as_bytes()), Ok(position));
        assert_eq!(position_label(position).unwrap(), full_form);
        try_timestamp(text);
    }
    for (line, start, end) in [
        ("01:02.003 --> 01:02.004", 62003, 62004),
        ("01:02.003\t-->\t00:01:02.004", 62003, 62004),
        ("00:00.000 \t \t-->\t\t  99999:59:59.999", 0, 359999999999),
        ("0001:00:00.000 --> 01:00:00.001", 3600000, 3600001),
        ("1193:02:47.295 --> 1193:02:47.296", 4294967295, 4294967296),
    ] {
        assert_eq!(read_cue(line.as_bytes()), Ok(Cue { start, end }));
        try_text(line);
    }
}

#[test]
fn timestamps_that_are_refused() {
    for text in [
        // Taken by readers in wide use.
        "01.5",
        "00:01,500",
        "1:00:00.000",
        "00:60.000",
        "60:00.000",
        "01:60:00.000",
        "01:00:60.000",
        "00:00.0000",
        "00:00.00",
        "00:00.",
        "00:00",
        "00:00:00",
        "0:00.000",
        "00:0.000",
        "+00:00.000",
        "-00:00.000",
        "00:+1.000",
        "00:00.+01",
        "00:00.1e2",
        "00:00:00,000",
        "00:00:00:000",
        "00:00:00:00.000",
        "0x10:00:00.000",
        "1_000:00:00.000",
        "00:00.000Z",
        "00:00.000s",
        // A part that is left out, too short or too long.
        "",
        "0",
        ":",
        ".",
        ":00.000",
        ":00:00.000",
        "00::00.000",
        "00:00:.000",
        "00:00..000",
        "000:00.000",
        "00:000.000",
        "00:000:00.000",
        "00:00:000.000",
        "9:00:00.000",
        "00.00.000",
        "00:00:000",
        "00:00.000.000",
        // Something before a right one or behind it.
        " 00:00.000",
        "00:00.000 ",
        "\t00:00.000",
        "00:00.000\t",
        "\n00:00.000",
        "00:00.000\n",
        "00:00.000\r\n",
        "00:00.000\0",
        "\u{feff}00:00.000",
        "00:00.000\u{a0}",
        "00:00.000 --> 00:01.000",
        // Digits that are none of the ten.
        "\u{661}\u{662}:00.000",
        "\u{ff10}\u{ff10}:00.000",
        "0\u{b2}:00.000",
        // 13 before 6.
        "100000:60:00.000",
        "100000:00:00.00",
        "18446744073709551616:00:00,000",
        "1000000:00:00.000 ",
    ] {
        assert_eq!(answer(read_position(text.as_bytes())), Refused(13), "{text:?}");
        try_timestamp(text);
    }
    for text in ["100000:00:00.000", "0000100000:00:00.000", "99999999999999999999999:59:59.999"] {
        assert_eq!(answer(read_position(text.as_bytes())), Refused(6), "{text:?}");
        try_timestamp(text);
    }
}

#[test]
fn lines_that_are_refused() {
    for line in [
        // Blanks that are missing, too many or others.
        "00:01.000-->00:02.000",
        "00:01.000-->\t00:02.000",
        "00:01.000 -->00:02.000",
        " 00:01.000 --> 00:02.000",
        "00:01.000 --> 00:02.000 ",
        "\t00:01.000 --> 00:02.000",
        "00:01.000 --> 00:02.000\t",
        "00:01.000 --> 00:02.000\n",
        "00:01.000 --> 00:02.000\r",
        "00:01.000 --> 00:02.000\r\n",
        "00:01.000\n-->\n00:02.000",
        "00:01.000\u{b}--> 00:02.000",
        "00:01.000 -->\u{c}00:02.000",
        "00:01.000\u{a0}-->\u{a0}00:02.000",
        "00:01.000 \u{2003}--> 00:02.000",
        "00:01.000 -->\0 00:02.000",
        // Another arrow.
        "00:01.000 -> 00:02.000",
        "00:01.000 ---> 00:02.000",
        "00:01.000 -- > 00:02.000",
        "00:01.000 - -> 00:02.000",
        "00:01.000 -->> 00:02.000",
        "00:01.000 --> --> 00:02.000",
        "00:01.000 <-- 00:02.000",
        "00:01.000 \u{2192} 00:02.000",
        "00:01.000 --&gt; 00:02.000",
        "00:01.000 - 00:02.000",
        "00:01.000 00:02.000",
        "00:01.000,00:02.000",
        // Another timestamp, or one too many or too few.
        "00:01.000 --> 00:02.000 align:start",
        "00:01.000 --> 00:02.000 X1:0",
        "00:01.000 --> 00:02.000 --> 00:03.000",
        "1 00:01.000 --> 00:02.000",
        "00:01,000 --> 00:02,000",
        "0:00:01.000 --> 0:00:02.000",
        "00:01.000 --> 00:60.000",
        "00:01.000 --> 00:02.0000",
        "00:01 --> 00:02",
        "00:01.000 -->",
        "00:01.000 --> ",
        "--> 00:02.000",
        " --> 00:02.000",
        "-->",
        " --> ",
        "",
        " ",
        "00:01.000",
        // 13 before 6.
        "00:61.000 --> 100000:00:00.000",
        "100000:00:00.000 --> 00:61.000",
        "100000:00:00.000-->100001:00:00.000",
        "00:01.000 -> 100000:00:00.000",
        "00:01.000 --> 100000:00:00.000 ",
        // An end that is not later than the start.
        "00:01.000 --> 00:01.000",
        "00:01.000 --> 00:00.999",
        "00:01.000 --> 0000:00:01.000",
        "01:00:00.000 --> 59:59.999",
        "99999:59:59.999 --> 99999:59:59.999",
        "99999:59:59.999 --> 00:00.000",
    ] {
        assert_eq!(answer(read_cue(line.as_bytes())), Refused(13), "{line:?}");
        try_text(line);
    }
    for line in [
        "00:01.000 --> 100000:00:00.000",
        "100000:00:00.000 --> 00:01.000",
        "100000:00:00.000 --> 100000:00:00.000",
        "100000:00:00.001 --> 100000:00:00.000",
        // Ends that wrap to one later than the start, and a start to one before its end.
        "00:01.000 --> 18446744073709551616:00:02.000",
        "00:01.000 --> 4294967296:00:02.000",
        "00:01.000 --> 5124095576031:00:00.000",
        "18446744073709551616:00:01.000 --> 00:02.000",
    ] {
        assert_eq!(answer(read_cue(line.as_bytes())), Refused(6), "{line:?}");
        try_text(line);
    }
}

// Timestamps

#[test]
fn every_value_of_every_field() {
    for hours in ["", "00:", "09:", "99:", "100:", "0001:", "99999:", "100000:", "000099999:", "18446744073709551616:"]
    {
        for minutes in 0..100 {
            for seconds in 0..100 {
                try_text(format!("{hours}{minutes:02}:{seconds:02}.{:03}", 10 * seconds + minutes % 10));
            }
        }
        for decimals in 0..1000 {
            try_timestamp(format!("{hours}{:02}:{:02}.{decimals:03}", decimals % 60, decimals / 17));
        }
    }
    for hours in 0..101_000 {
        try_text(format!("{hours:02}:{:02}:{:02}.{:03}", hours % 60, hours % 59, hours % 1000));
    }
}

#[test]
fn written_positions_are_read_back() {
    let mut random = Random::new(31);
    for power in (0..12).map(|n| 10i64.pow(n)) {
        for unit in [1, POSITION_SECOND, POSITION_MINUTE, POSITION_HOUR] {
            (-2..=2).map(|near| power * unit + near).filter(|n| (0..=LAST_POSITION).contains(n)).for_each(try_written);
        }
    }
    for near in 0..100_000 {
        try_written(near);
        try_written(POSITION_HOUR - 1 - near);
        try_written(LAST_POSITION - near);
    }
    for hour in 0..100_000 {
        try_written(hour * POSITION_HOUR);
        try_written(hour * POSITION_HOUR + random.within(0, POSITION_HOUR - 1));
    }
    for _ in 0..1_000_000 {
        try_written(random.within(0, LAST_POSITION));
        try_written(random.of_any_size(0, LAST_POSITION));
    }
}

/// Hours that in a number of so many bits would wrap to few, they or their minutes, seconds or milliseconds, and hours beside
/// them.
fn hours_that_wrap() -> Vec<String> {
    let mut hours = Vec::new();
    for bits in [16, 31, 32, 53, 63, 64, 65, 96] {
        for unit in [1, 60, 3600, POSITION_HOUR as u128] {
            for times in 1..=40 {
                let first = (times << bits) / unit;
                hours.extend((0..3).map(|near| (first + near).to_string()));
                hours.push((first + 99_999).to_string());
            }
        }
    }
    hours
}

#[test]
fn hours_of_any_number_of_digits() {
    let mut random = Random::new(32);
    for hours in hours_that_wrap() {
        for zeros in ["", "0", "00000000000000000000"] {
            try_timestamp(format!("{zeros}{hours}:00:00.000"));
            try_timestamp(format!("{zeros}{hours}:59:59.999"));
        }
    }
    for digits in 1..=200 {
        for last in ["", "1", "42", "12345", "99999", "100000", "4294967296", "18446744073709551616"] {
            for fill in ["0", "1", "9"] {
                try_timestamp(format!("{}{last}:59:59.999", fill.repeat(digits)));
            }
        }
        for _ in 0..50 {
            let zeros = random.within(0, digits as i64) as usize;
            let hours: Vec<u8> =
                (0..digits).map(|place| if place < zeros { b'0' } else { random.choose(b"0123456789") }).collect();
            let mut text = [&hours[..], b":12:34.567"].concat();
            try_timestamp(&text);
            text[random.within(0, digits as i64 - 1) as usize] = random.choose(LIKELY);
            try_timestamp(&text);
        }
    }
}

#[test]
fn hours_with_one_digit_that_is_not_zero() {
    for digits in 1..=200 {
        for place in 0..digits {
            for digit in b'1'..=b'9' {
                let mut text = [&vec![b'0'; digits], &b":12:34.567"[..]].concat();
                text[place] = digit;
                try_timestamp(&text);
            }
        }
    }
}

#[test]
fn hours_with_one_digit_ahead_of_many_zeros() {
    let mut random = Random::new(70);
    let beside_powers = (8..=16).flat_map(|power| (1 << power) - 1..=(1 << power) + 1);
    for zeros in (201..=600).chain(beside_powers).chain([3_000, 10_000, 70_000]) {
        for leading in [0, random.within(1, 400) as usize] {
            let digit = random.choose(b"123456789");
            let text = [&vec![b'0'; leading], &[digit][..], &vec![b'0'; zeros], b":12:34.567"].concat();
            assert_eq!(answer(read_position(&text)), Refused(6), "{} and {zeros} zeros behind it", char::from(digit));
            try_timestamp(&text);
        }
    }
}

/// Every text of so many of these bytes.
fn every_text(bytes: &[u8], length: usize) -> impl Iterator<Item = Vec<u8>> + '_ {
    let count = bytes.len();
    (0..count.pow(length as u32))
        .map(move |n| (0..length).map(|place| bytes[n / count.pow(place as u32) % count]).collect())
}

#[test]
fn every_text_of_a_digit_and_the_marks() {
    for length in 0..=12 {
        every_text(b"0:.", length).for_each(try_text);
    }
    every_text(b"06:.", 9).for_each(try_text);
}

// Lines

#[test]
fn cues_in_every_form() {
    let mut random = Random::new(33);
    for _ in 0..300_000 {
        let cue = some_cue(&mut random);
        let line = some_line(&mut random, cue);
        assert_eq!(read_cue(line.as_bytes()), Ok(cue), "{line:?}");
        try_text(&line);
        // The other way round, and with itself.
        for (start, end) in [(cue.end, cue.start), (cue.start, cue.start)] {
            let line = some_line(&mut random, Cue { start, end });
            assert_eq!(answer(read_cue(line.as_bytes())), Refused(13), "{line:?}");
        }
    }
}

#[test]
fn every_line_of_some_pieces() {
    let pieces: [&[u8]; 9] =
        [b"00:01.000", b"00:00:02.000", b"100000:00:00.000", b"0:03.000", b" ", b"\t", b"-->", b"->", b"\n"];
    let places: Vec<u8> = (0..pieces.len() as u8).collect();
    for count in 0..=5 {
        for line in every_text(&places, count) {
            try_text(line.iter().flat_map(|&place| pieces[usize::from(place)]).copied().collect::<Vec<u8>>());
        }
    }
}

#[test]
fn any_two_timestamps() {
    let timestamps = [
        "00:00.000",
        "00:00.001",
        "00:01.000",
        "00:00:01.000",
        "0000:00:01.000",
        "59:59.999",
        "01:00:00.000",
        "99:59:59.999",
        "100:00:00.000",
        "1193:02:47.296",
        "99999:59:59.998",
        "99999:59:59.999",
        "0099999:59:59.999",
        "100000:00:00.000",
        "100000:00:00.001",
        "4294967296:00:00.500",
        "5124095576031:00:00.000",
        "18446744073709551616:00:00.500",
        "00:60.000",
        "60:00.000",
        "0:00:01.000",
        "00:00:60.000",
        "100000:60:00.000",
        "00:01.00",
        "00:01.0000",
        "00:01,000",
        "",
        "1",
    ];
    for start in timestamps {
        for end in timestamps {
            for between in
                [" --> ", "\t-->\t", " \t-->\t  ", "-->", " -->", "--> ", " -> ", " ", "", "\n-->\n", " -->\r"]
            {
                try_text(format!("{start}{between}{end}"));
            }
        }
    }
}

#[test]
fn blanks_of_every_number_and_kind() {
    let blanks = || (0..=5).flat_map(|count| every_text(b" \t", count));
    for before in blanks() {
        for behind in blanks() {
            let (before, behind) = (&before[..], &behind[..]);
            try_text([b"00:01.000", before, b"-->", behind, b"00:02.000"].concat());
            try_text([before, b"00:01.000 --> 00:02.000", behind].concat());
        }
    }
    // Every other byte, alone and beside a blank, at every place where a blank may stand or might.
    let line = b"00:01.000 \t--> \t00:02.000";
    for place in [0, 9, 10, 11, 14, 15, 16, 25] {
        for byte in 0..=255 {
            let (front, back) = line.split_at(place);
            try_text([front, &[byte], back].concat());
            try_text([front, &[byte, byte], back].concat());
        }
    }
}

/// So many spaces and tabs: in turn, a tab amid spaces, a space amid tabs, or, by any other pattern, at random.
fn blanks(random: &mut Random, count: usize, pattern: u32) -> Vec<u8> {
    let odd = random.within(0, count as i64 - 1) as usize;
    (0..count)
        .map(|place| match pattern {
            0 => b" \t"[place % 2],
            1 => b" \t"[usize::from(place == odd)],
            2 => b"\t "[usize::from(place == odd)],
            _ => random.choose(b" \t"),
        })
        .collect()
}

#[test]
fn long_runs_of_blanks() {
    let mut random = Random::new(37);
    let longer = (101..=300).chain([511, 512, 513, 1023, 1024, 1025, 4095, 4096, 4097, 10_000]);
    for (count, patterns) in (1..=100).map(|count| (count, 40)).chain(longer.map(|count| (count, 5))) {
        for pattern in 0..patterns {
            let other = random.within(1, 100) as usize;
            for (before, behind) in [(count, 1), (1, count), (count, other), (other, count)] {
                let front = [&b"00:01.000"[..], &blanks(&mut random, before, pattern)].concat();
                let back = [&blanks(&mut random, behind, pattern), &b"00:00:02.000"[..]].concat();
                let line = [&front[..], b"-->", &back].concat();
                assert_eq!(read_cue(&line), Ok(Cue { start: 1000, end: 2000 }), "{:?}", String::from_utf8_lossy(&line));
                try_text(&line);
                // One of the blanks on either side damaged.
                let (first, second) = (front.len() - before, front.len() + "-->".len());
                for (run, count) in [(first, before), (second, behind)] {
                    let mut damaged = line.clone();
                    damaged[run + random.within(0, count as i64 - 1) as usize] = random.choose(LIKELY);
                    try_text(&damaged);
                }
            }
        }
    }
}

#[test]
fn blanks_and_line_endings_around_long_lines() {
    let mut random = Random::new(38);
    for many in 1..=100 {
        // The hours of the start, the blanks on either side, the hours of the end, or all of them are long.
        for long in 0..5 {
            let [start, before, behind, end] =
                [0, 1, 2, 3].map(|part| if part == long || long == 4 { many } else { 1 });
            let line = [
                &vec![b'0'; start],
                &b"1:01:02.003"[..],
                &blanks(&mut random, before, 3),
                b"-->",
                &blanks(&mut random, behind, 3),
                &vec![b'0'; end],
                b"99999:59:59.999",
            ]
            .concat();
            assert_eq!(read_cue(&line), Ok(Cue { start: 3662003, end: LAST_POSITION }));
            try_text(&line);
            for around in [" ", "\t", "\n", "\r", "\r\n", " \t", "\0", "\u{b}", "\u{a0}", ":", "-"].map(str::as_bytes) {
                for text in [[around, &line].concat(), [&line, around].concat()] {
                    assert_eq!(answer(read_cue(&text)), Refused(13), "{:?}", String::from_utf8_lossy(&text));
                    try_text(&text);
                }
            }
        }
    }
}

// Damage

#[test]
fn one_byte_damaged_at_every_place_with_every_value() {
    let mut random = Random::new(34);
    for text in right_texts(&mut random, 40) {
        try_text(&text);
        for place in 0..text.len() {
            for value in 0..=255 {
                let mut damaged = text.clone();
                damaged[place] = value;
                try_text(&damaged);
            }
        }
    }
}

#[test]
fn several_bytes_damaged() {
    let mut random = Random::new(35);
    for text in right_texts(&mut random, 200_000) {
        let mut damaged = text.clone();
        for _ in 0..random.within(2, 5) {
            let place = random.within(0, text.len() as i64 - 1) as usize;
            damaged[place] = random.choose(LIKELY);
        }
        try_text(&damaged);
    }
}

#[test]
fn texts_of_every_length() {
    let mut random = Random::new(36);
    for length in 0..=40 {
        for _ in 0..10_000 {
            try_text((0..length).map(|_| random.choose(LIKELY)).collect::<Vec<u8>>());
        }
        for text in right_texts(&mut random, 50) {
            // Cut off at either end, or gone on with.
            try_text(&text[..length.min(text.len())]);
            try_text(&text[length.min(text.len())..]);
            try_text([&text[..], &text[..length.min(text.len())]].concat());
            let byte = random.choose(LIKELY);
            try_text([&text[..], &vec![byte; length]].concat());
            try_text([&vec![byte; length], &text[..]].concat());
        }
    }
}

/// Timestamps with so many of one byte in a row, and lines with as many.
fn long_texts(length: usize) -> (Vec<String>, Vec<String>) {
    let [zeros, nines, spaces, tabs, colons, dashes] = ["0", "9", " ", "\t", ":", "-"].map(|byte| byte.repeat(length));
    let timestamps = vec![
        format!("{zeros}:59:59.999"),
        format!("{zeros}99999:59:59.999"),
        format!("{zeros}100000:00:00.000"),
        format!("1{zeros}:59:59.999"),
        format!("{nines}:00:00.000"),
        format!("{nines}:60:00.000"),
        format!("{nines}0:00.000"),
        format!("{colons}00:00.000"),
        format!("00:00.{zeros}"),
    ];
    let lines = vec![
        format!("00:01.000{spaces}-->{tabs}00:02.000"),
        format!("00:01.000{spaces}{tabs}-->{tabs}{spaces}00:02.000"),
        format!("00:01.000{spaces}-->{tabs}00:01.000"),
        format!("00:01.000{spaces}-->{tabs}"),
        format!("00:01.000{spaces}{tabs}"),
        format!("{spaces}00:01.000 --> 00:02.000"),
        format!("00:01.000 --> 00:02.000{tabs}"),
        format!("00:01.000 {dashes}> 00:02.000"),
        format!("{zeros}:00:01.000 --> {zeros}:00:02.000"),
        format!("{nines}:00:01.000 --> {nines}:00:02.000"),
    ];
    (timestamps, lines)
}

/// How long both readers take for a text, that often.
fn time_to_read(text: &str, times: usize) -> Duration {
    let began = Instant::now();
    for _ in 0..times {
        // Whether it is read or refused is tried elsewhere.
        let _ = (read_position(text.as_bytes()), read_cue(text.as_bytes()));
    }
    began.elapsed()
}

/// Holds that a long text takes about as long as 200 short ones; with time in the square of its length it takes 200 times that.
fn try_time() {
    let texts = |length| [long_texts(length).0, long_texts(length).1].concat();
    for (short, long) in texts(500).iter().zip(&texts(100_000)) {
        // A machine that is busy with other things has several chances.
        let quick = |_| time_to_read(long, 1) < 50 * time_to_read(short, 200) + Duration::from_millis(1);
        assert!((0..5).any(quick), "a text of {} bytes takes too long: {}..", long.len(), &long[..20]);
    }
}

#[test]
fn texts_of_any_length() {
    try_time();
    for length in support::lengths().chain([1_000_000]) {
        let (timestamps, lines) = long_texts(length);
        timestamps.into_iter().for_each(try_timestamp);
        lines.into_iter().for_each(try_text);
    }
}
