//! Labels: the writers of instant and position labels against `write!` and `format!`, the reader against a checker that goes
//! byte by byte (tests/support/plain.rs), all three against document 01's rows, the years that have no label, small letters, and
//! the labels that are held by value. Week labels are tried here as text only, and for the rest in tests/weeks.rs.

mod support;

use ovenquill::{
    instant_label, position_label, read_instant, week_label, write_instant, write_position, InstantLabel,
    PositionLabel, Refusal, INSTANT_LABEL_BYTES, POSITIONS, POSITION_LABEL_BYTES,
};
use std::collections::HashSet;
use support::answer::answer;
use support::answer::Answer::{Refused, Value};
use support::plain::{
    self, DAY, FIRST_DAY, FIRST_INSTANT, FIRST_LABEL_DAY, FIRST_LABEL_INSTANT, FIRST_LABEL_YEAR, LABEL_BYTES, LAST_DAY,
    LAST_INSTANT, LAST_LABEL_DAY, LAST_LABEL_INSTANT, LAST_LABEL_YEAR, LAST_POSITION, POSITION_HOUR, POSITION_MINUTE,
    POSITION_SECOND, SECOND,
};
use support::random::Random;
use support::{try_writing, BAD_INSTANTS};

/// Instants in the range whose years have no label, the farthest and the nearest on each side.
const WITHOUT_LABEL: [i64; 4] = [FIRST_INSTANT, FIRST_LABEL_INSTANT - 1, LAST_LABEL_INSTANT + 1, LAST_INSTANT];

/// Writes the label of an instant that has one, holds it to the plain one and reads it again.
fn try_label(instant: i64) {
    let mut label = [b'?'; LABEL_BYTES];
    assert_eq!(write_instant(instant, &mut label), Ok(LABEL_BYTES), "{instant}");
    assert_eq!(label, plain::instant_label(instant), "{instant}");
    assert_eq!(read_instant(&label), Ok(instant), "{instant}");
}

/// Has the label of an instant without one refused with 1, which changes no byte.
fn try_no_label(instant: i64) {
    let mut label = [b'?'; LABEL_BYTES];
    assert_eq!(answer(write_instant(instant, &mut label)), Refused(1), "{instant}");
    assert_eq!(label, [b'?'; LABEL_BYTES], "{instant}");
}

/// Reads any bytes and holds the answer to the plain reader's; what is accepted is written again, in capitals.
fn try_reading(label: &[u8]) {
    let read = read_instant(label);
    assert_eq!(answer(read), plain::read_instant(label), "{:?}", String::from_utf8_lossy(label));
    if let Ok(instant) = read {
        let mut again = [b'?'; LABEL_BYTES];
        assert_eq!(write_instant(instant, &mut again), Ok(LABEL_BYTES));
        assert_eq!(again, *label.to_ascii_uppercase());
    }
}

/// The label of an instant, with other bytes for its letters.
fn with_letters(instant: i64, t: u8, z: u8) -> [u8; LABEL_BYTES] {
    let mut label = plain::instant_label(instant);
    for (byte, letter) in label.iter_mut().filter(|byte| byte.is_ascii_alphabetic()).zip([t, z]) {
        *byte = letter;
    }
    label
}

fn try_position(position: i64) {
    let mut label = [b'?'; POSITION_LABEL_BYTES + 1];
    let mut expected = label;
    let written = answer(write_position(position, &mut label));
    assert_eq!(written, plain::write_position(position, &mut expected), "{position}");
    assert_eq!(label, expected, "{position}");
}

#[test]
fn lengths_and_range_of_document_01() {
    assert_eq!(INSTANT_LABEL_BYTES, LABEL_BYTES);
    assert_eq!(POSITIONS, 0..=LAST_POSITION);
    assert_eq!(POSITION_LABEL_BYTES, plain::position_label(LAST_POSITION).len());
}

#[test]
fn rows_of_document_01() {
    for (instant, label) in [
        (1683729000000, b"2023-05-10T14:30:00.000Z"),
        (-1, b"1969-12-31T23:59:59.999Z"),
        (0, b"1970-01-01T00:00:00.000Z"),
        (-62167219200000, b"0000-01-01T00:00:00.000Z"),
        (253402300799999, b"9999-12-31T23:59:59.999Z"),
    ] {
        let mut out = [0; LABEL_BYTES];
        assert_eq!(write_instant(instant, &mut out), Ok(LABEL_BYTES));
        assert_eq!(&out, label);
        assert_eq!(read_instant(label), Ok(instant));
    }
    assert_eq!(answer(read_instant(b"2016-12-31T23:59:60.000Z")), Refused(5));

    for (position, label) in [
        (0, "00:00:00.000"),
        (359999999999, "99999:59:59.999"),
        (4287767296, "1191:02:47.296"),
        (1, "00:00:00.001"),
        (359999999, "99:59:59.999"),
        (360000000, "100:00:00.000"),
    ] {
        let mut out = [b'?'; 16];
        assert_eq!(write_position(position, &mut out), Ok(label.len()));
        assert_eq!(&out[..label.len()], label.as_bytes());
        assert!(out[label.len()..].iter().all(|&byte| byte == b'?'));
    }
    assert_eq!(answer(write_position(4287767296, &mut [0; 14])), Value(14));
    assert_eq!(answer(write_position(4287767296, &mut [0; 13])), Refused(7));
    assert_eq!(answer(write_position(-1, &mut [0; 15])), Refused(6));
    assert_eq!(answer(write_position(360000000000, &mut [0; 15])), Refused(6));
}

#[test]
fn rows_of_change_request_eight() {
    // A millisecond beyond the years of labels, the ends of the range and a millisecond beyond these.
    for (instant, refusal) in [
        (-1071989683200001, 4),
        (-1071989683200000, 1),
        (-62167219200001, 1),
        (253402300800000, 1),
        (947655244799999, 1),
        (947655244800000, 4),
    ] {
        for length in [0, LABEL_BYTES - 1, LABEL_BYTES, LABEL_BYTES + 1] {
            let mut out = vec![b'?'; length];
            assert_eq!(answer(write_instant(instant, &mut out)), Refused(refusal), "{instant} in {length} bytes");
            assert_eq!(out, vec![b'?'; length], "{instant} in {length} bytes");
        }
    }
}

// Writing instants

#[test]
fn labels_around_every_day_boundary() {
    for day in FIRST_LABEL_DAY..=LAST_LABEL_DAY {
        try_label(day * DAY);
        try_label(day * DAY + DAY - 1);
    }
}

#[test]
fn no_labels_around_every_other_day_boundary() {
    for day in (FIRST_DAY..FIRST_LABEL_DAY).chain(LAST_LABEL_DAY + 1..=LAST_DAY) {
        try_no_label(day * DAY);
        try_no_label(day * DAY + DAY - 1);
    }
}

#[test]
fn labels_of_random_instants() {
    let mut random = Random::new(11);
    for _ in 0..5_000_000 {
        try_label(random.within(FIRST_LABEL_INSTANT, LAST_LABEL_INSTANT));
        try_no_label(random.within(FIRST_INSTANT, FIRST_LABEL_INSTANT - 1));
        try_no_label(random.within(LAST_LABEL_INSTANT + 1, LAST_INSTANT));
    }
}

#[test]
fn every_instant_around_the_ends_of_the_years_of_labels() {
    for near in 0..200_000 {
        try_no_label(FIRST_LABEL_INSTANT - 1 - near);
        try_label(FIRST_LABEL_INSTANT + near);
        try_label(LAST_LABEL_INSTANT - near);
        try_no_label(LAST_LABEL_INSTANT + 1 + near);
    }
}

#[test]
fn labels_of_every_second_and_around_zero() {
    for second in 0..86400 {
        try_label(19487 * DAY + second * SECOND + second % SECOND);
    }
    for near in -100_000..100_000 {
        try_label(near);
    }
}

#[test]
fn instants_in_buffers_of_every_length() {
    let with_label = [FIRST_LABEL_INSTANT, LAST_LABEL_INSTANT, -1, 0, 1683729000000];
    let chosen = || BAD_INSTANTS.into_iter().chain(WITHOUT_LABEL).chain(with_label);
    for length in 0..=40 {
        for instant in chosen().chain(support::powers()) {
            try_writing(write_instant, plain::write_instant, instant, length);
        }
    }
    for length in support::lengths() {
        for instant in chosen() {
            try_writing(write_instant, plain::write_instant, instant, length);
        }
    }
    // 4 before 1 before 7.
    for (instants, refusal) in [(&BAD_INSTANTS[..], 4), (&WITHOUT_LABEL, 1), (&with_label, 7)] {
        for &instant in instants {
            assert_eq!(answer(write_instant(instant, &mut [0; LABEL_BYTES - 1])), Refused(refusal), "{instant}");
        }
    }
}

// Reading instants

#[test]
fn labels_of_every_length() {
    // A label cut off or gone on with, at every length, with the bytes around it varied: they are none of its business.
    let mut random = Random::new(12);
    let label_end = 20 + LABEL_BYTES;
    for around in 0..=255u8 {
        let label = plain::instant_label(random.within(FIRST_LABEL_INSTANT, LAST_LABEL_INSTANT));
        for length in 0..=40 {
            let mut bytes = [around; 80];
            bytes[20..label_end].copy_from_slice(&label);
            try_reading(&bytes[20..20 + length]);
            try_reading(&bytes[label_end - length..label_end]);
            try_reading(&[around; 40][..length]);
        }
    }
    for length in 0..=40 {
        let digits = b"2023-05-10T14:30:00.000Z2023-05-10T14:30:00.000Z";
        try_reading(&digits[..length]);
        assert_eq!(answer(read_instant(&digits[..length])) == Refused(8), length != LABEL_BYTES);
    }
    // A right label at the front, at the end and over and over.
    for length in support::lengths().filter(|&length| length > LABEL_BYTES) {
        let label = plain::instant_label(random.within(FIRST_LABEL_INSTANT, LAST_LABEL_INSTANT));
        let mut bytes = vec![b'0'; length];
        bytes[..LABEL_BYTES].copy_from_slice(&label);
        try_reading(&bytes);
        bytes[length - LABEL_BYTES..].copy_from_slice(&label);
        try_reading(&bytes);
        try_reading(&label.repeat(length / LABEL_BYTES + 1)[..length]);
    }
}

#[test]
fn one_byte_damaged_at_every_place_with_every_value() {
    let mut random = Random::new(13);
    let mut instants = vec![FIRST_LABEL_INSTANT, LAST_LABEL_INSTANT, 0, -1, 1683729000000];
    instants.extend((0..200).map(|_| random.within(FIRST_LABEL_INSTANT, LAST_LABEL_INSTANT)));
    for instant in instants {
        let label = plain::instant_label(instant);
        for place in 0..LABEL_BYTES {
            for value in 0..=255 {
                let mut damaged = label;
                damaged[place] = value;
                try_reading(&damaged);
            }
        }
    }
}

#[test]
fn small_letters() {
    for letters in [*b"TZ", *b"Tz", *b"tZ", *b"tz"] {
        let [t, z] = letters;
        let label = with_letters(1683729000000, t, z);
        assert_eq!(read_instant(&label), Ok(1683729000000));
        assert_eq!(InstantLabel::try_from(&label[..]), Ok(instant_label(1683729000000).unwrap()));
        for value in 0..=255 {
            for place in 0..LABEL_BYTES {
                let mut damaged = label;
                damaged[place] = value;
                try_reading(&damaged);
            }
        }
    }
    // Every two bytes in place of the letters: four are taken.
    let mut random = Random::new(19);
    let mut taken = Vec::new();
    for t in 0..=255 {
        for z in 0..=255 {
            let label = with_letters(random.within(FIRST_LABEL_INSTANT, LAST_LABEL_INSTANT), t, z);
            try_reading(&label);
            if read_instant(&label).is_ok() {
                taken.push([t, z]);
            }
        }
    }
    assert_eq!(taken, [*b"TZ", *b"Tz", *b"tZ", *b"tz"]);
}

#[test]
fn several_bytes_damaged() {
    let mut random = Random::new(14);
    let likely = b"0123456789-:.TZtz /+\0\x2f\x3a\x80\xb0\xff";
    for _ in 0..3_000_000 {
        let mut label = plain::instant_label(random.within(FIRST_LABEL_INSTANT, LAST_LABEL_INSTANT));
        for _ in 0..random.within(2, 6) {
            let place = random.within(0, LABEL_BYTES as i64 - 1) as usize;
            label[place] = random.choose(likely);
        }
        try_reading(&label);
    }
    for _ in 0..1_000_000 {
        let digits: Vec<u8> = (0..LABEL_BYTES).map(|_| random.choose(likely)).collect();
        try_reading(&digits);
    }
}

#[test]
fn every_value_of_every_field() {
    let mut text = String::new();
    let mut read = |date: &str, time: &str| {
        for [t, z] in [["T", "Z"], ["T", "z"], ["t", "Z"], ["t", "z"]] {
            text.clear();
            text.extend([date, t, time, z]);
            try_reading(text.as_bytes());
        }
    };
    for year in FIRST_LABEL_YEAR..=LAST_LABEL_YEAR {
        for month_day in ["01-01", "02-28", "02-29", "02-30", "04-31", "12-31", "13-01", "00-00"] {
            read(&format!("{year:04}-{month_day}"), "23:59:59.999");
        }
    }
    for year in [FIRST_LABEL_YEAR, 1, 4, 100, 400, 1900, 2000, 2023, 2100, LAST_LABEL_YEAR] {
        for month in 0..=99 {
            for day in 0..=99 {
                let date = format!("{year:04}-{month:02}-{day:02}");
                read(&date, "00:00:00.000");
                read(&date, "24:60:60.999"); // 2 and 3 before 5
            }
        }
    }
    for hour in 0..=99 {
        for minute in 0..=99 {
            for second in [0, 1, 30, 58, 59, 60, 61, 98, 99] {
                read("2016-12-31", &format!("{hour:02}:{minute:02}:{second:02}.000"));
            }
        }
    }
    for second in 0..=99 {
        for millisecond in 0..=999 {
            read("1969-12-31", &format!("23:59:{second:02}.{millisecond:03}"));
        }
    }
}

#[test]
fn the_reader_refuses_in_order() {
    for (label, refusal) in [
        (&b""[..], 8),
        (b"2023-05-10T14:30:00.000", 8),
        (b"2023-05-10T14:30:00.000Z0", 8),
        (b"2023-05-10 14:30:00.000Z", 8),
        (b"2023-05-10Z14:30:00.000Z", 8),
        (b"2023-05-10z14:30:00.000z", 8),
        (b"2023-05-10T14:30:00.000T", 8),
        (b"2023-05-10t14:30:00.000t", 8),
        (b"2023-05-10\xd414:30:00.000Z", 8),
        (b"2023-05-10T14:30:00.000\xfa", 8),
        (b"2023-05-10T14:30:00.00tZ", 8),
        (b"+023-05-10T14:30:00.000Z", 8),
        (b"-001-12-31T23:59:59.999Z", 8),
        (b"-0001-12-31T23:59:59.999Z", 8),
        (b"10000-01-01T00:00:00.000Z", 8),
        (b"2023-05-10T14:30:00,000Z", 8),
        (b"2023-13-99T99:99:99.99xZ", 8),
        (b"2023-13-99T99:99:99.999Z", 2),
        (b"2023-00-10T14:30:00.000Z", 2),
        (b"2023-02-29T99:99:99.999Z", 3),
        (b"2023-05-00T14:30:00.000Z", 3),
        (b"2024-02-30T14:30:00.000Z", 3),
        (b"2023-05-10T24:00:00.000Z", 5),
        (b"2023-05-10T23:60:00.000Z", 5),
        (b"2023-05-10T23:59:60.000Z", 5),
    ] {
        assert_eq!(answer(read_instant(label)), Refused(refusal), "{:?}", String::from_utf8_lossy(label));
    }
}

// Positions

/// Positions within 2 of each power of ten, of each unit and its multiples by powers of ten, and of each limit.
fn positions_worth_trying() -> Vec<i64> {
    let mut positions = vec![i64::MIN, i64::MIN + 1, i64::MAX - 1, i64::MAX, LAST_POSITION, LAST_POSITION + 1];
    for power in (0..16).map(|n| 10i64.pow(n)) {
        for unit in [1, POSITION_SECOND, POSITION_MINUTE, POSITION_HOUR] {
            for near in -2..=2 {
                positions.push(power.saturating_mul(unit).saturating_add(near));
                positions.push((power.saturating_mul(unit)).saturating_neg() + near);
            }
        }
    }
    positions
}

#[test]
fn positions_at_every_power_of_ten_and_limit() {
    for position in positions_worth_trying().into_iter().chain(support::powers()) {
        try_position(position);
    }
    for near in -200_000..=200_000 {
        for hours in [0, 1, 100, 1000, 10000] {
            try_position(hours * POSITION_HOUR + near);
        }
        try_position(LAST_POSITION + near);
    }
}

#[test]
fn random_positions() {
    let mut random = Random::new(15);
    for _ in 0..3_000_000 {
        try_position(random.within(0, LAST_POSITION));
        try_position(random.of_any_size(0, LAST_POSITION));
    }
}

#[test]
fn every_hour() {
    let mut random = Random::new(16);
    for hour in 0..100_000 {
        try_position(hour * POSITION_HOUR);
        try_position(hour * POSITION_HOUR + random.within(0, POSITION_HOUR - 1));
        try_position(hour * POSITION_HOUR + POSITION_HOUR - 1);
    }
}

#[test]
fn positions_in_buffers_of_every_length() {
    for length in 0..=20 {
        for position in positions_worth_trying() {
            try_writing(write_position, plain::write_position, position, length);
        }
    }
    for length in support::lengths() {
        for position in [i64::MIN, -1, 0, 4287767296, LAST_POSITION, LAST_POSITION + 1, i64::MAX] {
            try_writing(write_position, plain::write_position, position, length);
        }
    }
    // Exactly 12 to 15 bytes, by the hours.
    for (bytes, first_hour, last_hour) in [(12, 0, 99), (13, 100, 999), (14, 1000, 9999), (15, 10000, 99999)] {
        for position in [first_hour * POSITION_HOUR, last_hour * POSITION_HOUR + POSITION_HOUR - 1] {
            let mut out = vec![0; bytes];
            assert_eq!(answer(write_position(position, &mut out)), Value(bytes));
            assert_eq!(answer(write_position(position, &mut out[1..])), Refused(7));
        }
    }
    // 6 before 7.
    assert_eq!(answer(write_position(-1, &mut [])), Refused(6));
    assert_eq!(answer(write_position(0, &mut [])), Refused(7));
}

// Labels by value

#[test]
fn instant_labels_by_value() {
    let mut random = Random::new(22);
    let mut before: Option<(i64, InstantLabel)> = None;
    for _ in 0..300_000 {
        let instant = random.within(FIRST_LABEL_INSTANT, LAST_LABEL_INSTANT);
        let expected = plain::instant_label(instant);
        let text = std::str::from_utf8(&expected).unwrap();
        let label = instant_label(instant).unwrap();
        assert_eq!((label.as_str(), label.as_bytes()), (text, &expected[..]));
        assert_eq!(text.parse(), Ok(label));
        assert_eq!(InstantLabel::try_from(&expected[..]), Ok(label));
        assert_eq!(read_instant(label.as_ref()), Ok(instant));
        if let Some((other, other_label)) = before {
            assert_eq!(label.cmp(&other_label), instant.cmp(&other), "{label} {other_label}");
            assert_eq!(label == other_label, instant == other, "{label} {other_label}");
        }
        before = Some((instant, label));
    }
    for instant in BAD_INSTANTS {
        assert_eq!(instant_label(instant), Err(Refusal::OutOfRange));
    }
    for instant in WITHOUT_LABEL {
        assert_eq!(instant_label(instant), Err(Refusal::YearOutOfRange));
    }
    assert_eq!("2023-02-29T00:00:00.000Z".parse::<InstantLabel>(), Err(Refusal::DayOutOfRange));
    assert_eq!(InstantLabel::try_from(&b"\xff"[..]), Err(Refusal::MalformedLabel));
}

#[test]
fn position_labels_by_value() {
    let mut random = Random::new(23);
    let mut before: Option<(i64, PositionLabel)> = None;
    for _ in 0..300_000 {
        let position = random.of_any_size(0, LAST_POSITION);
        let expected = plain::position_label(position);
        let label = position_label(position).unwrap();
        assert_eq!((label.as_str(), label.as_bytes()), (&expected[..], expected.as_bytes()));
        assert_eq!(expected.parse::<PositionLabel>(), Ok(label));
        assert_eq!(PositionLabel::try_from(format!("00{expected}").as_bytes()), Ok(label));
        if let Some((other, other_label)) = before {
            assert_eq!(label.cmp(&other_label), position.cmp(&other), "{label} {other_label}");
            assert_eq!(label == other_label, position == other, "{label} {other_label}");
        }
        before = Some((position, label));
    }
    for position in [-1, LAST_POSITION + 1, i64::MIN, i64::MAX] {
        assert_eq!(position_label(position), Err(Refusal::PositionOutOfRange));
    }
    assert_eq!("01:02.003".parse::<PositionLabel>(), position_label(62003));
    assert_eq!("100000:00:00.000".parse::<PositionLabel>(), Err(Refusal::PositionOutOfRange));
    assert_eq!(PositionLabel::try_from(&b"\xff"[..]), Err(Refusal::MalformedTiming));
}

/// What every kind of label does as text: it compares, shows itself and hashes.
macro_rules! try_as_text {
    ($label:expr, $other:expr, $text:literal, $debug:literal) => {
        let (label, other) = ($label.unwrap(), $other.unwrap());
        assert!(label == $text && $text == label && label == *$text && *$text == label);
        assert!(other != $text && $text != other && other != *$text && *$text != other);
        assert_eq!(AsRef::<str>::as_ref(&label), $text);
        assert_eq!(AsRef::<[u8]>::as_ref(&label), $text.as_bytes());
        assert_eq!(label.to_string(), $text);
        assert_eq!(format!("{label:>26}|{label:<26}|"), format!("{:>26}|{:<26}|", $text, $text));
        assert_eq!(format!("{label:?}"), $debug);
        assert_eq!(HashSet::from([label, other, label]).len(), 2);
    };
}

#[test]
fn labels_as_text() {
    try_as_text!(
        instant_label(-1),
        instant_label(0),
        "1969-12-31T23:59:59.999Z",
        "InstantLabel(\"1969-12-31T23:59:59.999Z\")"
    );
    try_as_text!(week_label(19487), week_label(0), "2023-W19-3", "WeekLabel(\"2023-W19-3\")");
    try_as_text!(position_label(4287767296), position_label(0), "1191:02:47.296", "PositionLabel(\"1191:02:47.296\")");
}
