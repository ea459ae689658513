//! Change request Nine in plain Rust, written from its text and sharing nothing with the library but the types of records and of
//! a sheet's contents. A sheet is read by trying every number of records that it may have: its last bytes must be the trailer
//! that a sheet of that length with so many records ends with. Numbers go by their digits to the base 256, verdicts by the
//! claims of plain.rs, and lines by `format!`.

use super::answer::Answer::{self, Refused, RefusedAt, Value};
use super::plain;
use ovenquill::sheet::{Contents, Record};

pub const MOST_BYTES: usize = 65536;
pub const MOST_RECORDS: usize = 1024;
pub const NUMBERS: usize = 8;
pub const RECORD_BYTES: usize = 32;
pub const TRAILER_BYTES: usize = 12;

/// The numbers of a record: a, b, d, m, c, k, t and the claimed bound.
pub type Numbers = [u32; NUMBERS];

/// A number's digits to the base 256, the lowest first.
fn digits(number: usize) -> [u8; 4] {
    assert!(number < 1 << 32, "{number} has no four digits");
    [number % 256, number / 256 % 256, number / 65536 % 256, number / 16777216].map(|digit| digit as u8)
}

fn number(digits: &[u8]) -> u32 {
    digits.iter().rev().fold(0, |number, &digit| 256 * number + u32::from(digit))
}

pub fn trailer(offset: usize, records: usize, length: usize) -> [u8; TRAILER_BYTES] {
    let mut trailer = [0; TRAILER_BYTES];
    for (place, digit) in [offset, records, length].into_iter().flat_map(digits).enumerate() {
        trailer[place] = digit;
    }
    trailer
}

/// The bytes of a note, of numbers, and of a trailer that fits them, however many there are.
pub fn sheet_of(note: &[u8], numbers: &[u32]) -> Vec<u8> {
    let mut sheet = note.to_vec();
    sheet.extend(numbers.iter().flat_map(|&number| digits(number as usize)));
    let whole = sheet.len() + TRAILER_BYTES;
    sheet.extend(trailer(note.len(), numbers.len() / NUMBERS, whole));
    sheet
}

/// The note and the records of a sheet; nothing where the bytes are none.
pub fn parts(sheet: &[u8]) -> Option<(&[u8], Vec<Numbers>)> {
    if sheet.len() < TRAILER_BYTES || sheet.len() > MOST_BYTES {
        return None;
    }
    let (front, last) = sheet.split_at(sheet.len() - TRAILER_BYTES);
    let mut fitting =
        (0..=MOST_RECORDS).filter(|records| records * RECORD_BYTES <= front.len()).filter_map(|records| {
            let (note, rest) = front.split_at(front.len() - records * RECORD_BYTES);
            (last == trailer(note.len(), records, sheet.len())).then_some((note, rest))
        });
    let (note, rest) = fitting.next()?;
    assert_eq!(fitting.next(), None, "two numbers of records fit");
    let numbers: Vec<u32> = rest.chunks(4).map(number).collect();
    Some((note, numbers.chunks(NUMBERS).map(|record| record.try_into().expect("eight numbers")).collect()))
}

pub fn read(sheet: &[u8]) -> Answer<Contents> {
    match parts(sheet) {
        Some((note, records)) => Value(Contents { records: records.len() as i64, note_length: note.len() }),
        None => Refused(17),
    }
}

pub fn record_of([a, b, d, m, c, k, t, bound]: Numbers) -> Record {
    Record {
        a: a.into(),
        b: b.into(),
        d: d.into(),
        m: m.into(),
        c: c.into(),
        k: k.into(),
        t: t.into(),
        bound: bound.into(),
    }
}

/// The numbers at a place, where there is a record.
fn at(records: &[Numbers], place: i64) -> Option<Numbers> {
    (0..).zip(records).find(|&(number, _)| number == place).map(|(_, &numbers)| numbers)
}

pub fn record(sheet: &[u8], place: i64) -> Answer<Record> {
    match parts(sheet).and_then(|(_, records)| at(&records, place)) {
        Some(numbers) => Value(record_of(numbers)),
        None => Refused(17),
    }
}

/// What the checker says of a record's claim.
pub fn verdict(numbers: Numbers) -> Answer<()> {
    let [a, b, d, m, c, k, t, bound] = numbers.map(i64::from);
    plain::claim(ovenquill::Constants { a, b, d, m, c, k, t }, bound, plain::walk)
}

pub fn check(sheet: &[u8], place: i64) -> Answer<()> {
    match parts(sheet).and_then(|(_, records)| at(&records, place)) {
        Some(numbers) => verdict(numbers),
        None => Refused(17),
    }
}

pub fn write(note: &[u8], numbers: &[u32], out: &mut [u8]) -> Answer<usize> {
    let whole_records = numbers.chunks(NUMBERS).all(|record| record.len() == NUMBERS);
    if !whole_records || numbers.len() / NUMBERS > MOST_RECORDS || note.len() > MOST_BYTES {
        return Refused(17);
    }
    let sheet = sheet_of(note, numbers);
    if sheet.len() > MOST_BYTES {
        return Refused(17);
    }
    plain::put(&sheet, out)
}

/// The lines that are printed for a sheet.
pub fn text(sheet: &[u8]) -> String {
    let Some((_, records)) = parts(sheet) else { return "17\n".into() };
    let line = |(place, &numbers): (usize, &Numbers)| match verdict(numbers) {
        Value(()) => format!("{place} accepted\n"),
        Refused(number) => format!("{place} {number}\n"),
        RefusedAt(number, least) => format!("{place} {number} {least}\n"),
    };
    records.iter().enumerate().map(line).collect()
}

pub fn report(sheet: &[u8], out: &mut [u8]) -> Answer<usize> {
    plain::put(text(sheet).as_bytes(), out)
}
