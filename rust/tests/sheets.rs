//! Sheets of constants: the writer, the reader, the verdicts and the report against a second implementation that reads a sheet by
//! trying every number of records (tests/support/plain_sheets.rs), and against the example of change request Nine.

mod support;

use ovenquill::sheet::{self, Contents, Record};
use ovenquill::{check_bound, Constants, Refusal};
use std::alloc::{alloc_zeroed, dealloc, Layout};
use std::slice;
use support::answer::Answer::{self, Refused, RefusedAt, Value};
use support::answer::{answer, Refusing};
use support::plain::{self, LARGEST, LAST_BOUND, LEAST};
use support::plain_sheets::{
    self, record_of, sheet_of, trailer, Numbers, MOST_BYTES, MOST_RECORDS, NUMBERS, RECORD_BYTES, TRAILER_BYTES,
};
use support::random::Random;
use support::{some_claim, with_guards};

// What is tried of one sheet, or of one note and list of numbers

/// Lends the call the same bytes twice: alone, and among others that begin and end as sheets do, at any alignment.
fn lend<T: PartialEq + std::fmt::Debug>(bytes: &[u8], call: impl Fn(&[u8]) -> T) -> T {
    let copy = bytes.to_vec();
    let alone = call(&copy);
    let before = &sheet_of(b"sheet", &[7; NUMBERS])[..37 + bytes.len() % 8];
    let mut around = [before, bytes].concat();
    around.extend(trailer(before.len(), 1, bytes.len() + RECORD_BYTES));
    assert_eq!(call(&around[before.len()..before.len() + bytes.len()]), alone, "among others and alone");
    alone
}

/// Places that a sheet with so many records has, and places that it does not have.
fn some_places(records: i64) -> Vec<i64> {
    let mut places: Vec<i64> = (-2..=3).chain(records - 2..=records + 2).chain([records / 2, 2 * records]).collect();
    // Numbers whose last bits, or those of 32 times them, are a place of the sheet.
    let last = records - 1;
    for power in [8, 16, 26, 27, 28, 31, 32, 58, 59, 60, 62] {
        places.extend([1 << power, (1 << power) + last, -(1 << power), last - (1 << power)]);
    }
    places.extend([i64::MIN, i64::MIN + 1, i64::MAX - 1, i64::MAX]);
    places
}

/// Reads any bytes in every way and holds each answer to the plain reader's. Answers whether they are a sheet.
fn try_reading(bytes: &[u8]) -> bool {
    let read = lend(bytes, |bytes| answer(sheet::read(bytes)));
    let parts = plain_sheets::parts(bytes);
    let count = parts.as_ref().map_or(0, |(_, records)| records.len() as i64);
    assert_eq!(read, plain_sheets::read(bytes), "{} bytes, the last {:?}", bytes.len(), bytes.last_chunk::<12>());
    for place in some_places(count) {
        let here = parts.as_ref().and_then(|(_, records)| records.get(usize::try_from(place).ok()?));
        let record = here.map_or(Refused(17), |&numbers| Value(record_of(numbers)));
        assert_eq!(lend(bytes, |bytes| answer(sheet::record(bytes, place))), record, "place {place} of {count}");
        let verdict = here.map_or(Refused(17), |&numbers| plain_sheets::verdict(numbers));
        assert_eq!(lend(bytes, |bytes| answer(sheet::check(bytes, place))), verdict, "place {place} of {count}");
    }
    match &parts {
        Some((note, records)) => {
            assert_eq!(sheet::note(bytes), Ok(*note));
            assert!(sheet::records(bytes).unwrap().eq(records.iter().copied().map(record_of)));
            // What is read is what its note and its records are written as.
            let mut again = vec![0; bytes.len()];
            assert_eq!(sheet::write(note, records.as_flattened(), &mut again), Ok(bytes.len()));
            assert!(again == bytes, "written again it is another");
        }
        None => {
            assert_eq!(sheet::note(bytes), Err(Refusal::MalformedSheet));
            assert_eq!(answer(sheet::records(bytes).map(|_| ())), Refused(17));
            try_report(bytes, 0..=6);
        }
    }
    parts.is_some()
}

/// A call that writes to a lent buffer.
fn try_buffer<E: Refusing>(
    what: &str,
    length: usize,
    ours: impl FnOnce(&mut [u8]) -> Result<usize, E>,
    plain: impl FnOnce(&mut [u8]) -> Answer<usize>,
) -> Answer<usize> {
    let fill = 0x80 | (length as u8); // no byte of a report
    let mut result = Refused(0);
    let bytes = with_guards(length, fill, |out| result = answer(ours(out)));
    let mut expected = vec![fill; length];
    assert_eq!(result, plain(&mut expected), "{what} to {length} bytes");
    assert!(bytes == expected, "{what} to {length} bytes: other bytes are written");
    result
}

/// Writes to a buffer of that length and holds the answer and every byte to the plain writer's.
fn try_writing(note: &[u8], numbers: &[u32], length: usize) -> Answer<usize> {
    try_buffer(
        &format!("a note of {} bytes and {} numbers", note.len(), numbers.len()),
        length,
        |out| sheet::write(note, numbers, out),
        |out| plain_sheets::write(note, numbers, out),
    )
}

/// Reports to buffers of these lengths and holds the answers and every byte to the plain report.
fn try_report(sheet: &[u8], lengths: impl IntoIterator<Item = usize>) {
    let text = plain_sheets::text(sheet);
    for length in lengths {
        try_buffer(
            &format!("the report {text:?}"),
            length,
            |out| sheet::report(sheet, out),
            |out| plain::put(text.as_bytes(), out),
        );
    }
}

/// The lengths around one.
fn around(length: usize) -> impl Iterator<Item = usize> {
    length.saturating_sub(9)..=length + 9
}

/// What the writer is to answer of a sheet, or of what is none, that has so many bytes.
fn due(no_sheet: bool, whole: usize, length: usize) -> Answer<usize> {
    match (no_sheet, length < whole) {
        (true, _) => Refused(17),
        (false, true) => Refused(7),
        (false, false) => Value(whole),
    }
}

// What is tried

/// A tenth by (26*n) >> 8, which goes wrong at 69 first.
const TENTH: Numbers = [1, 0, 10, 26, 0, 8, 0, 69];

fn with_bound(bound: u32) -> Numbers {
    let mut numbers = TENTH;
    numbers[7] = bound;
    numbers
}

fn some_bytes(random: &mut Random, length: usize) -> Vec<u8> {
    (0..length).map(|_| random.next() as u8).collect()
}

/// Any numbers, small ones as often as large ones.
fn some_numbers(random: &mut Random, count: usize) -> Vec<u32> {
    (0..count).map(|_| random.of_any_size(0, u32::MAX.into()) as u32).collect()
}

fn some_claims(random: &mut Random, count: usize) -> Vec<u32> {
    (0..count).flat_map(|_| some_claim(random)).collect()
}

/// A few sheets of different notes and numbers of records, all short.
fn short_sheets() -> Vec<Vec<u8>> {
    let mut random = Random::new(70);
    let mut sheets = Vec::new();
    for note_length in [0, 1, 2, 3, 4, 11, 12, 13, 31, 32, 33, 64] {
        for records in [0, 1, 2, 3, 8] {
            let note = some_bytes(&mut random, note_length);
            sheets.push(sheet_of(&note, &some_claims(&mut random, records)));
        }
    }
    sheets
}

/// The same sheet with other numbers in its trailer.
fn with_trailer(sheet: &[u8], numbers: [u32; 3]) -> Vec<u8> {
    let [offset, records, length] = numbers.map(|number| number as usize);
    let mut changed = sheet.to_vec();
    let end = changed.len();
    changed[end - TRAILER_BYTES..].copy_from_slice(&trailer(offset, records, length));
    changed
}

/// The numbers of the trailer of a sheet that is one.
fn trailer_of(sheet: &[u8]) -> [u32; 3] {
    let Contents { records, note_length } = plain_sheets::read(sheet).value();
    [note_length as u32, records as u32, sheet.len() as u32]
}

/// Whether a trailer of these numbers is that of a sheet of that length, in sums that do not wrap.
fn fits(numbers: [u32; 3], length: usize) -> bool {
    let [offset, records, said] = numbers.map(u128::from);
    said == length as u128 && length <= 65536 && records <= 1024 && offset + 32 * records + 12 == said
}

// The request's own words

#[test]
fn the_example_of_request_nine() {
    #[rustfmt::skip]
    let bytes: [u8; 76] = [
        1, 0, 0, 0, 0, 0, 0, 0, 10, 0, 0, 0, 26, 0, 0, 0, 0, 0, 0, 0, 8, 0, 0, 0, 0, 0, 0, 0, 69, 0, 0, 0,
        1, 0, 0, 0, 0, 0, 0, 0, 10, 0, 0, 0, 26, 0, 0, 0, 0, 0, 0, 0, 8, 0, 0, 0, 0, 0, 0, 0, 100, 0, 0, 0,
        0, 0, 0, 0, 2, 0, 0, 0, 76, 0, 0, 0,
    ];
    let claims = [TENTH, with_bound(100)];
    assert_eq!(sheet_of(b"", claims.as_flattened()), bytes);
    let mut written = [0xff; 78];
    assert_eq!(sheet::write(b"", claims.as_flattened(), &mut written), Ok(76));
    assert_eq!((&written[..76], &written[76..]), (&bytes[..], &[0xff; 2][..]));

    assert_eq!(sheet::read(&bytes), Ok(Contents { records: 2, note_length: 0 }));
    assert_eq!(sheet::record(&bytes, 0), Ok(Record { a: 1, b: 0, d: 10, m: 26, c: 0, k: 8, t: 0, bound: 69 }));
    assert_eq!(sheet::record(&bytes, 1), Ok(Record { a: 1, b: 0, d: 10, m: 26, c: 0, k: 8, t: 0, bound: 100 }));
    assert_eq!(sheet::record(&bytes, 2), Err(Refusal::MalformedSheet));
    assert_eq!(answer(sheet::check(&bytes, 0)), Value(()));
    assert_eq!(answer(sheet::check(&bytes, 1)), RefusedAt(10, 69));
    assert_eq!(answer(sheet::check(&bytes, 2)), Refused(17));

    let mut text = [b'?'; 20];
    assert_eq!(sheet::report(&bytes, &mut text), Ok(19));
    assert_eq!(&text, b"0 accepted\n1 10 69\n?");
    assert_eq!(plain_sheets::text(&bytes), "0 accepted\n1 10 69\n");
    assert!(try_reading(&bytes));
    try_report(&bytes, 0..=40);
}

#[test]
fn every_number_of_a_record_in_its_place() {
    // Every byte is another one, so that each must stand where it belongs.
    let mut sheet: Vec<u8> = (0..70).collect();
    sheet.extend([6, 0, 0, 0, 2, 0, 0, 0, 82, 0, 0, 0]);
    let number = |first: i64| first + 256 * (first + 1) + 65536 * (first + 2) + 16777216 * (first + 3);
    for (place, at) in [(0, 6), (1, 38)] {
        let [a, b, d, m, c, k, t, bound] = [0, 4, 8, 12, 16, 20, 24, 28].map(|byte| number(at + byte));
        assert_eq!(sheet::record(&sheet, place), Ok(Record { a, b, d, m, c, k, t, bound }));
    }
    assert_eq!(sheet::note(&sheet), Ok(&[0, 1, 2, 3, 4, 5][..]));
    assert!(try_reading(&sheet));
}

#[test]
fn limits_of_request_nine() {
    assert_eq!(sheet::MAX_BYTES, MOST_BYTES);
    assert_eq!(sheet::MAX_RECORDS, MOST_RECORDS);
    assert_eq!(sheet::RECORD_NUMBERS, NUMBERS);
    assert_eq!(sheet::RECORD_BYTES, RECORD_BYTES);
    assert_eq!(sheet::TRAILER_BYTES, TRAILER_BYTES);
}

#[test]
fn the_longest_report() {
    // ((2^32 - 1) * n + c) >> 32 is n up to n = c, and less above: no claim has a larger least n that is below its bound.
    let last = LAST_BOUND as u32;
    let claim = [1, 0, 1, u32::MAX, last - 2, 32, 0, last];
    let sheet = sheet_of(b"", &claim.repeat(MOST_RECORDS));
    let text = plain_sheets::text(&sheet);
    assert_eq!(text.lines().last(), Some(format!("1023 10 {}", last - 1).as_str()));
    assert_eq!(text.len(), sheet::REPORT_MAX_BYTES);
    try_report(&sheet, around(text.len()).chain([0, 1, MOST_BYTES]));
    // The same without a claim, or with one of them a digit shorter.
    try_report(&sheet_of(b"", &claim.repeat(MOST_RECORDS - 1)), around(text.len() - "1023 10 4294967293\n".len()));
    let mut shorter = claim.repeat(MOST_RECORDS);
    shorter[4 + NUMBERS * 700] = 99999998;
    try_report(&sheet_of(b"note", &shorter), around(text.len() - 2));
}

// Written and read back

#[test]
fn random_sheets_written_and_read() {
    let mut random = Random::new(71);
    for round in 0..4000 {
        let note_length = random.of_any_size(0, if round % 50 == 0 { 32000 } else { 200 }) as usize;
        let records = random.of_any_size(0, if round % 50 == 1 { 1024 } else { 20 }) as usize;
        let note = some_bytes(&mut random, note_length);
        let numbers = if round % 2 == 0 {
            some_numbers(&mut random, NUMBERS * records)
        } else {
            some_claims(&mut random, records)
        };
        let whole = note.len() + RECORD_BYTES * records + TRAILER_BYTES;
        for length in [whole, whole + 1 + round % 40] {
            assert_eq!(try_writing(&note, &numbers, length), Value(whole));
        }
        try_writing(&note, &numbers, random.within(0, whole as i64 - 1) as usize);

        let mut sheet = vec![0; whole];
        assert_eq!(sheet::write(&note, &numbers, &mut sheet), Ok(whole));
        assert_eq!(sheet::read(&sheet), Ok(Contents { records: records as i64, note_length: note.len() }));
        assert_eq!(sheet::note(&sheet), Ok(&note[..]));
        for (place, record) in numbers.chunks_exact(NUMBERS).enumerate() {
            let record: Numbers = record.try_into().unwrap();
            assert_eq!(sheet::record(&sheet, place as i64), Ok(record_of(record)));
        }
        assert!(try_reading(&sheet));
    }
}

#[test]
fn buffers_of_every_length() {
    let mut random = Random::new(72);
    for note_length in [0, 1, 5, 12, 32, 63] {
        for records in [0, 1, 2, 5] {
            let note = some_bytes(&mut random, note_length);
            let numbers = some_numbers(&mut random, NUMBERS * records);
            let whole = note_length + RECORD_BYTES * records + TRAILER_BYTES;
            for length in 0..=whole + 40 {
                assert_eq!(try_writing(&note, &numbers, length), due(false, whole, length));
            }
        }
    }
    // Far longer ones, whose lengths end in the bits of a length that is too short or long enough.
    let numbers = some_numbers(&mut random, 2 * NUMBERS);
    for length in [255, 256, 332, 65536, 65536 + 75, 65536 + 76, 131072, 1 << 20] {
        assert_eq!(try_writing(b"", &numbers, length), Value(76));
    }
}

#[test]
fn sheets_at_every_alignment() {
    let mut random = Random::new(73);
    let numbers = some_claims(&mut random, 3);
    for note_length in 0..=40 {
        let note = some_bytes(&mut random, note_length);
        let sheet = sheet_of(&note, &numbers);
        for shift in 0..16 {
            let mut bytes = vec![0x55; shift];
            bytes.extend(&sheet);
            let mut out = vec![0xaa; shift + sheet.len() + 3];
            assert_eq!(sheet::write(&note, &numbers, &mut out[shift..]), Ok(sheet.len()));
            assert_eq!(out[shift..][..sheet.len()], sheet);
            assert!(out[..shift].iter().chain(&out[shift + sheet.len()..]).all(|&byte| byte == 0xaa));
            assert_eq!(sheet::note(&bytes[shift..]), Ok(&note[..]));
            for place in 0..3 {
                let lent = &bytes[shift..];
                assert_eq!(answer(sheet::record(lent, place)), plain_sheets::record(&sheet, place));
                assert_eq!(answer(sheet::check(lent, place)), plain_sheets::check(&sheet, place));
            }
        }
    }
}

// What is no sheet, to the writer

#[test]
fn part_records_and_too_many() {
    let mut random = Random::new(74);
    let numbers = some_numbers(&mut random, 8300);
    for note_length in [0, 1, 32764, 32765, 65524, 65525] {
        let note = some_bytes(&mut random, note_length);
        for count in (0..=25).chain(8183..=8210).chain([4092, 4096, 8256, 8300]) {
            let whole = note_length + 4 * count + TRAILER_BYTES;
            let refused = count % 8 != 0 || count > 8192 || whole > 65536;
            for length in [0, 11, 12, whole - 1, whole, 65536, 131072] {
                assert_eq!(try_writing(&note, &numbers[..count], length), due(refused, whole, length));
            }
        }
    }
}

#[test]
fn the_most_bytes_and_one_more_are_written_and_refused() {
    let mut random = Random::new(75);
    let numbers = some_numbers(&mut random, NUMBERS * MOST_RECORDS);
    let note = some_bytes(&mut random, 1 << 18);
    for records in [0, 1, 2, 511, 1023, 1024] {
        let numbers = &numbers[..NUMBERS * records];
        let most = MOST_BYTES - TRAILER_BYTES - RECORD_BYTES * records;
        for note_length in around(most).chain([65535, 65536, 65537, 65536 + most, 131072, 131072 - 12, 1 << 18]) {
            let whole = note_length + RECORD_BYTES * records + TRAILER_BYTES;
            for length in [0, whole - 1, whole, whole + 1, 65535, 65536, 65537] {
                let expected = due(whole > MOST_BYTES, whole, length);
                assert_eq!(try_writing(&note[..note_length], numbers, length), expected);
            }
        }
    }
}

// What is no sheet, to the reader

#[test]
fn every_trailer_of_short_bytes() {
    let mut random = Random::new(76);
    let bytes = some_bytes(&mut random, 120);
    let mut sheets = 0;
    for length in 0..=120usize {
        for offset in 0..=121 {
            for records in 0..=4 {
                for said in [length, length + 1, length.wrapping_sub(1), length + 12, length + 32] {
                    let last = trailer(offset, records, said & 0xffff_ffff);
                    let front = &bytes[..length.saturating_sub(TRAILER_BYTES)];
                    let whole = [front, &last[TRAILER_BYTES - length.min(TRAILER_BYTES)..]].concat();
                    let read = sheet::read(&whole);
                    assert_eq!(answer(read), plain_sheets::read(&whole), "{whole:?}");
                    sheets += usize::from(read.is_ok());
                }
            }
        }
    }
    // A sheet for each length from 12 on and each number of records for which there is room.
    assert_eq!(sheets, (12..=120).map(|length| 1 + (length - 12) / 32).sum::<usize>());
}

#[test]
fn each_byte_of_the_trailer_changed() {
    for sheet in short_sheets() {
        assert!(try_reading(&sheet));
        for place in sheet.len() - TRAILER_BYTES..sheet.len() {
            let mut changed = sheet.clone();
            for byte in 0..=255 {
                changed[place] = byte;
                assert_eq!(sheet::read(&changed).is_ok(), byte == sheet[place], "byte {place} of {sheet:?} is {byte}");
            }
        }
    }
}

#[test]
fn each_number_of_the_trailer_changed() {
    let mut random = Random::new(77);
    let long = [
        sheet_of(&some_bytes(&mut random, 1000), &some_numbers(&mut random, NUMBERS * 100)),
        sheet_of(&some_bytes(&mut random, 100), &some_numbers(&mut random, NUMBERS * MOST_RECORDS)),
        sheet_of(&some_bytes(&mut random, MOST_BYTES - TRAILER_BYTES), &[]),
        sheet_of(&some_bytes(&mut random, 32756), &some_numbers(&mut random, NUMBERS * MOST_RECORDS)),
    ];
    for sheet in short_sheets().into_iter().chain(long) {
        let right = trailer_of(&sheet);
        for place in 0..3 {
            let number = right[place];
            let mut others = vec![0, 1, 12, 32, 1 << 31, u32::MAX - 12, u32::MAX - 1, u32::MAX, number.swap_bytes()];
            others.extend([right[(place + 1) % 3], right[(place + 2) % 3]]);
            for step in [1, 2, 3, 4, 8, 12, 31, 32, 33, 64, 1024, 32768, 65536, 1 << 24, 1 << 27, 1 << 31] {
                others.extend([number.wrapping_add(step), number.wrapping_sub(step)]);
            }
            for other in others.into_iter().filter(|&other| other != number) {
                let mut numbers = right;
                numbers[place] = other;
                assert!(!try_reading(&with_trailer(&sheet, numbers)), "{right:?} as {numbers:?}");
            }
        }
        // The highest byte first, in the trailer alone.
        assert!(!try_reading(&with_trailer(&sheet, right.map(u32::swap_bytes))));
    }
}

#[test]
fn two_numbers_of_the_trailer_changed() {
    // Each pair moved so that one of the rules still holds: the sum of offset and records, or the two lengths.
    for sheet in short_sheets() {
        let right @ [offset, records, length] = trailer_of(&sheet);
        for step in [1u32, 2, 3, 100, 1023, 1024, 1025, 1 << 16, 1 << 26, 1 << 27, 1 << 28, 1 << 31] {
            let bytes = step.wrapping_mul(32);
            for numbers in [
                [offset.wrapping_sub(bytes), records.wrapping_add(step), length],
                [offset.wrapping_add(bytes), records.wrapping_sub(step), length],
                [offset, records.wrapping_add(step), length.wrapping_add(bytes)],
                [offset, records.wrapping_sub(step), length.wrapping_sub(bytes)],
                [offset.wrapping_add(step), records, length.wrapping_add(step)],
                [offset.wrapping_sub(step), records, length.wrapping_sub(step)],
            ] {
                // Some fit: more or fewer records, where the note has room for them.
                let is_sheet = try_reading(&with_trailer(&sheet, numbers));
                assert_eq!(is_sheet, fits(numbers, sheet.len()), "{right:?} as {numbers:?}");
            }
        }
    }
}

#[test]
fn sums_that_wrap_in_32_bits() {
    let mut random = Random::new(78);
    let bytes = some_bytes(&mut random, 65536);
    for length in [12, 13, 43, 44, 45, 76, 108, 1000, 32780, 32812, 65535, 65536] {
        let front = &bytes[..length - TRAILER_BYTES];
        let lengths = [length, 12, 0, 1 << 16, 1 << 31].map(|said| said as u32);
        let mut tried = Vec::new();
        // Records whose bytes wrap around to those of fewer, and records for which the offset wraps around to below 0.
        for fewer in [0, 1, 2, 1023, 1024] {
            for wraps in 1..=31u32 {
                let records = (wraps << 27).wrapping_add(fewer);
                tried.push([(length as u32 - 12).wrapping_sub(fewer * 32), records, length as u32]);
            }
        }
        for records in (1..=1025).filter(|records| records * 32 + 12 > length as u32) {
            tried.push([(length as u32 - 12).wrapping_sub(records * 32), records, length as u32]);
        }
        for said in lengths {
            tried.extend([
                [said.wrapping_sub(12), 0, said],
                [said.wrapping_sub(44), 1, said],
                [u32::MAX, u32::MAX, u32::MAX],
                [u32::MAX - 11, 0, 0],
                [said.wrapping_sub(12), u32::MAX, said],
            ]);
        }
        for numbers @ [offset, records, said] in tried {
            let last = trailer(offset as usize, records as usize, said as usize);
            let whole = [front, &last].concat();
            let read = sheet::read(&whole);
            assert_eq!(read.is_ok(), fits(numbers, length), "{length} bytes with {numbers:?}");
            assert_eq!(answer(read), plain_sheets::read(&whole), "{length} bytes with {numbers:?}");
            if read.is_err() {
                assert_eq!(sheet::record(&whole, 0), Err(Refusal::MalformedSheet));
                assert_eq!(answer(sheet::check(&whole, 0)), Refused(17));
                try_report(&whole, [2, 3]);
            }
        }
    }
}

#[test]
fn cut_lengthened_and_with_a_gap() {
    for sheet in short_sheets() {
        let right @ [offset, records, length] = trailer_of(&sheet);
        for end in 0..=sheet.len() {
            assert_eq!(try_reading(&sheet[..end]), end == sheet.len(), "cut to {end} of {right:?}");
            assert_eq!(try_reading(&sheet[sheet.len() - end..]), end == sheet.len(), "the last {end} of {right:?}");
        }
        for more in [1, 2, 4, 11, 12, 31, 32, 33, 44, 64] {
            let gap = vec![0; more];
            let (front, last) = sheet.split_at(sheet.len() - TRAILER_BYTES);
            let (note, rest) = front.split_at(offset as usize);
            let longer = length + more as u32;
            for (parts, offsets) in [
                // Before the note, behind it, behind the records and behind the trailer.
                ([&gap, note, rest, last], vec![offset]),
                ([note, &gap, rest, last], vec![offset]),
                ([note, rest, &gap, last], vec![offset, offset + more as u32]),
                ([note, rest, last, &gap], vec![offset]),
            ] {
                let whole = parts.concat();
                assert!(!try_reading(&whole), "{more} bytes more than {right:?}");
                // The same with the right length, and with the gap in front of or behind the records.
                for offset in offsets {
                    let changed = with_trailer(&whole, [offset, records, longer]);
                    let gap_is_note = offset as usize + RECORD_BYTES * records as usize == whole.len() - TRAILER_BYTES;
                    assert_eq!(try_reading(&changed), gap_is_note, "{more} bytes more than {right:?}, from {offset}");
                }
            }
        }
    }
}

#[test]
fn the_most_records_and_one_more_are_read_and_refused() {
    let mut random = Random::new(79);
    let numbers = some_numbers(&mut random, NUMBERS * 2044);
    for note_length in [0, 1, 32] {
        let note = some_bytes(&mut random, note_length);
        for records in [1022, 1023, 1024, 1025, 1026, 1280, 2040] {
            let sheet = sheet_of(&note, &numbers[..NUMBERS * records]);
            assert_eq!(try_reading(&sheet), records <= MOST_RECORDS, "{records} records");
            let fewer = records.min(MOST_RECORDS);
            let said = with_trailer(
                &sheet,
                [(sheet.len() - TRAILER_BYTES - RECORD_BYTES * fewer) as u32, fewer as u32, sheet.len() as u32],
            );
            assert!(try_reading(&said), "the last {fewer} of {records} as records");
        }
    }
}

#[test]
fn the_most_bytes_and_one_more_are_read_and_refused() {
    let mut random = Random::new(80);
    let numbers = some_numbers(&mut random, NUMBERS * MOST_RECORDS);
    let note = some_bytes(&mut random, 1 << 18);
    for records in [0, 1, 2, 1023, 1024] {
        let most = MOST_BYTES - TRAILER_BYTES - RECORD_BYTES * records;
        for note_length in around(most).chain([65536, 65536 + most, 131072 - 12, 1 << 17]) {
            let sheet = sheet_of(&note[..note_length], &numbers[..NUMBERS * records]);
            assert_eq!(try_reading(&sheet), sheet.len() <= MOST_BYTES, "{} bytes", sheet.len());
            if sheet.len() > MOST_BYTES {
                // The length said to be what the last 16 bits of it are, or the most.
                for said in [sheet.len() as u16 as usize, MOST_BYTES] {
                    let changed = with_trailer(&sheet, [note_length as u32, records as u32, said as u32]);
                    assert!(!try_reading(&changed), "{} bytes said to be {said}", sheet.len());
                }
            }
        }
        // The longest sheet, with more bytes behind it.
        let mut sheet = sheet_of(&note[..most], &numbers[..NUMBERS * records]);
        for more in [1, 12, 32, 65536] {
            sheet.resize(MOST_BYTES + more, 0);
            assert!(!try_reading(&sheet), "{more} bytes behind a sheet");
        }
    }
}

#[test]
fn lengths_of_more_than_32_bits() {
    // Zeros, of which the machine needs to have only the few that are looked at; where it does not lend them nothing is tried.
    const BYTES: usize = (1 << 32) + 4096;
    let layout = Layout::from_size_align(BYTES, align_of::<u32>()).unwrap();
    // SAFETY: the layout has a size; the zeros are lent to nobody else and given back at the end.
    let zeros = unsafe { alloc_zeroed(layout) };
    if zeros.is_null() {
        eprintln!("no {BYTES} bytes to lend: lengths of more than 32 bits are not tried");
        return;
    }
    let bytes = unsafe { slice::from_raw_parts_mut(zeros, BYTES) };
    let short = sheet_of(b"note", TENTH.as_slice());
    bytes[..short.len()].copy_from_slice(&short);
    let long = (1 << 32) + short.len();
    bytes[long - TRAILER_BYTES..long].copy_from_slice(&trailer(4, 1, short.len()));
    for length in [1 << 32, (1 << 32) + 12, long] {
        assert_eq!(sheet::read(&bytes[..length]), Err(Refusal::MalformedSheet));
        assert_eq!(sheet::record(&bytes[..length], 0), Err(Refusal::MalformedSheet));
        assert_eq!(answer(sheet::check(&bytes[..length], 0)), Refused(17));
        try_buffer(
            "a far too long sheet",
            40,
            |out| sheet::report(&bytes[..length], out),
            |out| plain::put(b"17\n", out),
        );
        let written = |out: &mut [u8]| sheet::write(&bytes[..length], &TENTH, out);
        assert_eq!(try_buffer("a far too long note", 200, written, |_| Refused(17)), Refused(17));
    }
    // 2^30 numbers have 2^32 bytes.
    let numbers = unsafe { slice::from_raw_parts(zeros.cast::<u32>(), (1 << 30) + NUMBERS) };
    for count in [1 << 30, (1 << 30) + NUMBERS] {
        let written = |out: &mut [u8]| sheet::write(b"note", &numbers[..count], out);
        assert_eq!(try_buffer("far too many records", 200, written, |_| Refused(17)), Refused(17));
    }
    // SAFETY: this is what was given, and it is no longer lent.
    unsafe { dealloc(zeros, layout) };
}

#[test]
fn a_note_that_looks_like_a_trailer() {
    let mut random = Random::new(81);
    let inner = sheet_of(b"inner", &some_claims(&mut random, 2));
    let claims = some_claims(&mut random, 3);
    let behind = claims.len() * 4 + TRAILER_BYTES;
    let notes = [
        inner.clone(),
        trailer(0, 0, 12).to_vec(),
        // The trailer of the whole sheet, and those that would fit if the note ended the sheet or were left out.
        trailer(12, 3, 12 + behind).to_vec(),
        trailer(0, 3, behind).to_vec(),
        [&inner[..], &trailer(inner.len(), 0, inner.len() + 12)].concat(),
    ];
    for note in notes {
        let sheet = sheet_of(&note, &claims);
        assert!(try_reading(&sheet));
        assert_eq!(sheet::note(&sheet), Ok(&note[..]));
        assert_eq!(try_writing(&note, &claims, sheet.len()), Value(sheet.len()));
        for end in 0..=sheet.len() {
            try_reading(&sheet[..end]);
        }
    }
    // Records that look like a trailer: that of the whole sheet, and that of the sheet without its own one.
    for last in [[0, 1, 44], [0, 0, 32], [20, 0, 32], [0, 1, 32]] {
        let record: Vec<u32> = [9; 5].into_iter().chain(last).collect();
        let sheet = sheet_of(b"", &record);
        assert!(try_reading(&sheet));
        assert_eq!(sheet::record(&sheet, 0), Ok(record_of(record.try_into().unwrap())));
    }
}

#[test]
fn any_bytes() {
    let mut random = Random::new(82);
    for round in 0..20_000 {
        let length = random.of_any_size(0, 300) as usize;
        let mut bytes = some_bytes(&mut random, length);
        if round % 2 == 0 && length >= TRAILER_BYTES {
            // A trailer of numbers that often fit.
            let records = random.within(0, 4) as usize;
            let [any_offset, any_length] = [300, 300].map(|last| random.within(0, last) as usize);
            let offset = random.choose(&[length.saturating_sub(12 + 32 * records), any_offset]);
            let said = random.choose(&[length, length, length, any_length]);
            bytes[length - TRAILER_BYTES..].copy_from_slice(&trailer(offset, records, said));
        }
        try_reading(&bytes);
    }
}

// Records and their verdicts

#[test]
fn no_record_at_any_other_place() {
    let mut random = Random::new(83);
    for records in [0, 1, 2, 3, 255, 256, 1024] {
        let numbers = some_claims(&mut random, records);
        let sheet = sheet_of(b"some note", &numbers);
        for place in support::powers().into_iter().chain(-3..=1030) {
            let here = usize::try_from(place).ok().filter(|&place| place < records);
            let expected = here.map(|place| numbers[NUMBERS * place..][..NUMBERS].try_into().unwrap());
            assert_eq!(sheet::record(&sheet, place), expected.map(record_of).ok_or(Refusal::MalformedSheet), "{place}");
            if here.is_none() {
                assert_eq!(answer(sheet::check(&sheet, place)), Refused(17), "{place}");
            }
        }
    }
}

#[test]
fn verdicts_of_random_claims() {
    let mut random = Random::new(84);
    let mut seen = [0; 4];
    for _ in 0..300 {
        let claims = some_claims(&mut random, 100);
        let sheet = sheet_of(b"claims", &claims);
        for (place, record) in claims.chunks_exact(NUMBERS).enumerate() {
            let expected = plain_sheets::verdict(record.try_into().unwrap());
            assert_eq!(answer(sheet::check(&sheet, place as i64)), expected, "{record:?}");
            seen[match expected {
                Value(()) => 0,
                Refused(9) => 1,
                RefusedAt(10, _) => 2,
                _ => 3,
            }] += 1;
        }
    }
    assert!(seen.iter().all(|&times| times > 3_000), "accepted, refused by 9, by 10 and by 11: {seen:?}");
}

#[test]
fn every_limit_in_a_record() {
    let q = LEAST;
    let least = [q.a, q.b, q.d, q.m, q.c, q.k, q.t, 0];
    let q = LARGEST;
    let largest = [q.a, q.b, q.d, q.m, q.c, q.k, q.t, LAST_BOUND];
    for place in 0..NUMBERS {
        for number in [least[place] - 1, least[place], largest[place], largest[place] + 1, u32::MAX.into()] {
            let Ok(number) = u32::try_from(number) else { continue };
            let mut claim = TENTH;
            claim[place] = number;
            let sheet = sheet_of(b"", &claim);
            assert_eq!(answer(sheet::check(&sheet, 0)), plain_sheets::verdict(claim), "{claim:?}");
            try_report(&sheet, 0..=20);
        }
    }
}

#[test]
fn a_record_and_its_neighbours() {
    // Each claim has another least n, so that none may have that of another record.
    let bounds = [100, 69, 10, 1000, 68];
    let multipliers = [26, 26, 25, 6554, 26];
    let shifts = [8, 8, 8, 16, 8];
    let claims: Vec<Numbers> = (0..5).map(|i| [1, 0, 10, multipliers[i], 0, shifts[i], 0, bounds[i]]).collect();
    for turn in 0..5 {
        let mut claims = claims.clone();
        claims.rotate_left(turn);
        let sheet = sheet_of(b"", claims.as_flattened());
        let lines = ["10 69", "accepted", "accepted", "11", "11"];
        let text: String = (0..5).map(|place| format!("{place} {}\n", lines[(place + turn) % 5])).collect();
        assert_eq!(plain_sheets::text(&sheet), text);
        assert!(try_reading(&sheet));
        try_report(&sheet, 0..=text.len() + 3);
    }
}

#[test]
fn records_in_order_and_by_themselves() {
    let mut random = Random::new(85);
    for count in [0, 1, 2, 100, 1024] {
        let numbers = some_numbers(&mut random, NUMBERS * count);
        let sheet = sheet_of(b"note", &numbers);
        let records: Vec<Record> = numbers.chunks_exact(NUMBERS).map(|x| record_of(x.try_into().unwrap())).collect();
        let mut left = sheet::records(&sheet).unwrap();
        for (place, &record) in records.iter().enumerate() {
            assert_eq!((left.len(), left.size_hint()), (count - place, (count - place, Some(count - place))));
            assert_eq!(left.next(), Some(record));
        }
        assert_eq!((left.len(), left.next(), left.next()), (0, None, None));
        assert_eq!(sheet::records(&sheet).unwrap().collect::<Vec<_>>(), records);
        // Read and written again by their numbers.
        let again: Vec<Numbers> = records.iter().map(|record| record.numbers().unwrap()).collect();
        assert_eq!(again.as_flattened(), numbers);
    }
    for numbers in (0..1000).map(|_| some_claim(&mut random)) {
        let record = Record::from(numbers);
        assert_eq!(record, record_of(numbers));
        let [a, b, d, m, c, k, t, bound] = numbers.map(i64::from);
        assert_eq!(record.constants(), Constants { a, b, d, m, c, k, t });
        assert_eq!(record.check(), check_bound(record.constants(), bound));
        assert_eq!(answer(record.check()), plain_sheets::verdict(numbers));
    }
    let record = record_of(TENTH);
    for outside in [i64::MIN, -1, 1 << 32, (1 << 32) + 1, i64::MAX] {
        for other in [
            Record { a: outside, ..record },
            Record { b: outside, ..record },
            Record { d: outside, ..record },
            Record { m: outside, ..record },
            Record { c: outside, ..record },
            Record { k: outside, ..record },
            Record { t: outside, ..record },
            Record { bound: outside, ..record },
        ] {
            assert_eq!(other.numbers(), None);
            assert_eq!(answer(other.check()), Refused(9));
        }
    }
}

// Reports

#[test]
fn reports_of_random_claims() {
    let mut random = Random::new(86);
    for round in 0..300 {
        let records = if round % 30 == 0 { MOST_RECORDS } else { random.of_any_size(0, 130) as usize };
        let sheet = sheet_of(b"report", &some_claims(&mut random, records));
        let length = plain_sheets::text(&sheet).len();
        let far = [0, length / 2, length + 100, sheet::REPORT_MAX_BYTES, MOST_BYTES + length];
        try_report(&sheet, around(length).chain(far));
    }
}

#[test]
fn reports_to_buffers_of_every_length() {
    let mut random = Random::new(87);
    for records in [1, 2, 3, 9, 10, 11, 12, 101] {
        let sheet = sheet_of(b"", &some_claims(&mut random, records));
        try_report(&sheet, 0..=plain_sheets::text(&sheet).len() + 20);
    }
}

#[test]
fn places_and_least_inputs_of_every_length() {
    // A claim whose least n is the given one: n up to c is right, and the next one wrong.
    let claim = |least: u32| [1, 0, 1, u32::MAX, least - 1, 32, 0, LAST_BOUND as u32];
    let mut leasts = Vec::new();
    for digits in 0..10 {
        let power = 10u32.pow(digits);
        leasts.extend([power.saturating_sub(1), power, power + 1, 2 * power, power + power / 2]);
    }
    leasts.extend([4294967292, 4294967293, 65535, 65536, 2147483647, 2147483648]);
    leasts.retain(|&least| least > 0);
    let claims: Vec<Numbers> = leasts.iter().map(|&least| claim(least)).collect();
    let sheet = sheet_of(b"", claims.as_flattened());
    let text: String = leasts.iter().enumerate().map(|(place, least)| format!("{place} 10 {least}\n")).collect();
    assert_eq!(plain_sheets::text(&sheet), text);
    try_report(&sheet, around(text.len()));
    // A least n of 0, and each kind of line at every place.
    let at_0 = [1, 0, 1, 1, 1, 0, 0, 1];
    assert_eq!(plain_sheets::verdict(at_0), RefusedAt(10, 0));
    for kind in [TENTH, with_bound(70), with_bound(68), with_bound(u32::MAX), at_0] {
        let sheet = sheet_of(b"", &kind.repeat(MOST_RECORDS));
        try_report(&sheet, around(plain_sheets::text(&sheet).len()));
    }
}

#[test]
fn reports_of_no_sheet_and_of_no_records() {
    let mut random = Random::new(88);
    for length in (0..=60).chain([76, 1000, 65535, 65536, 65537, 100_000]) {
        let bytes = some_bytes(&mut random, length);
        assert_eq!(plain_sheets::text(&bytes), "17\n");
        try_report(&bytes, (0..=20).chain([sheet::REPORT_MAX_BYTES]));
    }
    for note_length in [0, 1, 12, 32, 65523, 65524] {
        let sheet = sheet_of(&some_bytes(&mut random, note_length), &[]);
        assert_eq!(sheet::read(&sheet), Ok(Contents { records: 0, note_length }));
        assert_eq!(sheet::report(&sheet, &mut []), Ok(0));
        try_report(&sheet, 0..=20);
        // With no records, the offset must still be the trailer's place.
        for offset in [0, 1, 12, note_length + 1, note_length.wrapping_sub(1) & 0xffff_ffff, note_length + 12] {
            let changed = with_trailer(&sheet, [offset as u32, 0, sheet.len() as u32]);
            assert_eq!(try_reading(&changed), offset == note_length, "{offset} of {note_length}");
        }
    }
}
