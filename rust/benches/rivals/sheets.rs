//! Sheets: the bytes as slices, the numbers by `to_le_bytes` and `from_le_bytes`, the trailer tested by its three numbers; the
//! report with verdicts by our own checker of claims, so that only what is around them is compared.

use super::{returned, to_place};
use core::slice;
use ovenquill::raw;
use ovenquill::sheet::{Record, MAX_BYTES, MAX_RECORDS, RECORD_BYTES, RECORD_NUMBERS, REPORT_MAX_BYTES, TRAILER_BYTES};

/// A number's bytes.
const NUMBER: usize = size_of::<u32>();

#[inline(always)]
unsafe fn bytes<'a>(sheet: *const u8, length: usize) -> &'a [u8] {
    slice::from_raw_parts(sheet, length)
}

/// The note's length and the records of a sheet, or refusal 17.
#[inline(always)]
fn tested(sheet: &[u8]) -> Result<(usize, &[u8]), i64> {
    let (front, &[a, b, c, d, e, f, g, h, i, j, k, l]) = sheet.split_last_chunk::<TRAILER_BYTES>().ok_or(17)?;
    let [offset, records, length] =
        [[a, b, c, d], [e, f, g, h], [i, j, k, l]].map(|number| u32::from_le_bytes(number) as usize);
    if sheet.len() > MAX_BYTES || length != sheet.len() || records > MAX_RECORDS {
        return Err(17);
    }
    match front.get(offset..) {
        Some(rest) if rest.len() == records * RECORD_BYTES => Ok((offset, rest)),
        _ => Err(17),
    }
}

/// The record of so many bytes.
#[inline(always)]
fn record_of(bytes: &[u8; RECORD_BYTES]) -> Record {
    let mut numbers = [0; RECORD_NUMBERS];
    for (number, bytes) in numbers.iter_mut().zip(bytes.chunks_exact(NUMBER)) {
        *number = i64::from(u32::from_le_bytes([bytes[0], bytes[1], bytes[2], bytes[3]]));
    }
    let [a, b, d, m, c, k, t, bound] = numbers;
    Record { a, b, d, m, c, k, t, bound }
}

#[inline(never)]
pub unsafe extern "C" fn read(sheet: *const u8, length: usize, note_length: *mut i64) -> i64 {
    returned(tested(bytes(sheet, length)).map(|(offset, records)| {
        note_length.write(offset as i64);
        (records.len() / RECORD_BYTES) as i64
    }))
}

#[inline(never)]
pub unsafe extern "C" fn record(sheet: *const u8, length: usize, place: i64, record: *mut Record) -> i64 {
    let found = tested(bytes(sheet, length)).and_then(|(_, records)| {
        // A place below 0 is above every other as an unsigned number.
        if place as u64 >= (records.len() / RECORD_BYTES) as u64 {
            return Err(17);
        }
        records[place as usize * RECORD_BYTES..].first_chunk().map(record_of).ok_or(17)
    });
    to_place(record, found)
}

/// All records at once, of a sheet that is tested once.
#[inline(never)]
pub unsafe extern "C" fn all_records(sheet: *const u8, length: usize, list: *mut Record, list_length: usize) -> i64 {
    let list = slice::from_raw_parts_mut(list, list_length);
    returned(tested(bytes(sheet, length)).map(|(_, records)| {
        let each = records.chunks_exact(RECORD_BYTES).filter_map(|record| record.first_chunk());
        for (place, record) in list.iter_mut().zip(each) {
            *place = record_of(record);
        }
        (records.len() / RECORD_BYTES) as i64
    }))
}

#[inline(never)]
pub unsafe extern "C" fn write(
    note: *const u8,
    note_length: usize,
    numbers: *const u32,
    count: usize,
    out: *mut u8,
    length: usize,
) -> i64 {
    let (note, numbers) = (slice::from_raw_parts(note, note_length), slice::from_raw_parts(numbers, count));
    if count % RECORD_NUMBERS != 0 || count > MAX_RECORDS * RECORD_NUMBERS || note_length > MAX_BYTES {
        return -17;
    }
    let whole = note_length + count * NUMBER + TRAILER_BYTES;
    if whole > MAX_BYTES {
        return -17;
    }
    let Some(sheet) = slice::from_raw_parts_mut(out, length).get_mut(..whole) else { return -7 };
    let (front, rest) = sheet.split_at_mut(note_length);
    front.copy_from_slice(note);
    let (records, trailer) = rest.split_at_mut(count * NUMBER);
    for (bytes, number) in records.chunks_exact_mut(NUMBER).zip(numbers) {
        bytes.copy_from_slice(&number.to_le_bytes());
    }
    let numbers = [note_length, count / RECORD_NUMBERS, whole];
    for (bytes, number) in trailer.chunks_exact_mut(NUMBER).zip(numbers) {
        bytes.copy_from_slice(&(number as u32).to_le_bytes());
    }
    whole as i64
}

/// The bytes of the longest line.
const LINE: usize = "1023 10 4294967295\n".len();

/// A text that grows in a buffer with room for it.
struct Text<'a> {
    out: &'a mut [u8],
    length: usize,
}

impl Text<'_> {
    #[inline(always)]
    fn put(&mut self, text: &[u8]) {
        self.out[self.length..self.length + text.len()].copy_from_slice(text);
        self.length += text.len();
    }

    #[inline(always)]
    fn put_number(&mut self, mut number: u32) {
        let mut digits = [0; "4294967295".len()];
        let mut first = digits.len();
        loop {
            first -= 1;
            digits[first] = b'0' + (number % 10) as u8;
            number /= 10;
            if number == 0 {
                break;
            }
        }
        self.put(&digits[first..]);
    }

    /// The lines of a sheet's records.
    #[inline(always)]
    fn put_lines(&mut self, records: &[u8]) {
        let each = records.chunks_exact(RECORD_BYTES).filter_map(|record| record.first_chunk());
        for (place, record) in (0..).zip(each) {
            let Record { a, b, d, m, c, k, t, bound } = record_of(record);
            let mut least = 0;
            // SAFETY: the place is ours to lend.
            let verdict = unsafe { raw::ovenquill_check_bound(a, b, d, m, c, k, t, bound, &mut least) };
            self.put_number(place);
            match verdict {
                0 => self.put(b" accepted\n"),
                -9 => self.put(b" 9\n"),
                -10 => {
                    self.put(b" 10 ");
                    self.put_number(least as u32);
                    self.put(b"\n");
                }
                _ => self.put(b" 11\n"),
            }
        }
    }
}

/// Straight to the buffer where it has room for the longest lines, and else by a text of its own.
#[inline(never)]
pub unsafe extern "C" fn report(sheet: *const u8, length: usize, out: *mut u8, out_length: usize) -> i64 {
    let out = slice::from_raw_parts_mut(out, out_length);
    let records = match tested(bytes(sheet, length)) {
        Ok((_, records)) => records,
        Err(_) if out_length < 3 => return -7,
        Err(_) => {
            out[..3].copy_from_slice(b"17\n");
            return 3;
        }
    };
    if out_length >= records.len() / RECORD_BYTES * LINE {
        let mut text = Text { out, length: 0 };
        text.put_lines(records);
        return text.length as i64;
    }
    let mut own = [0; REPORT_MAX_BYTES];
    let mut text = Text { out: &mut own, length: 0 };
    text.put_lines(records);
    let length = text.length;
    match out.get_mut(..length) {
        Some(out) => {
            out.copy_from_slice(&own[..length]);
            length as i64
        }
        None => -7,
    }
}
