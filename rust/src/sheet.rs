//! Sheets: claims about constants that are sent by file, written, read and checked.
//!
//! A sheet is a note, which may be any bytes and none; then its records, [`RECORD_BYTES`] each, without a gap; and a trailer
//! of [`TRAILER_BYTES`] that ends it. A record is the eight numbers of a [`Record`]. The trailer is three numbers: where the
//! first record begins, which is the note's length, how many records there are, and the length of the whole sheet. Every
//! number has four bytes, the lowest first. A sheet has at most [`MAX_BYTES`] bytes and at most [`MAX_RECORDS`] records, and
//! may have none. Places of records are counted from 0.
//!
//! ```
//! use ovenquill::{sheet, Refusal};
//!
//! let tenths = [[1, 0, 10, 26, 0, 8, 0, 69], [1, 0, 10, 26, 0, 8, 0, 100]];
//! let mut bytes = [0; sheet::MAX_BYTES];
//! let length = sheet::write(b"from the bench", tenths.as_flattened(), &mut bytes)?;
//!
//! let sheet = &bytes[..length];
//! assert_eq!(sheet::note(sheet)?, b"from the bench");
//! for (place, record) in sheet::records(sheet)?.enumerate() {
//!     match record.check() {
//!         Ok(()) => println!("record {place}: the least difference is at {}", record.bound),
//!         Err(error) => println!("record {place}: {error}"),
//!     }
//! }
//!
//! let mut text = [0; sheet::REPORT_MAX_BYTES];
//! let length = sheet::report(sheet, &mut text)?;
//! assert_eq!(&text[..length], b"0 accepted\n1 10 69\n");
//! # Ok::<(), Refusal>(())
//! ```

use crate::constants::{check_bound, judged, ClaimError, Constants};
use crate::raw;
use crate::refusal::{counted, placed, returned, Refusal};
use core::ops::Range;

/// The bytes of the longest sheet.
pub const MAX_BYTES: usize = 65536;

/// The most records of a sheet.
pub const MAX_RECORDS: usize = 1024;

/// The numbers of a record.
pub const RECORD_NUMBERS: usize = 8;

/// The bytes of a record.
pub const RECORD_BYTES: usize = RECORD_NUMBERS * size_of::<u32>();

/// The bytes of a trailer, and of the shortest sheet.
pub const TRAILER_BYTES: usize = 3 * size_of::<u32>();

/// The bytes of the longest report: that of [`MAX_RECORDS`] claims which all have their least input with ten digits.
pub const REPORT_MAX_BYTES: usize = 18346;

/// What a sheet holds.
///
/// ```
/// use ovenquill::sheet::{self, Contents};
///
/// let mut bytes = [0; 48];
/// let length = sheet::write(b"note", &[1, 0, 10, 26, 0, 8, 0, 69], &mut bytes)?;
/// assert_eq!(sheet::read(&bytes[..length])?, Contents { records: 1, note_length: 4 });
/// # Ok::<(), ovenquill::Refusal>(())
/// ```
#[derive(Clone, Copy, Debug, PartialEq, Eq, Hash)]
pub struct Contents {
    /// How many records it has: those at the places from 0 to one less.
    pub records: i64,
    /// The length of its note, which is also where the first record begins.
    pub note_length: usize,
}

/// A record of a sheet: the claim that the quotients of these constants differ at `bound` and at no input below it.
///
/// The numbers are `i64`, as those of [`Constants`] are and all others that the calls take and answer: a record is checked as
/// it stands. What is read from a sheet is 0 to 4294967295, as four bytes tell no other numbers; not all of these are within
/// the limits of constants and bounds.
///
/// ```
/// use ovenquill::sheet::Record;
/// use ovenquill::Constants;
///
/// let record = Record::from([1, 0, 10, 26, 0, 8, 0, 69]);
/// assert_eq!(record, Record { a: 1, b: 0, d: 10, m: 26, c: 0, k: 8, t: 0, bound: 69 });
/// assert_eq!(record.constants(), Constants { a: 1, b: 0, d: 10, m: 26, c: 0, k: 8, t: 0 });
/// assert_eq!(record.numbers(), Some([1, 0, 10, 26, 0, 8, 0, 69]));
/// assert_eq!(Record { bound: -1, ..record }.numbers(), None);
/// ```
#[derive(Clone, Copy, Debug, PartialEq, Eq, Hash)]
#[repr(C)]
pub struct Record {
    /// The exact fraction's multiplier.
    pub a: i64,
    /// The exact fraction's offset.
    pub b: i64,
    /// The exact fraction's divisor.
    pub d: i64,
    /// The device's multiplier.
    pub m: i64,
    /// The device's offset.
    pub c: i64,
    /// The device's shift to the right.
    pub k: i64,
    /// The tolerance.
    pub t: i64,
    /// The claimed bound.
    pub bound: i64,
}

impl Record {
    /// The record's constants.
    pub const fn constants(self) -> Constants {
        let Record { a, b, d, m, c, k, t, .. } = self;
        Constants { a, b, d, m, c, k, t }
    }

    /// The numbers as [`write()`] takes them; `None` where one of them is outside 0 to 4294967295, which none that was read is.
    pub fn numbers(self) -> Option<[u32; RECORD_NUMBERS]> {
        let Record { a, b, d, m, c, k, t, bound } = self;
        let mut numbers = [0; RECORD_NUMBERS];
        for (number, wide) in numbers.iter_mut().zip([a, b, d, m, c, k, t, bound]) {
            *number = u32::try_from(wide).ok()?;
        }
        Some(numbers)
    }

    /// Accepts or turns down the claim, as [`check_bound`] does.
    ///
    /// ```
    /// use ovenquill::sheet::Record;
    ///
    /// let record = Record::from([1, 0, 10, 26, 0, 8, 0, 69]);
    /// assert_eq!(record.check(), Ok(()));
    /// assert_eq!(Record { bound: 100, ..record }.check().unwrap_err().least, Some(69));
    /// ```
    #[inline]
    pub fn check(self) -> Result<(), ClaimError> {
        check_bound(self.constants(), self.bound)
    }
}

/// The record with the eight numbers as they stand in a sheet.
impl From<[u32; RECORD_NUMBERS]> for Record {
    fn from(numbers: [u32; RECORD_NUMBERS]) -> Record {
        let [a, b, d, m, c, k, t, bound] = numbers.map(i64::from);
        Record { a, b, d, m, c, k, t, bound }
    }
}

/// The place that a call writes a record to, before it does.
const NO_RECORD: Record = Record { a: 0, b: 0, d: 0, m: 0, c: 0, k: 0, t: 0, bound: 0 };

/// How many records a sheet has, and how long its note is.
///
/// Refused are bytes that are no sheet ([`Refusal::MalformedSheet`]): more than [`MAX_BYTES`], fewer than [`TRAILER_BYTES`],
/// a trailer that does not fit, or more than [`MAX_RECORDS`] records.
///
/// ```
/// use ovenquill::sheet::{self, Contents};
/// use ovenquill::Refusal;
///
/// // No note and no record: the trailer is the whole sheet.
/// let bytes = [0, 0, 0, 0, 0, 0, 0, 0, 12, 0, 0, 0];
/// assert_eq!(sheet::read(&bytes), Ok(Contents { records: 0, note_length: 0 }));
/// assert_eq!(sheet::read(&bytes[1..]), Err(Refusal::MalformedSheet));
/// ```
#[inline]
pub fn read(sheet: &[u8]) -> Result<Contents, Refusal> {
    let mut note_length = 0;
    // SAFETY: the pointer and the length are those of one slice, and the place is ours to lend.
    let records = returned(unsafe { raw::ovenquill_sheet_read(sheet.as_ptr(), sheet.len(), &mut note_length) })?;
    Ok(Contents { records, note_length: counted(note_length)? })
}

/// The note of a sheet.
///
/// Refused are bytes that are no sheet, as by [`read`].
///
/// ```
/// use ovenquill::sheet;
///
/// let mut bytes = [0; 16];
/// let length = sheet::write(b"note", &[], &mut bytes)?;
/// assert_eq!(sheet::note(&bytes[..length])?, b"note");
/// # Ok::<(), ovenquill::Refusal>(())
/// ```
#[inline]
pub fn note(sheet: &[u8]) -> Result<&[u8], Refusal> {
    let Contents { note_length, .. } = read(sheet)?;
    Ok(sheet.get(..note_length).unwrap_or(sheet))
}

/// The record at a place of a sheet.
///
/// Refused are bytes that are no sheet, as by [`read`], and a place where it has no record; both by
/// [`Refusal::MalformedSheet`].
///
/// ```
/// use ovenquill::sheet::{self, Record};
/// use ovenquill::Refusal;
///
/// let mut bytes = [0; 44];
/// sheet::write(b"", &[1, 0, 10, 26, 0, 8, 0, 69], &mut bytes)?;
/// assert_eq!(sheet::record(&bytes, 0)?, Record { a: 1, b: 0, d: 10, m: 26, c: 0, k: 8, t: 0, bound: 69 });
/// assert_eq!(sheet::record(&bytes, 1), Err(Refusal::MalformedSheet));
/// assert_eq!(sheet::record(&bytes, -1), Err(Refusal::MalformedSheet));
/// # Ok::<(), Refusal>(())
/// ```
#[inline]
pub fn record(sheet: &[u8], place: i64) -> Result<Record, Refusal> {
    placed(NO_RECORD, |record| {
        // SAFETY: the pointer and the length are those of one slice, and the place is ours to lend.
        unsafe { raw::ovenquill_sheet_record(sheet.as_ptr(), sheet.len(), place, record) }
    })
}

/// The records of a sheet in order.
///
/// Refused are bytes that are no sheet, as by [`read`].
///
/// ```
/// use ovenquill::sheet::{self, Record};
///
/// let claims = [[1, 0, 10, 26, 0, 8, 0, 69], [1, 0, 10, 25, 0, 8, 0, 10]];
/// let mut bytes = [0; 76];
/// sheet::write(b"", claims.as_flattened(), &mut bytes)?;
/// assert!(sheet::records(&bytes)?.eq(claims.map(Record::from)));
/// assert!(sheet::records(&bytes)?.all(|record| record.check().is_ok()));
/// # Ok::<(), ovenquill::Refusal>(())
/// ```
#[inline]
pub fn records(sheet: &[u8]) -> Result<Records<'_>, Refusal> {
    let Contents { records, .. } = read(sheet)?;
    Ok(Records { sheet, places: 0..records })
}

/// The records of a sheet in order, as [`records`] gives them.
#[derive(Clone, Debug)]
pub struct Records<'a> {
    sheet: &'a [u8],
    /// The places of those that are left.
    places: Range<i64>,
}

impl Iterator for Records<'_> {
    type Item = Record;

    #[inline]
    fn next(&mut self) -> Option<Record> {
        // The sheet was read and nobody changes it meanwhile, so that no place of it is refused.
        record(self.sheet, self.places.next()?).ok()
    }

    fn size_hint(&self) -> (usize, Option<usize>) {
        self.places.size_hint()
    }
}

impl ExactSizeIterator for Records<'_> {}

/// Accepts or turns down the claim of the record at a place of a sheet.
///
/// Refused are bytes that are no sheet, as by [`read`], and a place where it has no record; both by
/// [`Refusal::MalformedSheet`]. The claim is then refused or turned down as by [`check_bound`]: numbers outside their limits
/// ([`Refusal::ConstantOutOfLimits`]), a difference below the bound ([`Refusal::DifferenceBelowBound`], with the least such
/// input) or none up to it ([`Refusal::NoDifferenceUpToBound`]).
///
/// ```
/// use ovenquill::{sheet, Refusal};
///
/// let mut bytes = [0; 76];
/// sheet::write(b"", &[1, 0, 10, 26, 0, 8, 0, 69, 1, 0, 10, 26, 0, 8, 0, 100], &mut bytes)?;
/// assert_eq!(sheet::check(&bytes, 0), Ok(()));
/// assert_eq!(sheet::check(&bytes, 1).unwrap_err().least, Some(69));
/// assert_eq!(sheet::check(&bytes, 2).unwrap_err().refusal, Refusal::MalformedSheet);
/// # Ok::<(), Refusal>(())
/// ```
#[inline]
pub fn check(sheet: &[u8], place: i64) -> Result<(), ClaimError> {
    // SAFETY: the pointer and the length are those of one slice, and the place is ours to lend.
    judged(|least| unsafe { raw::ovenquill_sheet_check(sheet.as_ptr(), sheet.len(), place, least) })
}

/// Writes the sheet of a note and of records, [`RECORD_NUMBERS`] numbers to each, to the front of a buffer and answers its
/// length. The bytes behind it are unchanged.
///
/// What is written is read as that note and these records, and is the only sheet that is. Any numbers may stand in a record:
/// whether its claim is right is for [`check`] to say. Records in a list of their own are numbers by
/// [`as_flattened`](slice::as_flattened), and a [`Record`] by [`numbers`](Record::numbers).
///
/// Refused are, by [`Refusal::MalformedSheet`], numbers that end within a record, more than [`MAX_RECORDS`] records and a sheet
/// of more than [`MAX_BYTES`]; and then a buffer shorter than the sheet ([`Refusal::BufferTooShort`]), for which the lengths of
/// the note, of the records ([`RECORD_BYTES`] each) and of the trailer ([`TRAILER_BYTES`]) are enough. A refused call changes
/// no byte of the buffer.
///
/// ```
/// use ovenquill::sheet::{self, RECORD_BYTES, TRAILER_BYTES};
/// use ovenquill::Refusal;
///
/// let numbers = [1, 0, 10, 26, 0, 8, 0, 69];
/// let mut bytes = [b'.'; 1 + RECORD_BYTES + TRAILER_BYTES + 2];
/// assert_eq!(sheet::write(b"!", &numbers, &mut bytes), Ok(45));
/// assert_eq!(bytes[..9], *b"!\x01\0\0\0\0\0\0\0");
/// assert_eq!(bytes[33..], *b"\x01\0\0\0\x01\0\0\0\x2d\0\0\0..");
///
/// assert_eq!(sheet::write(b"!", &numbers[..7], &mut bytes), Err(Refusal::MalformedSheet));
/// assert_eq!(sheet::write(b"!", &numbers, &mut bytes[..44]), Err(Refusal::BufferTooShort));
/// ```
#[inline]
pub fn write(note: &[u8], numbers: &[u32], out: &mut [u8]) -> Result<usize, Refusal> {
    // SAFETY: each pointer and length are those of one slice, and the buffer is ours to lend.
    counted(unsafe {
        raw::ovenquill_sheet_write(
            note.as_ptr(),
            note.len(),
            numbers.as_ptr(),
            numbers.len(),
            out.as_mut_ptr(),
            out.len(),
        )
    })
}

/// Writes what is to be said of a sheet to the front of a buffer, a line for each record in order, and answers its length. The
/// bytes behind it are unchanged.
///
/// A line is the record's place, a space and `accepted`, the number of the refusal that [`check`] gives, 9 or 11, or 10 with a
/// space and the least input; a newline ends it. Of a sheet without records nothing is written. Of bytes that are no sheet the
/// one line `17` is: that is no refusal of the call.
///
/// Refused is a buffer shorter than the text, of which no byte is changed ([`Refusal::BufferTooShort`]);
/// [`REPORT_MAX_BYTES`] are enough for any.
///
/// ```
/// use ovenquill::{sheet, Refusal};
///
/// let mut bytes = [0; 76];
/// sheet::write(b"", &[1, 0, 10, 26, 0, 8, 0, 69, 1, 0, 10, 26, 0, 8, 0, 100], &mut bytes)?;
/// let mut text = [b'.'; 20];
/// assert_eq!(sheet::report(&bytes, &mut text), Ok(19));
/// assert_eq!(&text, b"0 accepted\n1 10 69\n.");
/// assert_eq!(sheet::report(&bytes, &mut text[..18]), Err(Refusal::BufferTooShort));
/// assert_eq!(sheet::report(b"no sheet", &mut text), Ok(3));
/// assert_eq!(&text[..3], b"17\n");
/// # Ok::<(), Refusal>(())
/// ```
#[inline]
pub fn report(sheet: &[u8], out: &mut [u8]) -> Result<usize, Refusal> {
    // SAFETY: each pointer and length are those of one slice, and the buffer is ours to lend.
    counted(unsafe { raw::ovenquill_sheet_report(sheet.as_ptr(), sheet.len(), out.as_mut_ptr(), out.len()) })
}
