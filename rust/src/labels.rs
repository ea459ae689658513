//! Labels: the RFC 3339 form of instants, the ISO 8601 form of week dates, and the WebVTT form of positions, timestamps and cue
//! lines.

use crate::raw;
use crate::refusal::{counted, placed, returned, Refusal};
use core::fmt;
use core::ops::RangeInclusive;
use core::str::{self, FromStr};

/// The form of an instant label.
macro_rules! instant_label_form {
    () => {
        "YYYY-MM-DDTHH:MM:SS.mmmZ"
    };
}

#[doc = concat!("The bytes of an instant label, `", instant_label_form!(), "`.")]
pub const INSTANT_LABEL_BYTES: usize = instant_label_form!().len();

/// The form of a week label.
macro_rules! week_label_form {
    () => {
        "YYYY-Www-D"
    };
}

#[doc = concat!("The bytes of a week label, `", week_label_form!(), "`.")]
pub const WEEK_LABEL_BYTES: usize = week_label_form!().len();

/// The first and the last year of instant labels, and week year of week labels: those that four digits can tell. An instant of
/// another year has no label, and a day of another week year has none; [`split_instant`](crate::split_instant) and
/// [`week_from_days`](crate::week_from_days) give their numbers. It is the week year that counts: 10000-01-01 lies in the week year
/// 9999 and has the label `9999-W52-6`.
pub const LABEL_YEARS: RangeInclusive<i64> = 0..=9999;

/// The first and the last position, in milliseconds.
///
/// ```
/// use ovenquill::{position_label, POSITIONS};
///
/// assert_eq!(position_label(*POSITIONS.start()).unwrap(), "00:00:00.000");
/// assert_eq!(position_label(*POSITIONS.end()).unwrap(), "99999:59:59.999");
/// ```
pub const POSITIONS: RangeInclusive<i64> = 0..=359999999999;

/// The bytes of the longest position label that is written.
pub const POSITION_LABEL_BYTES: usize = 15;

#[doc = concat!("Writes the label of an instant, `", instant_label_form!(), "`, to the front of a buffer and answers its")]
/// length. The bytes behind it are unchanged.
///
/// Refused are, in this order, an instant outside [`INSTANTS`](crate::INSTANTS) ([`Refusal::OutOfRange`]), one whose year is
/// outside [`LABEL_YEARS`] ([`Refusal::YearOutOfRange`]), and a buffer of fewer than [`INSTANT_LABEL_BYTES`]
/// ([`Refusal::BufferTooShort`]).
///
/// ```
/// use ovenquill::{write_instant, Refusal, INSTANTS, INSTANT_LABEL_BYTES};
///
/// let mut buffer = [b'.'; INSTANT_LABEL_BYTES + 2];
/// assert_eq!(write_instant(-1, &mut buffer), Ok(INSTANT_LABEL_BYTES));
/// assert_eq!(&buffer, b"1969-12-31T23:59:59.999Z..");
/// assert_eq!(write_instant(*INSTANTS.end(), &mut buffer), Err(Refusal::YearOutOfRange));
/// assert_eq!(write_instant(0, &mut buffer[..INSTANT_LABEL_BYTES - 1]), Err(Refusal::BufferTooShort));
/// assert_eq!(&buffer, b"1969-12-31T23:59:59.999Z..");
/// ```
#[inline]
pub fn write_instant(instant: i64, out: &mut [u8]) -> Result<usize, Refusal> {
    // SAFETY: the pointer and the length are those of one slice that is ours to lend.
    counted(unsafe { raw::ovenquill_write_instant(instant, out.as_mut_ptr(), out.len()) })
}

/// The instant of a label, whose T and Z may each be a capital or small.
///
/// What is read, with the two letters as capitals, is what [`write_instant`] writes for that instant.
///
/// Refused are, in this order, bytes that are no label ([`Refusal::MalformedLabel`]), a month or a day that is none
/// ([`Refusal::MonthOutOfRange`], [`Refusal::DayOutOfRange`]) and a time that no day has ([`Refusal::TimeOutOfRange`]).
///
/// ```
/// use ovenquill::{read_instant, Refusal};
///
/// assert_eq!(read_instant(b"2023-05-10T14:30:00.000Z"), Ok(1683729000000));
/// assert_eq!(read_instant(b"2023-05-10t14:30:00.000z"), Ok(1683729000000));
/// assert_eq!(read_instant(b"2023-05-10 14:30:00.000Z"), Err(Refusal::MalformedLabel));
/// assert_eq!(read_instant(b"2016-12-31T23:59:60.000Z"), Err(Refusal::TimeOutOfRange));
/// ```
#[inline]
pub fn read_instant(label: &[u8]) -> Result<i64, Refusal> {
    // SAFETY: the pointer and the length are those of one slice, and the place is ours to lend.
    placed(0, |instant| unsafe { raw::ovenquill_read_instant(label.as_ptr(), label.len(), instant) })
}

#[doc = concat!("Writes the week label of a count of days from 1970-01-01, `", week_label_form!(), "`, to the front of a")]
/// buffer and answers its length. The bytes behind it are unchanged.
///
/// Refused are, in this order, a count outside [`DAYS`](crate::DAYS) ([`Refusal::OutOfRange`]), one whose week year is outside
/// [`LABEL_YEARS`] ([`Refusal::YearOutOfRange`]), and a buffer of fewer than [`WEEK_LABEL_BYTES`]
/// ([`Refusal::BufferTooShort`]).
///
/// ```
/// use ovenquill::{write_week, Refusal, DAYS, WEEK_LABEL_BYTES};
///
/// let mut buffer = [b'.'; WEEK_LABEL_BYTES + 2];
/// assert_eq!(write_week(19487, &mut buffer), Ok(WEEK_LABEL_BYTES));
/// assert_eq!(&buffer, b"2023-W19-3..");
/// assert_eq!(write_week(*DAYS.start(), &mut buffer), Err(Refusal::YearOutOfRange));
/// assert_eq!(write_week(0, &mut buffer[..WEEK_LABEL_BYTES - 1]), Err(Refusal::BufferTooShort));
/// assert_eq!(&buffer, b"2023-W19-3..");
/// ```
#[inline]
pub fn write_week(days: i64, out: &mut [u8]) -> Result<usize, Refusal> {
    // SAFETY: the pointer and the length are those of one slice that is ours to lend.
    counted(unsafe { raw::ovenquill_write_week(days, out.as_mut_ptr(), out.len()) })
}

/// The count, in days from 1970-01-01, of a week label, whose W is a capital.
///
/// What is read is what [`write_week`] writes for that count.
///
/// Refused are bytes that are no label ([`Refusal::MalformedLabel`]) and then a week that the year does not have or a weekday
/// outside 1 to 7 ([`Refusal::WeekOutOfRange`]). Every week date of a label lies in [`DAYS`](crate::DAYS); the last two are days of
/// the year after [`LABEL_YEARS`].
///
/// ```
/// use ovenquill::{days_from_civil, read_week, Date, Refusal};
///
/// assert_eq!(read_week(b"2023-W19-3"), Ok(19487));
/// assert_eq!(read_week(b"9999-W52-6"), days_from_civil(Date::new(10000, 1, 1)));
/// assert_eq!(read_week(b"2023-w19-3"), Err(Refusal::MalformedLabel));
/// assert_eq!(read_week(b"2021-W53-1"), Err(Refusal::WeekOutOfRange));
/// ```
#[inline]
pub fn read_week(label: &[u8]) -> Result<i64, Refusal> {
    // SAFETY: the pointer and the length are those of one slice, and the place is ours to lend.
    placed(0, |days| unsafe { raw::ovenquill_read_week(label.as_ptr(), label.len(), days) })
}

/// Writes the label of a position, hours and `:MM:SS.mmm`, to the front of a buffer and answers its length. The bytes
/// behind it are unchanged.
///
/// Refused are a position outside [`POSITIONS`] ([`Refusal::PositionOutOfRange`]) and then a buffer shorter than its label
/// ([`Refusal::BufferTooShort`]); [`POSITION_LABEL_BYTES`] are enough for any.
///
/// ```
/// use ovenquill::{write_position, Refusal};
///
/// let mut buffer = [b'.'; 15];
/// assert_eq!(write_position(4287767296, &mut buffer), Ok(14));
/// assert_eq!(&buffer, b"1191:02:47.296.");
/// assert_eq!(write_position(4287767296, &mut buffer[..13]), Err(Refusal::BufferTooShort));
/// assert_eq!(write_position(-1, &mut buffer), Err(Refusal::PositionOutOfRange));
/// ```
#[inline]
pub fn write_position(position: i64, out: &mut [u8]) -> Result<usize, Refusal> {
    // SAFETY: the pointer and the length are those of one slice that is ours to lend.
    counted(unsafe { raw::ovenquill_write_position(position, out.as_mut_ptr(), out.len()) })
}

/// The position of a timestamp: `MM:SS.mmm`, or hours of two or more digits and `:MM:SS.mmm`.
///
/// What [`write_position`] writes for a position is read as that position. Leading zeros of the hours beyond those that two
/// digits need are read too, any number of them; they are never written.
///
/// Refused are bytes that are no timestamp, among them blanks around one and minutes or seconds of 60 to 99
/// ([`Refusal::MalformedTiming`]), and then a position above the last of [`POSITIONS`], however many digits its hours have
/// ([`Refusal::PositionOutOfRange`]).
///
/// ```
/// use ovenquill::{position_label, read_position, Refusal};
///
/// let position = read_position(b"01:02.003")?;
/// assert_eq!(position, 62003);
/// assert_eq!(position_label(position)?, "00:01:02.003");
/// assert_eq!(read_position(b"0000:01:02.003"), Ok(position));
/// assert_eq!(read_position(b"1:00:00.000"), Err(Refusal::MalformedTiming));
/// assert_eq!(read_position(b"100000:00:00.000"), Err(Refusal::PositionOutOfRange));
/// # Ok::<(), Refusal>(())
/// ```
#[inline]
pub fn read_position(text: &[u8]) -> Result<i64, Refusal> {
    // SAFETY: the pointer and the length are those of one slice.
    returned(unsafe { raw::ovenquill_read_position(text.as_ptr(), text.len()) })
}

/// The positions at which a cue starts and ends.
///
/// The order of cues is that of their starts, and of their ends where they start together.
///
/// ```
/// use ovenquill::{read_cue, Cue};
///
/// let cue = read_cue(b"00:01.500 --> 00:02.000")?;
/// assert_eq!(cue, Cue { start: 1500, end: 2000 });
/// assert!(cue < Cue { end: 2001, ..cue });
/// # Ok::<(), ovenquill::Refusal>(())
/// ```
#[derive(Clone, Copy, Debug, PartialEq, Eq, PartialOrd, Ord, Hash)]
#[repr(C)]
pub struct Cue {
    /// The position of the start, in milliseconds.
    pub start: i64,
    /// The position of the end, in milliseconds.
    pub end: i64,
}

/// The place that a call writes a cue to, before it does.
const NO_CUE: Cue = Cue { start: 0, end: 0 };

/// The cue of a timing line without settings: a timestamp, as [`read_position`] reads it, one or more spaces or tabs,
/// `-->`, one or more spaces or tabs, and a timestamp. Nothing may stand before the first timestamp or behind the second: no
/// blank and no line ending.
///
/// Refused are, in this order, bytes that are no such line ([`Refusal::MalformedTiming`]), a start or an end above the last
/// of [`POSITIONS`] ([`Refusal::PositionOutOfRange`]) and an end that is not later than the start
/// ([`Refusal::MalformedTiming`]).
///
/// ```
/// use ovenquill::{read_cue, Cue, Refusal};
///
/// assert_eq!(read_cue(b"59:59.999\t--> 01:00:00.000"), Ok(Cue { start: 3599999, end: 3600000 }));
/// assert_eq!(read_cue(b"59:59.999 --> 01:00:00.000 align:start"), Err(Refusal::MalformedTiming));
/// assert_eq!(read_cue(b"00:02.000 --> 100000:00:00.000"), Err(Refusal::PositionOutOfRange));
/// assert_eq!(read_cue(b"00:02.000 --> 00:02.000"), Err(Refusal::MalformedTiming));
/// ```
#[inline]
pub fn read_cue(line: &[u8]) -> Result<Cue, Refusal> {
    // SAFETY: the pointer and the length are those of one slice, and the place is ours to lend.
    placed(NO_CUE, |cue| unsafe { raw::ovenquill_read_cue(line.as_ptr(), line.len(), cue) })
}

/// Makes a type of labels, which are held by value in so many bytes at most.
macro_rules! label_type {
    ($(#[$doc:meta])+ $name:ident, $bytes:expr) => {
        $(#[$doc])+
        // The length stands first: a longer label is the later one. The bytes behind a label are zeros.
        #[derive(Clone, Copy, PartialEq, Eq, PartialOrd, Ord, Hash)]
        pub struct $name {
            length: usize,
            bytes: [u8; $bytes],
        }

        impl $name {
            /// The label that a call writes.
            fn written(call: impl FnOnce(&mut [u8]) -> Result<usize, Refusal>) -> Result<$name, Refusal> {
                let mut bytes = [0; $bytes];
                call(&mut bytes).map(|length| $name { length, bytes })
            }

            /// The label's bytes.
            pub fn as_bytes(&self) -> &[u8] {
                self.bytes.get(..self.length).unwrap_or(&self.bytes)
            }

            /// The label's text.
            pub fn as_str(&self) -> &str {
                str::from_utf8(self.as_bytes()).unwrap_or_default()
            }
        }

        impl AsRef<str> for $name {
            fn as_ref(&self) -> &str {
                self.as_str()
            }
        }

        impl AsRef<[u8]> for $name {
            fn as_ref(&self) -> &[u8] {
                self.as_bytes()
            }
        }

        impl fmt::Display for $name {
            fn fmt(&self, f: &mut fmt::Formatter<'_>) -> fmt::Result {
                f.pad(self.as_str())
            }
        }

        impl fmt::Debug for $name {
            fn fmt(&self, f: &mut fmt::Formatter<'_>) -> fmt::Result {
                f.debug_tuple(stringify!($name)).field(&self.as_str()).finish()
            }
        }

        impl PartialEq<str> for $name {
            fn eq(&self, other: &str) -> bool {
                self.as_str() == other
            }
        }

        impl PartialEq<&str> for $name {
            fn eq(&self, other: &&str) -> bool {
                self.as_str() == *other
            }
        }

        impl PartialEq<$name> for str {
            fn eq(&self, other: &$name) -> bool {
                self == other.as_str()
            }
        }

        impl PartialEq<$name> for &str {
            fn eq(&self, other: &$name) -> bool {
                *self == other.as_str()
            }
        }
    };
}

label_type! {
    /// The label of an instant. The order of labels is that of their instants.
    ///
    /// [`instant_label`] makes one of an instant. One is read from text with [`str::parse`] and from bytes with
    /// [`TryFrom`], which refuse what [`read_instant`] refuses; it then is the label that is written for that instant, with
    /// capital letters.
    ///
    /// ```
    /// use ovenquill::{instant_label, read_instant, InstantLabel, Refusal};
    ///
    /// let label = instant_label(1683729000000)?;
    /// assert_eq!(label, "2023-05-10T14:30:00.000Z");
    /// assert_eq!(label.to_string(), label.as_str());
    /// assert_eq!(read_instant(label.as_ref())?, 1683729000000);
    ///
    /// let read: InstantLabel = "2023-05-10t14:30:00.001z".parse()?;
    /// assert_eq!(read, "2023-05-10T14:30:00.001Z");
    /// assert!(label < read);
    /// assert_eq!("2023-05-10".parse::<InstantLabel>(), Err(Refusal::MalformedLabel));
    /// # Ok::<(), Refusal>(())
    /// ```
    InstantLabel, INSTANT_LABEL_BYTES
}

label_type! {
    /// The label of a week date. The order of labels is that of their days.
    ///
    /// [`week_label`] makes one of a count of days. One is read from text with [`str::parse`] and from bytes with
    /// [`TryFrom`], which refuse what [`read_week`] refuses.
    ///
    /// ```
    /// use ovenquill::{read_week, week_label, Refusal, WeekLabel};
    ///
    /// let label = week_label(19487)?;
    /// assert_eq!(label, "2023-W19-3");
    /// assert_eq!(read_week(label.as_ref())?, 19487);
    ///
    /// let read: WeekLabel = "2023-W20-1".parse()?;
    /// assert!(label < read);
    /// assert_eq!("2023-W20".parse::<WeekLabel>(), Err(Refusal::MalformedLabel));
    /// # Ok::<(), Refusal>(())
    /// ```
    WeekLabel, WEEK_LABEL_BYTES
}

label_type! {
    /// The label of a position. The order of labels is that of their positions.
    ///
    /// [`position_label`] makes one of a position. One is read from text with [`str::parse`] and from bytes with
    /// [`TryFrom`], which refuse what [`read_position`] refuses; it then is the label that is written for that position.
    ///
    /// ```
    /// use ovenquill::{position_label, PositionLabel, Refusal};
    ///
    /// let (long, short) = (position_label(360000000)?, position_label(359999999)?);
    /// assert_eq!((long.as_str(), short.as_str()), ("100:00:00.000", "99:59:59.999"));
    /// assert!(long > short);
    ///
    /// let read: PositionLabel = "01:02.003".parse()?;
    /// assert_eq!(read, "00:01:02.003");
    /// assert_eq!("1:02.003".parse::<PositionLabel>(), Err(Refusal::MalformedTiming));
    /// # Ok::<(), Refusal>(())
    /// ```
    PositionLabel, POSITION_LABEL_BYTES
}

/// Makes a type of labels one that is read: what is read is written again.
macro_rules! read_label_type {
    ($name:ident, $read:ident, $label:ident) => {
        impl FromStr for $name {
            type Err = Refusal;

            fn from_str(text: &str) -> Result<$name, Refusal> {
                $name::try_from(text.as_bytes())
            }
        }

        impl TryFrom<&[u8]> for $name {
            type Error = Refusal;

            fn try_from(text: &[u8]) -> Result<$name, Refusal> {
                $label($read(text)?)
            }
        }
    };
}

read_label_type!(InstantLabel, read_instant, instant_label);
read_label_type!(WeekLabel, read_week, week_label);
read_label_type!(PositionLabel, read_position, position_label);

/// The label of an instant, by value.
///
/// Refused are an instant outside [`INSTANTS`](crate::INSTANTS) ([`Refusal::OutOfRange`]) and then one whose year is outside
/// [`LABEL_YEARS`] ([`Refusal::YearOutOfRange`]).
///
/// ```
/// use ovenquill::{instant_label, read_instant, Refusal};
///
/// assert_eq!(instant_label(-1)?, "1969-12-31T23:59:59.999Z");
/// let last = read_instant(b"9999-12-31T23:59:59.999Z")?;
/// assert_eq!(instant_label(last + 1), Err(Refusal::YearOutOfRange));
/// assert_eq!(instant_label(i64::MAX), Err(Refusal::OutOfRange));
/// # Ok::<(), Refusal>(())
/// ```
#[inline]
pub fn instant_label(instant: i64) -> Result<InstantLabel, Refusal> {
    InstantLabel::written(|out| write_instant(instant, out))
}

/// The week label of a count of days from 1970-01-01, by value.
///
/// Refused are a count outside [`DAYS`](crate::DAYS) ([`Refusal::OutOfRange`]) and then one whose week year is outside
/// [`LABEL_YEARS`] ([`Refusal::YearOutOfRange`]).
///
/// ```
/// use ovenquill::{read_week, week_label, Refusal};
///
/// assert_eq!(week_label(0)?, "1970-W01-4");
/// let first = read_week(b"0000-W01-1")?;
/// assert_eq!(week_label(first - 1), Err(Refusal::YearOutOfRange));
/// assert_eq!(week_label(i64::MIN), Err(Refusal::OutOfRange));
/// # Ok::<(), Refusal>(())
/// ```
#[inline]
pub fn week_label(days: i64) -> Result<WeekLabel, Refusal> {
    WeekLabel::written(|out| write_week(days, out))
}

/// The label of a position, by value.
///
/// Refused is a position outside [`POSITIONS`] ([`Refusal::PositionOutOfRange`]).
///
/// ```
/// use ovenquill::{position_label, Refusal};
///
/// assert_eq!(position_label(4287767296)?, "1191:02:47.296");
/// assert_eq!(position_label(-1), Err(Refusal::PositionOutOfRange));
/// # Ok::<(), Refusal>(())
/// ```
#[inline]
pub fn position_label(position: i64) -> Result<PositionLabel, Refusal> {
    PositionLabel::written(|out| write_position(position, out))
}
