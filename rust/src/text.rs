//! Text that is padded as a whole, for which its length must be known before it is written.

use core::fmt::{self, Write};
use core::str;

/// Writes a year of at least four digits, with a minus sign where it is below zero, a dash, and what follows it in a date.
pub(crate) fn pad_date(f: &mut fmt::Formatter<'_>, year: i64, rest: fmt::Arguments<'_>) -> fmt::Result {
    let sign = if year < 0 { "-" } else { "" };
    pad(f, format_args!("{sign}{:04}-{rest}", year.unsigned_abs()))
}

/// Writes the text of a date, a refusal or an error.
pub(crate) fn pad(f: &mut fmt::Formatter<'_>, text: fmt::Arguments<'_>) -> fmt::Result {
    let mut whole = Text { bytes: [0; TEXT_BYTES], length: 0 };
    whole.write_fmt(text)?;
    f.pad(whole.as_str())
}

/// More bytes than the longest text has: the words of a refusal, and then a number that an error hands back.
const TEXT_BYTES: usize = 256;

struct Text {
    bytes: [u8; TEXT_BYTES],
    length: usize,
}

impl Text {
    fn as_str(&self) -> &str {
        self.bytes.get(..self.length).and_then(|bytes| str::from_utf8(bytes).ok()).unwrap_or_default()
    }
}

impl fmt::Write for Text {
    fn write_str(&mut self, text: &str) -> fmt::Result {
        let free = self.bytes.get_mut(self.length..).and_then(|free| free.get_mut(..text.len())).ok_or(fmt::Error)?;
        free.copy_from_slice(text.as_bytes());
        self.length += text.len();
        Ok(())
    }
}
