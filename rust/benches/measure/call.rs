//! The shapes of the C calls, so that a line can be measured and compared whatever its call takes and writes.

use ovenquill::raw::Clock;
use ovenquill::sheet::{Record, MAX_RECORDS, REPORT_MAX_BYTES, TRAILER_BYTES};
use ovenquill::{Cue, Date, Fields, WeekDate, INSTANT_LABEL_BYTES, POSITION_LABEL_BYTES, WEEK_LABEL_BYTES};
use std::fmt::Debug;

/// A C call, ours or a rival's.
pub trait Call: Copy {
    type Input;
    /// What the call may write to.
    type Lent: Debug + PartialEq;

    /// What a call on that input is lent, cleared to what no call writes.
    fn cleared(input: &Self::Input) -> Self::Lent;

    /// What the call returns.
    fn call(self, input: &Self::Input, lent: &mut Self::Lent) -> i64;

    /// A number that takes reading what was written.
    fn sum(lent: &Self::Lent) -> i64;
}

/// What a number is cleared to: no call writes it.
const CLEARED: i64 = i64::MIN / 16;

/// A place that a call writes its answer to.
pub trait Place: Copy + Debug + PartialEq {
    const CLEARED: Self;

    fn sum(&self) -> i64;
}

impl Place for i64 {
    const CLEARED: i64 = CLEARED;

    fn sum(&self) -> i64 {
        *self
    }
}

impl Place for Date {
    const CLEARED: Date = Date::new(CLEARED, CLEARED, CLEARED);

    fn sum(&self) -> i64 {
        self.year + self.month + self.day
    }
}

impl Place for WeekDate {
    const CLEARED: WeekDate = WeekDate::new(CLEARED, CLEARED, CLEARED);

    fn sum(&self) -> i64 {
        self.year + self.week + self.weekday
    }
}

impl Place for Fields {
    const CLEARED: Fields = Fields {
        year: CLEARED,
        month: CLEARED,
        day: CLEARED,
        hour: CLEARED,
        minute: CLEARED,
        second: CLEARED,
        millisecond: CLEARED,
    };

    fn sum(&self) -> i64 {
        self.year + self.month + self.day + self.hour + self.minute + self.second + self.millisecond
    }
}

impl Place for Cue {
    const CLEARED: Cue = Cue { start: CLEARED, end: CLEARED };

    fn sum(&self) -> i64 {
        self.start + self.end
    }
}

macro_rules! number {
    ($name:ident) => {
        i64
    };
}

/// Makes two shapes of each list of numbers: a call that takes them and returns its answer, and one that takes a place too.
macro_rules! calls_of_numbers {
    ($($returning:ident, $placing:ident: $($name:ident)+;)+) => {$(
        pub type $returning = unsafe extern "C" fn($(number!($name)),+) -> i64;

        impl Call for $returning {
            type Input = [i64; [$(stringify!($name)),+].len()];
            type Lent = ();

            fn cleared(_: &Self::Input) {}

            fn call(self, &[$($name),+]: &Self::Input, _: &mut ()) -> i64 {
                // SAFETY: the call takes any numbers.
                unsafe { self($($name),+) }
            }

            fn sum(_: &()) -> i64 {
                0
            }
        }

        pub type $placing<T> = unsafe extern "C" fn($(number!($name)),+, *mut T) -> i64;

        impl<T: Place> Call for $placing<T> {
            type Input = [i64; [$(stringify!($name)),+].len()];
            type Lent = T;

            fn cleared(_: &Self::Input) -> T {
                T::CLEARED
            }

            fn call(self, &[$($name),+]: &Self::Input, lent: &mut T) -> i64 {
                // SAFETY: the place is ours to lend.
                unsafe { self($($name),+, lent) }
            }

            fn sum(lent: &T) -> i64 {
                lent.sum()
            }
        }
    )+};
}

calls_of_numbers! {
    One, OneTo: a;
    Two, TwoTo: a b;
    Three, ThreeTo: a b c;
    Four, FourTo: a b c d;
    Seven, SevenTo: a b c d e f g;
    Eight, EightTo: a b c d e f g h;
}

/// A call of one number that waits for the answer to the one before.
#[derive(Clone, Copy)]
pub struct Waiting(pub One);

impl Call for Waiting {
    type Input = [i64; 1];
    /// What is added to the next number: the upper half of the last answer, which is 0 where answers are small.
    type Lent = i64;

    fn cleared(_: &Self::Input) -> i64 {
        0
    }

    fn call(self, &[a]: &Self::Input, lent: &mut i64) -> i64 {
        // SAFETY: the call takes any number.
        let answer = unsafe { self.0(a + *lent) };
        *lent = answer >> 32;
        answer
    }

    fn sum(_: &i64) -> i64 {
        0
    }
}

/// A call of one number that waits for what the one before wrote.
#[derive(Clone, Copy)]
pub struct WaitingTo<T>(pub OneTo<T>);

impl<T: Place> Call for WaitingTo<T> {
    type Input = [i64; 1];
    /// The place, and what is added to the next number: the upper half of the last answer's sum, which for a small sum is 0, or -1
    /// where that is negative.
    type Lent = (T, i64);

    fn cleared(_: &Self::Input) -> (T, i64) {
        (T::CLEARED, 0)
    }

    fn call(self, &[a]: &Self::Input, (place, added): &mut (T, i64)) -> i64 {
        // SAFETY: the place is ours to lend.
        let answer = unsafe { self.0(a + *added, place) };
        *added = place.sum() >> 32;
        answer
    }

    fn sum(_: &(T, i64)) -> i64 {
        0
    }
}

pub type Writer = unsafe extern "C" fn(i64, *mut u8, usize) -> i64;

/// Buffers for labels, none across two cache lines. Each call writes to the next, so that no store waits for the last one.
#[derive(Debug, PartialEq)]
#[repr(align(64))]
pub struct Buffers {
    buffers: [[u8; 32]; 64],
    next: usize,
}

impl Call for Writer {
    type Input = i64;
    type Lent = Buffers;

    fn cleared(_: &i64) -> Buffers {
        Buffers { buffers: [[b'?'; 32]; 64], next: 0 }
    }

    fn call(self, &number: &i64, lent: &mut Buffers) -> i64 {
        lent.next = (lent.next + 1) % lent.buffers.len();
        let out = &mut lent.buffers[lent.next];
        // SAFETY: the pointer and the length are those of the buffer.
        unsafe { self(number, out.as_mut_ptr(), out.len()) }
    }

    fn sum(lent: &Buffers) -> i64 {
        lent.buffers[lent.next][0].into()
    }
}

pub type Reader = unsafe extern "C" fn(*const u8, usize, *mut i64) -> i64;

impl Call for Reader {
    type Input = [u8; INSTANT_LABEL_BYTES];
    type Lent = i64;

    fn cleared(_: &Self::Input) -> i64 {
        CLEARED
    }

    fn call(self, label: &Self::Input, lent: &mut i64) -> i64 {
        // SAFETY: the pointer and the length are those of the label, and the place is ours to lend.
        unsafe { self(label.as_ptr(), label.len(), lent) }
    }

    fn sum(lent: &i64) -> i64 {
        *lent
    }
}

/// The same call of a week label.
#[derive(Clone, Copy)]
pub struct WeekReader(pub Reader);

impl Call for WeekReader {
    type Input = [u8; WEEK_LABEL_BYTES];
    type Lent = i64;

    fn cleared(_: &Self::Input) -> i64 {
        CLEARED
    }

    fn call(self, label: &Self::Input, lent: &mut i64) -> i64 {
        // SAFETY: the pointer and the length are those of the label, and the place is ours to lend.
        unsafe { self.0(label.as_ptr(), label.len(), lent) }
    }

    fn sum(lent: &i64) -> i64 {
        *lent
    }
}

/// A text of so many bytes at most, which stands where it is used: a call need not fetch it from elsewhere.
#[derive(Clone, Copy)]
pub struct Text<const MOST: usize> {
    length: u8,
    bytes: [u8; MOST],
}

impl<const MOST: usize> Text<MOST> {
    pub fn of(text: &[u8]) -> Text<MOST> {
        let mut bytes = [0; MOST];
        bytes[..text.len()].copy_from_slice(text);
        Text { length: text.len() as u8, bytes }
    }

    fn length(&self) -> usize {
        self.length.into()
    }
}

impl<const MOST: usize> AsMut<[u8]> for Text<MOST> {
    fn as_mut(&mut self) -> &mut [u8] {
        &mut self.bytes[..usize::from(self.length)]
    }
}

pub type PositionReader = unsafe extern "C" fn(*const u8, usize) -> i64;

impl Call for PositionReader {
    type Input = Text<POSITION_LABEL_BYTES>;
    type Lent = ();

    fn cleared(_: &Self::Input) {}

    fn call(self, text: &Self::Input, _: &mut ()) -> i64 {
        // SAFETY: the text has at least as many bytes as its length says.
        unsafe { self(text.bytes.as_ptr(), text.length()) }
    }

    fn sum(_: &()) -> i64 {
        0
    }
}

pub type CueReader = unsafe extern "C" fn(*const u8, usize, *mut Cue) -> i64;

/// The most blanks on either side of a cue line's arrow.
pub const MOST_BLANKS: usize = 3;

impl Call for CueReader {
    type Input = Text<{ 2 * POSITION_LABEL_BYTES + 2 * MOST_BLANKS + "-->".len() }>;
    type Lent = Cue;

    fn cleared(_: &Self::Input) -> Cue {
        Cue::CLEARED
    }

    fn call(self, line: &Self::Input, lent: &mut Cue) -> i64 {
        // SAFETY: the line has at least as many bytes as its length says, and the place is ours to lend.
        unsafe { self(line.bytes.as_ptr(), line.length(), lent) }
    }

    fn sum(lent: &Cue) -> i64 {
        lent.sum()
    }
}

pub type Index = unsafe extern "C" fn(*const i64, usize, *mut i32, usize, *mut i64) -> i64;

impl Call for Index {
    type Input = Vec<i64>;
    type Lent = (Vec<i32>, i64);

    fn cleared(instants: &Vec<i64>) -> (Vec<i32>, i64) {
        (vec![i32::MIN; instants.len()], CLEARED)
    }

    fn call(self, instants: &Vec<i64>, (days, place): &mut (Vec<i32>, i64)) -> i64 {
        // SAFETY: the pointers and the lengths are those of the lists, and the place is ours to lend.
        unsafe { self(instants.as_ptr(), instants.len(), days.as_mut_ptr(), days.len(), place) }
    }

    fn sum((days, _): &(Vec<i32>, i64)) -> i64 {
        days[days.len() / 2].into()
    }
}

pub type SheetWriter = unsafe extern "C" fn(*const u8, usize, *const u32, usize, *mut u8, usize) -> i64;

/// The bytes of the longest note of a sheet that is written.
pub const MOST_NOTE: usize = 64;

impl Call for SheetWriter {
    /// The note and the numbers; of a line, all sheets have as many numbers.
    type Input = (Vec<u8>, Vec<u32>);
    type Lent = Vec<u8>;

    fn cleared((_, numbers): &Self::Input) -> Vec<u8> {
        vec![b'?'; MOST_NOTE + size_of_val(&numbers[..]) + TRAILER_BYTES]
    }

    fn call(self, (note, numbers): &Self::Input, lent: &mut Vec<u8>) -> i64 {
        // SAFETY: the pointers and the lengths are those of the lists and of the buffer.
        unsafe { self(note.as_ptr(), note.len(), numbers.as_ptr(), numbers.len(), lent.as_mut_ptr(), lent.len()) }
    }

    fn sum(lent: &Vec<u8>) -> i64 {
        lent[lent.len() / 2].into()
    }
}

/// How a sheet is read to a list of records.
#[derive(Clone, Copy)]
pub enum SheetReader {
    /// By a call for their number and a call for each place, which tests the sheet again.
    ByPlaces(Contents, RecordReader),
    /// By one call for all of them.
    AtOnce(ListReader),
}

type Contents = unsafe extern "C" fn(*const u8, usize, *mut i64) -> i64;
type RecordReader = unsafe extern "C" fn(*const u8, usize, i64, *mut Record) -> i64;
type ListReader = unsafe extern "C" fn(*const u8, usize, *mut Record, usize) -> i64;

/// What a record is cleared to.
const NO_RECORD: Record =
    Record { a: CLEARED, b: CLEARED, d: CLEARED, m: CLEARED, c: CLEARED, k: CLEARED, t: CLEARED, bound: CLEARED };

impl Call for SheetReader {
    type Input = Vec<u8>;
    type Lent = Vec<Record>;

    fn cleared(_: &Vec<u8>) -> Vec<Record> {
        vec![NO_RECORD; MAX_RECORDS]
    }

    fn call(self, sheet: &Vec<u8>, lent: &mut Vec<Record>) -> i64 {
        let (bytes, length) = (sheet.as_ptr(), sheet.len());
        // SAFETY: the pointers and the lengths are those of the sheet and of the list, and the places are ours to lend.
        match self {
            SheetReader::ByPlaces(contents, record) => {
                let mut note_length = CLEARED;
                let records = unsafe { contents(bytes, length, &mut note_length) };
                let mut refused = 0;
                for (place, lent) in (0..records).zip(lent) {
                    refused |= unsafe { record(bytes, length, place, lent) };
                }
                records | refused
            }
            SheetReader::AtOnce(list) => unsafe { list(bytes, length, lent.as_mut_ptr(), lent.len()) },
        }
    }

    fn sum(lent: &Vec<Record>) -> i64 {
        lent[0].bound
    }
}

pub type Reporter = unsafe extern "C" fn(*const u8, usize, *mut u8, usize) -> i64;

impl Call for Reporter {
    type Input = Vec<u8>;
    type Lent = Vec<u8>;

    fn cleared(_: &Vec<u8>) -> Vec<u8> {
        vec![b'?'; REPORT_MAX_BYTES]
    }

    fn call(self, sheet: &Vec<u8>, lent: &mut Vec<u8>) -> i64 {
        // SAFETY: the pointers and the lengths are those of the sheet and of the buffer.
        unsafe { self(sheet.as_ptr(), sheet.len(), lent.as_mut_ptr(), lent.len()) }
    }

    fn sum(lent: &Vec<u8>) -> i64 {
        lent[lent.len() / 2].into()
    }
}

pub type Follower = unsafe extern "C" fn(*mut Clock, i64) -> i64;

impl Call for Follower {
    /// The clock before the call, to which each call puts it back, and the value.
    type Input = (Clock, i64);
    type Lent = Clock;

    fn cleared(&(clock, _): &Self::Input) -> Clock {
        clock
    }

    fn call(self, &(clock, value): &Self::Input, lent: &mut Clock) -> i64 {
        *lent = clock;
        // SAFETY: the clock is ours to lend.
        unsafe { self(lent, value) }
    }

    fn sum(lent: &Clock) -> i64 {
        lent.position
    }
}

/// The same, each call going on from the one before.
#[derive(Clone, Copy)]
pub struct GoingOn(pub Follower);

impl Call for GoingOn {
    /// The clock before the first call, and the value.
    type Input = (Clock, i64);
    type Lent = Clock;

    fn cleared(&(clock, _): &Self::Input) -> Clock {
        clock
    }

    fn call(self, &(_, value): &Self::Input, lent: &mut Clock) -> i64 {
        // SAFETY: the clock is ours to lend.
        unsafe { self.0(lent, value) }
    }

    fn sum(_: &Clock) -> i64 {
        0
    }
}

pub type ListFollower = unsafe extern "C" fn(*mut Clock, *const i64, usize) -> i64;

impl Call for ListFollower {
    /// The clock before the call, to which each call puts it back, and the values.
    type Input = (Clock, Vec<i64>);
    type Lent = Clock;

    fn cleared(&(clock, _): &Self::Input) -> Clock {
        clock
    }

    fn call(self, (clock, values): &Self::Input, lent: &mut Clock) -> i64 {
        *lent = *clock;
        // SAFETY: the pointer and the length are those of the list, and the clock is ours to lend.
        unsafe { self(lent, values.as_ptr(), values.len()) }
    }

    fn sum(lent: &Clock) -> i64 {
        lent.position
    }
}
