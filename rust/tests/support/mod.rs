//! What the tests share: an independent implementation of document 01 and its changes, the form of answers, random numbers, and
//! numbers and claims that are worth trying.
#![allow(dead_code)] // each test file uses its own part

pub mod answer;
pub mod plain;
pub mod plain_sheets;
pub mod plain_weeks;
pub mod random;

use answer::Answer::{self, Refused};
use answer::{answer, Refusing};
use ovenquill::Constants;
use plain::{LABEL_BYTES, LARGEST, LAST_BOUND};
use plain_sheets::Numbers;
use plain_weeks::WEEK_LABEL_BYTES;
use random::Random;

/// The numbers within 2 of each power of two and its negative, of 0 and of the ends of the signed 64-bit numbers.
pub fn powers() -> Vec<i64> {
    let mut numbers = vec![i64::MIN, i64::MIN + 1, i64::MIN + 2, i64::MAX - 2, i64::MAX - 1, i64::MAX];
    for power in (0..63).map(|k| 1i64 << k) {
        for near in -2..=2 {
            numbers.extend([power + near, -power + near]);
        }
    }
    numbers.sort();
    numbers.dedup();
    numbers
}

/// Numbers that are no instants: those next to the range and the farthest from it.
pub const BAD_INSTANTS: [i64; 4] = [plain::FIRST_INSTANT - 1, plain::LAST_INSTANT + 1, i64::MIN, i64::MAX];

/// Every length up to 300, and some far above, of which two have a label's length in their last two bytes.
pub fn lengths() -> impl Iterator<Item = usize> {
    (0..=300).chain([4096, 65536 + WEEK_LABEL_BYTES, 65536 + LABEL_BYTES])
}

/// Lends the call the middle of a buffer and answers the middle as it is afterwards. The bytes on either side, 48 or a few
/// more, must stay as they were.
pub fn with_guards(length: usize, fill: u8, call: impl FnOnce(&mut [u8])) -> Vec<u8> {
    let around = 48 + length % 8;
    let guard = |place: usize| (place as u8).wrapping_mul(37) ^ 0xa5;
    let mut bytes: Vec<u8> = (0..length + 2 * around).map(guard).collect();
    let middle = around..around + length;
    bytes[middle.clone()].fill(fill);
    call(&mut bytes[middle.clone()]);
    for (place, &byte) in bytes.iter().enumerate() {
        assert!(middle.contains(&place) || byte == guard(place), "byte {place} is outside {middle:?} and changed");
    }
    bytes[middle].to_vec()
}

/// Writes to a buffer of that length among guard bytes and holds the answer and every byte to the plain writer's.
pub fn try_writing<E: Refusing>(
    ours: fn(i64, &mut [u8]) -> Result<usize, E>,
    plain: fn(i64, &mut [u8]) -> Answer<usize>,
    number: i64,
    length: usize,
) {
    let fill = 0x80 | (length as u8); // no byte of a label
    let mut result = Refused(0);
    let bytes = with_guards(length, fill, |out| result = answer(ours(number, out)));
    let mut expected = vec![fill; length];
    assert_eq!(result, plain(number, &mut expected), "{number} in {length} bytes");
    assert_eq!(bytes, expected, "{number} in {length} bytes");
}

/// A claim that is right as often as each of what it may be turned down or refused for.
pub fn some_claim(random: &mut Random) -> Numbers {
    let (a, d) = (random.choose(&[1, 1, 1, 3, 1023]), random.within(1, 60));
    let k = random.within(0, 20);
    let m = ((a << k) / d + random.within(0, 1)).min(LARGEST.m);
    let (b, c) = random.choose(&[(0, 0), (0, 0), (1, (1 << k) / d), (3, 0), (0, 5)]);
    let q = Constants { a, b, d, m, c, k, t: random.choose(&[0, 0, 0, 1, 255]) };
    let least = plain::walk(q, LAST_BOUND).unwrap_or(LAST_BOUND);
    let below = random.within(0, least);
    let above = random.of_any_size(least, LAST_BOUND);
    let bound = random.choose(&[least, least, below, (least - 1).max(0), above, (least + 1).min(LAST_BOUND)]);
    let mut numbers = [q.a, q.b, q.d, q.m, q.c, q.k, q.t, bound].map(|number| number as u32);
    if random.within(0, 4) == 0 {
        let (place, outside) = random.choose(&[
            (0, 0),
            (0, LARGEST.a + 1),
            (1, LARGEST.b + 1),
            (2, 0),
            (2, LARGEST.d + 1),
            (5, LARGEST.k + 1),
            (6, LARGEST.t + 1),
            (7, LAST_BOUND + 1),
        ]);
        numbers[place] = outside as u32;
    }
    numbers
}
