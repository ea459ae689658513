//! The rivals of the benchmarks: plain, hand-written Rust with the signatures, the answers and the refusals of the C calls,
//! where OVENQUILL_CHRONO is set libstdc++'s chrono, and where OVENQUILL_LENGTHS is set ours with each way to a month's length.

pub mod calendar;
#[cfg(chrono)]
pub mod chrono;
pub mod constants;
pub mod instants;
pub mod labels;
#[cfg(lengths)]
pub mod lengths;
pub mod sheets;
pub mod transport;
pub mod weeks;

/// What a rival returns that writes its answer to a place: 0, or the refusal negated, and then the place is unchanged.
#[inline(always)]
unsafe fn to_place<T>(place: *mut T, answer: Result<T, i64>) -> i64 {
    match answer {
        Ok(value) => {
            place.write(value);
            0
        }
        Err(refusal) => -refusal,
    }
}

/// What a rival returns that has no place: its answer, or the refusal negated.
#[inline(always)]
fn returned(answer: Result<i64, i64>) -> i64 {
    match answer {
        Ok(value) => value,
        Err(refusal) => -refusal,
    }
}
