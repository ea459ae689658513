//! One form for what the package answers and what the plain calls answer.

use ovenquill::{ClaimError, IndexError, Refusal};
use std::fmt::Debug;

/// What a call answered: a value, a refusal's number, or that with the place or least n that it hands back.
#[derive(Clone, Copy, Debug, PartialEq, Eq)]
pub enum Answer<T> {
    Value(T),
    Refused(i64),
    RefusedAt(i64, i64),
}

use Answer::{Refused, RefusedAt, Value};

impl<T: Debug> Answer<T> {
    /// The value of a call that must not be refused.
    pub fn value(self) -> T {
        match self {
            Value(value) => value,
            refused => panic!("refused: {refused:?}"),
        }
    }
}

/// The package's errors.
pub trait Refusing {
    fn answer<T>(self) -> Answer<T>;
}

impl Refusing for Refusal {
    fn answer<T>(self) -> Answer<T> {
        Refused(self.number())
    }
}

impl Refusing for IndexError {
    fn answer<T>(self) -> Answer<T> {
        self.place.map_or(self.refusal.answer(), |place| RefusedAt(self.refusal.number(), place as i64))
    }
}

impl Refusing for ClaimError {
    fn answer<T>(self) -> Answer<T> {
        self.least.map_or(self.refusal.answer(), |least| RefusedAt(self.refusal.number(), least))
    }
}

/// What the package answered.
pub fn answer<T, E: Refusing>(result: Result<T, E>) -> Answer<T> {
    match result {
        Ok(value) => Value(value),
        Err(error) => error.answer(),
    }
}
