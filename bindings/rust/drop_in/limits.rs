//! `Limits` on the arrays and tables that are parsed, and what becomes of a table beyond them.
//!
//! They are of the process, since the parsers take none; those of `amqp-values/src/limits.rs` are a
//! call's. drop_in.py puts this module into a copy of the crate amq-protocol-types.

use crate::{AMQPValue, FieldTable, ShortString};
use std::sync::{PoisonError, RwLock};

static LIMITS: RwLock<Limits> = RwLock::new(Limits::DEFAULT);

/// Limits on an array or a table that is parsed, with all that it contains.
#[derive(Clone, Copy, Debug, PartialEq, Eq)]
pub struct Limits {
    /// How many bytes it may have, its type tag included.
    pub max_bytes: u32,
    /// How deep arrays and tables may nest, itself included. More than 4096 is as much as that.
    ///
    /// A thread's stack has to suffice for that: a level takes about 1 KiB, in a debug build 8 KiB.
    pub depth: u32,
    /// How many values may be written in it, itself included.
    pub values: u32,
    /// What a table that is refused becomes.
    pub refused: Refused,
}

impl Limits {
    /// 1 MiB, 32 levels, and 16384 values, which take up to 12 MB.
    pub const DEFAULT: Self = Self { max_bytes: 1 << 20, depth: 32, values: 1 << 14, refused: Refused::Marked };
}

impl Default for Limits {
    fn default() -> Self {
        Self::DEFAULT
    }
}

/// What a table that is refused becomes. An array becomes an error.
#[derive(Clone, Copy, Debug, Default, PartialEq, Eq)]
pub enum Refused {
    /// An error.
    Error,
    /// A table whose only key is [`Refusal::key`]; one that is malformed is an error.
    #[default]
    Marked,
    /// A table whose only key is [`Refusal::key`], also if it is malformed.
    ///
    /// RabbitMQ relays tables with keys that aren't UTF-8, which are malformed here.
    MarkedIfMalformed,
}

/// Why an array or a table was refused.
#[derive(Clone, Copy, Debug, PartialEq, Eq)]
pub enum Refusal {
    /// It has more bytes than [`Limits::max_bytes`].
    TooLarge,
    /// It nests deeper than [`Limits::depth`].
    TooDeep,
    /// It has more values than [`Limits::values`].
    TooManyValues,
    /// It is complete and no array or table, or has a key that isn't UTF-8.
    Malformed,
}

impl Refusal {
    const ALL: [Self; 4] = [Self::TooLarge, Self::TooDeep, Self::TooManyValues, Self::Malformed];

    /// The only key of a table that was refused for this.
    #[must_use]
    pub const fn key(self) -> &'static str {
        match self {
            Self::TooLarge => "x-refused-too-large",
            Self::TooDeep => "x-refused-too-deep",
            Self::TooManyValues => "x-refused-too-many-values",
            Self::Malformed => "x-refused-malformed",
        }
    }

    /// The table that a refused one becomes.
    pub(crate) fn table(self) -> FieldTable {
        let mut table = FieldTable::default();
        table.insert(ShortString::from(self.key()), AMQPValue::Void);
        table
    }
}

/// Sets the limits of the process, for what is parsed from now on.
pub fn set(limits: Limits) {
    *LIMITS.write().unwrap_or_else(PoisonError::into_inner) = limits;
}

/// Returns the limits of the process.
#[must_use]
pub fn get() -> Limits {
    *LIMITS.read().unwrap_or_else(PoisonError::into_inner)
}

/// Returns why a table was refused, if it was.
#[must_use]
pub fn refusal(table: &FieldTable) -> Option<Refusal> {
    Refusal::ALL.into_iter().find(|it| table.contains_key(it.key()))
}
