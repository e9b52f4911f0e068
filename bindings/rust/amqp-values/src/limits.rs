//! `Limits`, which each call of this crate takes, and `Measure`. `drop_in/limits.rs` has those of a
//! process; those of Rattle (`amq_protocol_types::stream::Limits`) have no number of values.

/// Limits on a value that is read or checked, with all that it contains.
///
/// A thread's stack has to suffice: 24 KiB, and for each level of `depth` 240 bytes on x86-64, 256 on aarch64.
///
/// # Examples
///
/// ```
/// use amqp_values::{read_table, Error, Limits, Problem, ProblemKind};
///
/// let limits = Limits { depth: 1, ..Limits::DEFAULT };
/// let nested = b"\0\0\0\x07\x01aF\0\0\0\0";
/// let too_deep = Problem { offset: 6, kind: ProblemKind::TooDeep };
/// assert_eq!(read_table(nested, limits), Err(Error::Problem(too_deep)));
/// ```
#[derive(Clone, Copy, Debug, PartialEq, Eq)]
pub struct Limits {
    /// How many bytes it may have, its type tag included.
    pub max_bytes: u32,
    /// How deep arrays and tables may nest, itself included. More than [`Limits::MOST_DEPTH`] is as much as that.
    pub depth: u32,
    /// How many values may be written in it, itself included.
    pub values: u32,
}

impl Limits {
    /// 1 MiB, 32 levels, and 16384 values: limits that suit untrusted bytes.
    pub const DEFAULT: Self = Self { max_bytes: 1 << 20, depth: 32, values: 1 << 14 };

    /// The most levels: the stack that they take is less than the 2 MiB that a thread of `std` has.
    pub const MOST_DEPTH: u32 = 4096;
}

impl Default for Limits {
    fn default() -> Self {
        Self::DEFAULT
    }
}

/// How large a value is, by its encoding.
#[derive(Clone, Copy, Debug, PartialEq, Eq)]
pub struct Measure {
    /// How many bytes it has.
    pub bytes: usize,
    /// How many values are written in it: itself, and all in containers, also of equal keys.
    pub values: usize,
    /// How deep containers nest: 0 if it is none, 1 if it contains none.
    pub levels: usize,
}
