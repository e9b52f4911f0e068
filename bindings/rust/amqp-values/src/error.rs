//! `Error`, its `Problem`, `ProblemKind` and `JsonReason`, and `WriteError`, with their texts.

use core::fmt;

/// Why bytes aren't read.
#[derive(Clone, Copy, Debug, PartialEq, Eq)]
#[non_exhaustive]
pub enum Error {
    /// The bytes end before the value does.
    Incomplete {
        /// How many more bytes the field that is being read needs. More may be missing after these.
        missing: usize,
    },
    /// The bytes are no value, or one that is beyond the limits.
    Problem(Problem),
    /// There isn't enough memory. Only calls that allocate return it, which need the feature `std`.
    OutOfMemory,
}

/// Something in a value that isn't allowed.
#[derive(Clone, Copy, Debug, PartialEq, Eq)]
pub struct Problem {
    /// How many bytes are before the value with the problem, or before the pair if its key is cut or isn't UTF-8. Of a JSON text
    /// how many bytes are before what is wrong.
    pub offset: usize,
    /// What it is.
    pub kind: ProblemKind,
}

/// What is wrong with a value, or with a key.
#[derive(Clone, Copy, Debug, PartialEq, Eq)]
#[non_exhaustive]
pub enum ProblemKind {
    /// The byte isn't a type tag, or none that RabbitMQ knows.
    UnknownTag(u8),
    /// A Float or a Double is an infinity or a NaN, which RabbitMQ doesn't take.
    NotFinite,
    /// A value goes past the end of its container or of the bytes, or is missing.
    Cut,
    /// A key goes past the end of its table.
    KeyCut,
    /// A key isn't UTF-8.
    KeyNotUtf8,
    /// A container, or a bracket of JSON, nests deeper than [`Limits::depth`](crate::Limits::depth).
    TooDeep,
    /// The value has more bytes than [`Limits::max_bytes`](crate::Limits::max_bytes).
    TooLarge,
    /// More values are written in it than [`Limits::values`](crate::Limits::values).
    TooManyValues,
    /// The text isn't JSON: what is before the offset can go on to a JSON text, but not with what is there. At the end of the text
    /// it is cut.
    NotJson(JsonReason),
    /// The text is JSON up to the offset, where something begins that no value has.
    NotAValue(JsonReason),
    /// The text is the JSON of a value that isn't a table.
    NotATable,
}

/// Why a text isn't JSON, or not that of a value. `docs/JSON.md` has an example of each.
#[derive(Clone, Copy, Debug, PartialEq, Eq)]
#[non_exhaustive]
pub enum JsonReason {
    /// The text ends too early.
    UnexpectedEnd,
    /// The text ends in a string.
    UnfinishedString,
    /// A character that can't be there in any JSON text.
    UnexpectedCharacter,
    /// A control character in a string, such as a line feed, which has to be escaped.
    ControlCharacter,
    /// A character after a backslash that makes no escape, or no hexadecimal digit after `\u`.
    UnknownEscape,
    /// An escape of one half of a surrogate pair without the other.
    LoneSurrogate,
    /// A value or a key where a comma should be.
    MissingComma,
    /// Something other than a colon after a key.
    MissingColon,
    /// A closing bracket after a comma.
    TrailingComma,
    /// Something after the value of the text.
    AfterTheValue,
    /// A byte order mark at the beginning.
    ByteOrderMark,
    /// A key with one `$` and no name of a type that is written by its name.
    UnknownType,
    /// A key with one `$` beside another key, or another key beside it.
    NotAlone,
    /// A table's key of more than 255 bytes.
    KeyTooLong,
    /// Anything but a number for a type that is written as a number.
    NotANumber,
    /// Anything but a string for a type that is written as a string.
    NotAString,
    /// A number that isn't an integer, or that the type doesn't hold.
    OutOfRange,
    /// An odd number of hexadecimal digits.
    OddDigits,
    /// A character that isn't a hexadecimal digit.
    NotHexadecimal,
    /// A `Float` that doesn't have 8 digits, or a `Double` that doesn't have 16.
    DigitCount,
    /// A decimal that isn't a number, `e-` and a scale, as `314e-2`.
    NotADecimal,
    /// A reason that only a later version of the library has.
    Other,
}

/// Why an entry isn't put into a table, which then stays as it was, or why the table isn't finished.
#[derive(Clone, Copy, Debug, PartialEq, Eq)]
#[non_exhaustive]
pub enum WriteError {
    /// The buffer is too small, which only [`TableBuilder::finish`](crate::TableBuilder::finish) returns.
    BufferTooSmall {
        /// How many bytes the whole table needs.
        needed: usize,
    },
    /// The key has more than 255 bytes.
    KeyTooLong,
    /// A string, a byte array or a container has 2^32 bytes or more.
    TooLarge,
    /// There isn't enough memory for the vector to grow.
    OutOfMemory,
}

impl fmt::Display for Error {
    fn fmt(&self, f: &mut fmt::Formatter<'_>) -> fmt::Result {
        match self {
            Self::Incomplete { missing } => write!(f, "{missing} more bytes are needed"),
            Self::Problem(problem) => problem.fmt(f),
            Self::OutOfMemory => f.write_str("out of memory"),
        }
    }
}

impl fmt::Display for Problem {
    fn fmt(&self, f: &mut fmt::Formatter<'_>) -> fmt::Result {
        write!(f, "{}, at {}", self.kind, self.offset)?;
        match self {
            Self { kind: ProblemKind::UnknownTag(0), offset: 0 } => {
                f.write_str(": a table without its type tag? `read_table` and calls like it take one")
            }
            _ => Ok(()),
        }
    }
}

impl fmt::Display for ProblemKind {
    fn fmt(&self, f: &mut fmt::Formatter<'_>) -> fmt::Result {
        f.write_str(match self {
            Self::UnknownTag(tag) => return write!(f, "unknown type tag {tag:#04x}"),
            Self::NotFinite => "a number that isn't finite",
            Self::Cut => "a value is cut",
            Self::KeyCut => "a key is cut",
            Self::KeyNotUtf8 => "a key isn't UTF-8",
            Self::TooDeep => "too deep",
            Self::TooLarge => "too large",
            Self::TooManyValues => "too many values",
            Self::NotJson(reason) => return write!(f, "not JSON: {reason}"),
            Self::NotAValue(reason) => return write!(f, "not the JSON of a value: {reason}"),
            Self::NotATable => "not the JSON of a table",
        })
    }
}

impl fmt::Display for JsonReason {
    fn fmt(&self, f: &mut fmt::Formatter<'_>) -> fmt::Result {
        f.write_str(match self {
            Self::UnexpectedEnd => "unexpected end",
            Self::UnfinishedString => "unfinished string",
            Self::UnexpectedCharacter => "unexpected character",
            Self::ControlCharacter => "control character in a string",
            Self::UnknownEscape => "unknown escape",
            Self::LoneSurrogate => "lone surrogate",
            Self::MissingComma => "missing comma",
            Self::MissingColon => "missing colon",
            Self::TrailingComma => "trailing comma",
            Self::AfterTheValue => "more text after the value",
            Self::ByteOrderMark => "byte order mark",
            Self::UnknownType => "expected the name of a type after `$`",
            Self::NotAlone => "expected no other key beside a type name",
            Self::KeyTooLong => "a key of more than 255 bytes",
            Self::NotANumber => "expected a number",
            Self::NotAString => "expected a string",
            Self::OutOfRange => "expected a number that the type holds",
            Self::OddDigits => "expected an even number of hexadecimal digits",
            Self::NotHexadecimal => "expected only hexadecimal digits",
            Self::DigitCount => "expected 8 hexadecimal digits of a Float, or 16 of a Double",
            Self::NotADecimal => "expected a number and a scale, as in 314e-2",
            Self::Other => "unknown reason",
        })
    }
}

impl fmt::Display for WriteError {
    fn fmt(&self, f: &mut fmt::Formatter<'_>) -> fmt::Result {
        match self {
            Self::BufferTooSmall { needed } => write!(f, "the buffer needs {needed} bytes"),
            Self::KeyTooLong => f.write_str("the key has more than 255 bytes"),
            Self::TooLarge => f.write_str("too large"),
            Self::OutOfMemory => f.write_str("out of memory"),
        }
    }
}

#[cfg(feature = "std")]
impl std::error::Error for Error {}
#[cfg(feature = "std")]
impl std::error::Error for Problem {}
#[cfg(feature = "std")]
impl std::error::Error for WriteError {}
