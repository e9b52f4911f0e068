//! `to_json` and `from_json`, and the same for tables without their type tag.

use crate::{calls, Error, Limits, Problem, ProblemKind};
use amqp_values_sys::{AMQPV_TABLE, AMQPV_UNTAGGED};
use std::string::String;
use std::vec::Vec;

/// White space of JSON.
const SPACE: [char; 4] = [' ', '\t', '\n', '\r'];

/// Returns the JSON of the value at the start of the bytes, its type tag included. Headers and arguments have no type tag: use
/// [`table_to_json`] for them.
///
/// A type that plain JSON doesn't have is an object with one key, as in `{"$LongInt":5}`. Different values have different JSON,
/// and [`from_json`] gives the value back.
///
/// Every pair of a table is written, in the order in which it is encoded. A key that comes again is written again: its last value
/// counts, but some JSON parsers take the first, and strict ones reject the text. [`warnings`](crate::rabbitmq::warnings) finds such
/// keys. If `canonical` is true, each key is written once with its last value, and keys ascend: equal values have equal texts.
///
/// Values may nest [`Limits::depth`] deep, up to 1024. JSON takes more stack than reading: 28 KiB, and for each level 736 bytes
/// on x86-64, 832 on aarch64. If `canonical` is true, a byte of the value takes at most 145 bytes of memory besides the text.
///
/// # Errors
///
/// Those of [`read`](crate::read), and [`Error::OutOfMemory`].
///
/// # Examples
///
/// ```
/// use amqp_values::{to_json, Error, Limits};
///
/// assert_eq!(to_json(b"S\0\0\0\x06quorum", Limits::DEFAULT, false)?, r#""quorum""#);
/// assert_eq!(to_json(b"I\0\0\0\x05", Limits::DEFAULT, false)?, r#"{"$LongInt":5}"#);
/// let table = b"F\0\0\0\x09\x01bV\x01aV\x01bV";
/// assert_eq!(to_json(table, Limits::DEFAULT, false)?, r#"{"b":null,"a":null,"b":null}"#);
/// assert_eq!(to_json(table, Limits::DEFAULT, true)?, r#"{"a":null,"b":null}"#);
/// # Ok::<(), Error>(())
/// ```
pub fn to_json(bytes: &[u8], limits: Limits, canonical: bool) -> Result<String, Error> {
    calls::to_json(bytes, 0, limits, canonical)
}

/// Returns the JSON of the table without its type tag at the start of the bytes, as methods and content headers have it, and as
/// [`to_json`] says.
///
/// # Examples
///
/// ```
/// use amqp_values::{table_from_json, table_to_json, Limits};
///
/// let text = r#"{"x-max-length": {"$LongInt": 10000}, "x-queue-type": "quorum"}"#;
/// let arguments = table_from_json(text, Limits::DEFAULT)?;
/// assert_eq!(arguments[..23], *b"\0\0\0\x2a\x0cx-max-lengthI\0\0\x27\x10\x0c");
/// let json = table_to_json(&arguments, Limits::DEFAULT, false)?;
/// assert_eq!(json, r#"{"x-max-length":{"$LongInt":10000},"x-queue-type":"quorum"}"#);
/// # Ok::<(), amqp_values::Error>(())
/// ```
///
/// # Errors
///
/// Those of [`read_table`](crate::read_table), and [`Error::OutOfMemory`].
pub fn table_to_json(bytes: &[u8], limits: Limits, canonical: bool) -> Result<String, Error> {
    calls::to_json(bytes, AMQPV_UNTAGGED, limits, canonical)
}

/// Returns the encoding of the value that a JSON text means, its type tag included. It is the canonical one: equal values have
/// equal encodings.
///
/// White space, escapes and the order of keys don't matter; of equal keys the last counts. Brackets nest at most
/// [`Limits::depth`] deep, and at most 127; that of a named value as `{"$LongInt":5}` counts. [`Limits::max_bytes`] and
/// [`Limits::values`] are on the encoding, and a text has at most 12 times as many bytes. A byte of it takes at most 180 bytes of
/// memory.
///
/// # Errors
///
/// [`Error::Problem`], with the offset in the text, where the text isn't [JSON](ProblemKind::NotJson) or not that
/// [of a value](ProblemKind::NotAValue), or nests [too deep](ProblemKind::TooDeep); with offset 0 if the value is beyond the
/// other limits. [`Error::OutOfMemory`].
///
/// # Examples
///
/// ```
/// use amqp_values::{from_json, Error, JsonReason, Limits, Problem, ProblemKind};
///
/// assert_eq!(from_json(r#"[{"$LongInt":5},"a"]"#, Limits::DEFAULT)?, b"A\0\0\0\x0bI\0\0\0\x05S\0\0\0\x01a");
/// let missing_comma = Problem { offset: 3, kind: ProblemKind::NotJson(JsonReason::MissingComma) };
/// assert_eq!(from_json("[1 2]", Limits::DEFAULT), Err(Error::Problem(missing_comma)));
/// # Ok::<(), Error>(())
/// ```
pub fn from_json(text: &str, limits: Limits) -> Result<Vec<u8>, Error> {
    calls::from_json(text, limits)
}

/// Returns the encoding of the table that a JSON text means, without its type tag, as methods and content headers have it.
///
/// # Errors
///
/// Those of [`from_json`], [`ProblemKind::NotATable`] if the value is another, and [`Error::OutOfMemory`].
pub fn table_from_json(text: &str, limits: Limits) -> Result<Vec<u8>, Error> {
    let mut encoding = calls::from_json(text, limits)?;
    if encoding.first() != Some(&AMQPV_TABLE) {
        let offset = text.len() - text.trim_start_matches(SPACE).len();
        return Err(Error::Problem(Problem { offset, kind: ProblemKind::NotATable }));
    }
    encoding.remove(0);
    Ok(encoding)
}
