//! `read`, which checks a value within limits and returns it, and `check`, which only checks it.

use crate::{calls, Error, Limits, Measure, TableRef, ValueRef};
use amqp_values_sys::AMQPV_UNTAGGED;

/// Reads the value at the start of the bytes, its type tag included: checks all of it, the UTF-8 of keys too, and returns it
/// with the bytes after it.
///
/// It reads in one pass, and doesn't look at the bytes of strings. If the encoding has more bytes than [`Limits::values`], a
/// second pass counts the values.
///
/// # Errors
///
/// [`Error::Incomplete`] if more bytes are needed, else the first [`Problem`](crate::Problem).
///
/// # Examples
///
/// ```
/// use amqp_values::{read, Error, Limits, ValueRef};
///
/// let (value, rest) = read(b"I\0\0\x27\x10 and more", Limits::DEFAULT)?;
/// assert_eq!(value, ValueRef::LongInt(10_000));
/// assert_eq!(rest, b" and more");
/// assert_eq!(read(b"I\0\0", Limits::DEFAULT), Err(Error::Incomplete { missing: 2 }));
/// # Ok::<(), Error>(())
/// ```
pub fn read(bytes: &[u8], limits: Limits) -> Result<(ValueRef<'_>, &[u8]), Error> {
    let entry = calls::read(bytes, 0, limits)?;
    Ok((ValueRef::of(bytes, &entry), &bytes[entry.value.length..]))
}

/// Reads the table without its type tag at the start of the bytes, as methods and content headers have it: its length, then
/// its pairs. [`Limits::max_bytes`] counts the tag as if it were there.
///
/// # Errors
///
/// Those of [`read`].
///
/// # Examples
///
/// ```
/// use amqp_values::{read_table, Error, Limits, ValueRef};
///
/// let arguments = b"\0\0\0\x12\x0cx-max-lengthI\0\0\x27\x10";
/// let (table, rest) = read_table(arguments, Limits::DEFAULT)?;
/// assert_eq!(table.get("x-max-length"), Some(ValueRef::LongInt(10_000)));
/// assert_eq!(table.get("x-queue-type"), None);
/// assert!(rest.is_empty());
/// # Ok::<(), Error>(())
/// ```
pub fn read_table(bytes: &[u8], limits: Limits) -> Result<(TableRef<'_>, &[u8]), Error> {
    let entry = calls::read(bytes, AMQPV_UNTAGGED, limits)?;
    Ok((TableRef::of(bytes, &entry), &bytes[entry.value.length..]))
}

/// Checks what [`read`] would read, and returns how large it is: to reject a value before something is made of it.
///
/// # Errors
///
/// Those of [`read`].
pub fn check(bytes: &[u8], limits: Limits) -> Result<Measure, Error> {
    calls::measure(bytes, 0, limits)
}

/// Checks what [`read_table`] would read, and returns how large it is.
///
/// # Errors
///
/// Those of [`read`].
///
/// # Examples
///
/// ```
/// use amqp_values::{check_table, Error, Limits};
///
/// let arguments = b"\0\0\0\x12\x0cx-max-lengthI\0\0\x27\x10";
/// let size = check_table(arguments, Limits::DEFAULT)?;
/// assert_eq!((size.bytes, size.values, size.levels), (22, 2, 1));
/// # Ok::<(), Error>(())
/// ```
pub fn check_table(bytes: &[u8], limits: Limits) -> Result<Measure, Error> {
    calls::measure(bytes, AMQPV_UNTAGGED, limits)
}
