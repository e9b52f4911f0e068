//! `TableBuilder` and `ArrayBuilder`, which write values into a buffer of the caller.

use crate::calls::Body;
use crate::{ArrayValues, TablePairs, ValueRef, WriteError};
use amqp_values_sys::{AMQPV_ARRAY, AMQPV_TABLE};
#[cfg(feature = "std")]
use std::vec::Vec;

/// Builds a table in a slice or at the end of a vector, pair by pair.
///
/// After an error nothing of the pair is in the table, and others may be put.
///
/// In a slice nothing is allocated. If the slice is too small, the builder goes on counting, and [`finish`](Self::finish) returns how
/// many bytes the whole table needs. So the same function measures a table, by an empty slice, and builds it.
///
/// # Examples
///
/// ```
/// use amqp_values::{TableBuilder, WriteError};
///
/// let mut buffer = [0; 64];
/// let mut arguments = TableBuilder::new(&mut buffer);
/// arguments.put("x-max-length", 10_000)?;
/// arguments.put("x-queue-type", "quorum")?;
/// let table = arguments.finish()?;
/// assert_eq!(table, b"\0\0\0\x2a\x0cx-max-lengthI\0\0\x27\x10\x0cx-queue-typeS\0\0\0\x06quorum");
/// # Ok::<(), WriteError>(())
/// ```
pub struct TableBuilder<'b>(Body<'b>);

/// Builds an array in a buffer, value by value, as a [`TableBuilder`] builds a table.
pub struct ArrayBuilder<'b>(Body<'b>);

impl<'b> TableBuilder<'b> {
    /// Makes an empty table at the start of a slice.
    pub fn new(buffer: &'b mut [u8]) -> Self {
        Self(Body::in_slice(buffer))
    }

    /// Makes an empty table after what a vector has. The vector grows as needed, and ends with the table once that is
    /// [finished](Self::finish). Without that any bytes may follow what it had: truncate it. Needs the feature `std`.
    ///
    /// # Examples
    ///
    /// ```
    /// use amqp_values::{TableBuilder, WriteError};
    ///
    /// let mut frame = vec![0x80];
    /// let mut headers = TableBuilder::append_to(&mut frame);
    /// headers.put("a", true)?;
    /// headers.finish()?;
    /// assert_eq!(frame, b"\x80\0\0\0\x04\x01at\x01");
    /// # Ok::<(), WriteError>(())
    /// ```
    #[cfg(feature = "std")]
    pub fn append_to(bytes: &'b mut Vec<u8>) -> Self {
        Self(Body::after(bytes))
    }

    /// Appends a pair. A key may come again, but don't send such a table: RabbitMQ and clients take different pairs. A container
    /// that was read keeps its levels: inside a table they may be more than those of [`Limits::DEFAULT`](crate::Limits::DEFAULT).
    ///
    /// A value that was read is written as the bytes that came, except that the type tags `U` and `L` become `s` and `l`, and a true that
    /// isn't 1 becomes 1. Inside a container that was read these stay too.
    ///
    /// # Errors
    ///
    /// [`WriteError::KeyTooLong`] or [`WriteError::TooLarge`], and in a vector [`WriteError::OutOfMemory`].
    ///
    /// # Examples
    ///
    /// After an error the table is as before:
    ///
    /// ```
    /// use amqp_values::{TableBuilder, WriteError};
    ///
    /// let mut buffer = [0; 16];
    /// let mut table = TableBuilder::new(&mut buffer);
    /// assert_eq!(table.put(&"k".repeat(256), 10_000), Err(WriteError::KeyTooLong));
    /// table.put("a", true)?;
    /// assert_eq!(table.finish()?, b"\0\0\0\x04\x01at\x01");
    /// # Ok::<(), WriteError>(())
    /// ```
    pub fn put<'v>(&mut self, key: &str, value: impl Into<ValueRef<'v>>) -> Result<(), WriteError> {
        self.0.put(key, value.into())
    }

    /// Appends a key with a table, which a function fills.
    ///
    /// # Errors
    ///
    /// Those of [`put`](Self::put), and that of the function, whose type may be your own.
    ///
    /// # Examples
    ///
    /// ```
    /// use amqp_values::{TableBuilder, WriteError};
    ///
    /// # #[derive(Debug)]
    /// enum Failed {
    ///     Parsing(std::num::ParseIntError),
    ///     Writing(WriteError),
    /// }
    /// # impl From<std::num::ParseIntError> for Failed { fn from(why: std::num::ParseIntError) -> Self { Self::Parsing(why) } }
    /// # impl From<WriteError> for Failed { fn from(why: WriteError) -> Self { Self::Writing(why) } }
    ///
    /// let mut buffer = [0; 64];
    /// let mut arguments = TableBuilder::new(&mut buffer);
    /// arguments.put_table("limits", |limits| {
    ///     limits.put("low", "5".parse::<i16>()?)?;
    ///     Ok::<(), Failed>(())
    /// })?;
    /// assert_eq!(arguments.finish()?, b"\0\0\0\x13\x06limitsF\0\0\0\x07\x03lows\0\x05");
    /// # Ok::<(), Failed>(())
    /// ```
    pub fn put_table<E: From<WriteError>>(
        &mut self,
        key: &str,
        fill: impl FnOnce(&mut TableBuilder<'_>) -> Result<(), E>,
    ) -> Result<(), E> {
        self.0.put_table(key, fill)
    }

    /// Appends a key with an array, which a function fills.
    ///
    /// # Errors
    ///
    /// Those of [`put`](Self::put), and that of the function, whose type may be your own.
    ///
    /// # Examples
    ///
    /// ```
    /// use amqp_values::{TableBuilder, ValueRef, WriteError};
    ///
    /// let mut buffer = [0; 64];
    /// let mut table = TableBuilder::new(&mut buffer);
    /// table.put_array("hosts", |hosts| {
    ///     hosts.push("a")?;
    ///     hosts.push(ValueRef::Void)
    /// })?;
    /// assert_eq!(table.finish()?, b"\0\0\0\x12\x05hostsA\0\0\0\x07S\0\0\0\x01aV");
    /// # Ok::<(), WriteError>(())
    /// ```
    pub fn put_array<E: From<WriteError>>(
        &mut self,
        key: &str,
        fill: impl FnOnce(&mut ArrayBuilder<'_>) -> Result<(), E>,
    ) -> Result<(), E> {
        self.0.put_array(key, fill)
    }

    /// Returns the table without its type tag, as methods and content headers have it: its length, then its pairs.
    ///
    /// # Errors
    ///
    /// [`WriteError::TooLarge`] if the pairs have 2^32 bytes or more, and else [`WriteError::BufferTooSmall`] if they don't fit a
    /// slice. In a vector [`WriteError::OutOfMemory`].
    ///
    /// # Examples
    ///
    /// A slice that is as large as it has to be:
    ///
    /// ```
    /// use amqp_values::{TableBuilder, WriteError};
    ///
    /// fn arguments(buffer: &mut [u8]) -> Result<&[u8], WriteError> {
    ///     let mut arguments = TableBuilder::new(buffer);
    ///     arguments.put("x-max-length", 10_000)?;
    ///     arguments.put("x-queue-type", "quorum")?;
    ///     arguments.finish()
    /// }
    ///
    /// let mut buffer = Vec::new();
    /// if let Err(WriteError::BufferTooSmall { needed }) = arguments(&mut buffer) {
    ///     buffer.resize(needed, 0);
    /// }
    /// assert_eq!(arguments(&mut buffer)?.len(), buffer.len());
    /// # Ok::<(), WriteError>(())
    /// ```
    pub fn finish(self) -> Result<&'b [u8], WriteError> {
        self.0.finish()
    }
}

impl TableBuilder<'_> {
    /// The pairs so far, or how many bytes the table needs if the slice is too small.
    pub(crate) fn pairs(&self) -> Result<TablePairs<'_>, usize> {
        self.0.written().map(TablePairs::in_body)
    }
}

impl ArrayBuilder<'_> {
    /// The values so far, or how many bytes the table needs if the slice is too small.
    pub(crate) fn values(&self) -> Result<ArrayValues<'_>, usize> {
        self.0.written().map(ArrayValues::in_body)
    }

    /// Appends a value.
    ///
    /// # Errors
    ///
    /// [`WriteError::TooLarge`], and in a vector [`WriteError::OutOfMemory`].
    pub fn push<'v>(&mut self, value: impl Into<ValueRef<'v>>) -> Result<(), WriteError> {
        self.0.put("", value.into())
    }

    /// Appends a table, which a function fills.
    ///
    /// # Errors
    ///
    /// Those of [`push`](Self::push), and that of the function, whose type may be your own.
    pub fn push_table<E: From<WriteError>>(
        &mut self,
        fill: impl FnOnce(&mut TableBuilder<'_>) -> Result<(), E>,
    ) -> Result<(), E> {
        self.0.put_table("", fill)
    }

    /// Appends an array, which a function fills.
    ///
    /// # Errors
    ///
    /// Those of [`push`](Self::push), and that of the function, whose type may be your own.
    pub fn push_array<E: From<WriteError>>(
        &mut self,
        fill: impl FnOnce(&mut ArrayBuilder<'_>) -> Result<(), E>,
    ) -> Result<(), E> {
        self.0.put_array("", fill)
    }
}

impl Body<'_> {
    fn put_table<E: From<WriteError>>(
        &mut self,
        key: &str,
        fill: impl FnOnce(&mut TableBuilder<'_>) -> Result<(), E>,
    ) -> Result<(), E> {
        self.put_filled(key, AMQPV_TABLE, |body| fill(&mut TableBuilder(body)))
    }

    fn put_array<E: From<WriteError>>(
        &mut self,
        key: &str,
        fill: impl FnOnce(&mut ArrayBuilder<'_>) -> Result<(), E>,
    ) -> Result<(), E> {
        self.put_filled(key, AMQPV_ARRAY, |body| fill(&mut ArrayBuilder(body)))
    }
}
