//! `ArrayValues` and `TablePairs`, the iterators over an array and a table that were read.

use crate::calls::{cursor, key_of, next};
use crate::{ArrayRef, TableRef, ValueRef};
use amqp_values_sys::{amqpv_cursor, AMQPV_ARRAY, AMQPV_TABLE};
use core::iter::FusedIterator;

/// The values of an array, in their order.
#[derive(Clone)]
pub struct ArrayValues<'a> {
    body: &'a [u8],
    cursor: amqpv_cursor,
}

/// The pairs of a table as they are written, each of several equal keys too.
#[derive(Clone)]
pub struct TablePairs<'a> {
    body: &'a [u8],
    cursor: amqpv_cursor,
}

impl<'a> ArrayValues<'a> {
    pub(crate) fn in_body(body: &'a [u8]) -> Self {
        Self { body, cursor: cursor(body, AMQPV_ARRAY) }
    }
}

impl<'a> TablePairs<'a> {
    pub(crate) fn in_body(body: &'a [u8]) -> Self {
        Self { body, cursor: cursor(body, AMQPV_TABLE) }
    }
}

impl<'a> Iterator for ArrayValues<'a> {
    type Item = ValueRef<'a>;

    #[inline]
    fn next(&mut self) -> Option<Self::Item> {
        next(self.body, &mut self.cursor).map(|entry| ValueRef::of(self.body, &entry))
    }
}

impl<'a> Iterator for TablePairs<'a> {
    type Item = (&'a str, ValueRef<'a>);

    #[inline]
    fn next(&mut self) -> Option<Self::Item> {
        let entry = next(self.body, &mut self.cursor)?;
        Some((key_of(self.body, &entry), ValueRef::of(self.body, &entry)))
    }
}

impl FusedIterator for ArrayValues<'_> {}
impl FusedIterator for TablePairs<'_> {}

impl<'a> ArrayRef<'a> {
    /// Counts the values, one by one.
    #[must_use]
    pub fn len(self) -> usize {
        self.iter().count()
    }

    /// Returns whether there is no value.
    #[must_use]
    pub fn is_empty(self) -> bool {
        self.body().is_empty()
    }

    /// Returns an iterator over the values, in their order.
    #[must_use]
    pub fn iter(self) -> ArrayValues<'a> {
        ArrayValues::in_body(self.body())
    }
}

impl<'a> TableRef<'a> {
    /// Counts the pairs, one by one. A key that comes again counts again.
    #[must_use]
    pub fn len(self) -> usize {
        self.iter().count()
    }

    /// Returns whether there is no pair.
    #[must_use]
    pub fn is_empty(self) -> bool {
        self.body().is_empty()
    }

    /// Returns an iterator over the pairs, in the order in which they are written. A key may come more than once.
    ///
    /// # Examples
    ///
    /// ```
    /// use amqp_values::{read_table, Error, Limits, ValueRef};
    ///
    /// let (table, _) = read_table(b"\0\0\0\x08\x01bt\x01\x01at\0", Limits::DEFAULT)?;
    /// let pairs: Vec<_> = table.iter().collect();
    /// assert_eq!(pairs, [("b", ValueRef::Boolean(true)), ("a", ValueRef::Boolean(false))]);
    /// # Ok::<(), Error>(())
    /// ```
    #[must_use]
    pub fn iter(self) -> TablePairs<'a> {
        TablePairs::in_body(self.body())
    }
}

impl<'a> IntoIterator for ArrayRef<'a> {
    type Item = ValueRef<'a>;
    type IntoIter = ArrayValues<'a>;

    fn into_iter(self) -> Self::IntoIter {
        self.iter()
    }
}

impl<'a> IntoIterator for TableRef<'a> {
    type Item = (&'a str, ValueRef<'a>);
    type IntoIter = TablePairs<'a>;

    fn into_iter(self) -> Self::IntoIter {
        self.iter()
    }
}
