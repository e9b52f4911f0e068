//! Look-up in what was read: `get` by one key or position, and `get_path` by `PathStep`s.

use crate::calls::find;
use crate::{ArrayRef, TableRef, ValueRef};
use amqp_values_sys::{AMQPV_ARRAY, AMQPV_TABLE};

/// A step from a container to a value in it.
#[derive(Clone, Copy, Debug, PartialEq, Eq)]
pub enum PathStep<'p> {
    /// To the value at this key of a table.
    Key(&'p str),
    /// To the value at this position of an array, counted from 0.
    Index(usize),
}

/// Which of several pairs with an equal key a look-up takes.
#[derive(Clone, Copy, Debug, PartialEq, Eq)]
pub enum EqualKeys {
    /// The first: [`TableRef::get_first`].
    First,
    /// The last, as `amq-protocol-types` takes: [`TableRef::get`].
    Last,
}

impl<'a> ArrayRef<'a> {
    /// Returns the value at a position, counted from 0, or `None` if it is past the end.
    #[must_use]
    pub fn get(self, index: usize) -> Option<ValueRef<'a>> {
        ValueRef::FieldArray(self).step(PathStep::Index(index), EqualKeys::Last)
    }
}

impl<'a> TableRef<'a> {
    /// Returns the value at a key, of equal keys the last one's, or `None` if no pair has the key.
    #[must_use]
    pub fn get(self, key: &str) -> Option<ValueRef<'a>> {
        ValueRef::FieldTable(self).step(PathStep::Key(key), EqualKeys::Last)
    }

    /// Returns the value at a key, of equal keys the first one's, or `None` if no pair has the key. RabbitMQ 3.10.8 and 4.0.5 use
    /// the first of a queue's arguments. Of a message's headers 3.10.8 routes by it; 4.0.5 delivers it, and routes by the last.
    #[must_use]
    pub fn get_first(self, key: &str) -> Option<ValueRef<'a>> {
        ValueRef::FieldTable(self).step(PathStep::Key(key), EqualKeys::First)
    }

    /// Returns the value that the steps lead to, as [`ValueRef::get_path`] does.
    ///
    /// # Examples
    ///
    /// ```
    /// use amqp_values::{read_table, EqualKeys, Error, Limits, PathStep::*, ValueRef};
    ///
    /// let headers = b"\0\0\0\x21\x07x-deathA\0\0\0\x14F\0\0\0\x0f\x05countl\0\0\0\0\0\0\0\x03";
    /// let (headers, _) = read_table(headers, Limits::DEFAULT)?;
    /// let count = headers.get_path(&[Key("x-death"), Index(0), Key("count")], EqualKeys::First);
    /// assert_eq!(count.and_then(ValueRef::as_int), Some(3));
    /// assert_eq!(headers.get_path(&[Key("x-death"), Index(1)], EqualKeys::First), None);
    /// # Ok::<(), Error>(())
    /// ```
    #[must_use]
    pub fn get_path(self, path: &[PathStep<'_>], of_equal: EqualKeys) -> Option<ValueRef<'a>> {
        ValueRef::FieldTable(self).get_path(path, of_equal)
    }
}

impl<'a> ValueRef<'a> {
    /// Returns the value that the steps lead to, one after another from this value on; no steps lead to the value itself.
    ///
    /// `None` if a step finds nothing: no such key, no such position, or a value of another type.
    #[must_use]
    pub fn get_path(self, path: &[PathStep<'_>], of_equal: EqualKeys) -> Option<Self> {
        path.iter().try_fold(self, |at, step| at.step(*step, of_equal))
    }

    fn step(self, step: PathStep<'_>, of_equal: EqualKeys) -> Option<Self> {
        let (body, tag) = match self {
            Self::FieldArray(array) => (array.body(), AMQPV_ARRAY),
            Self::FieldTable(table) => (table.body(), AMQPV_TABLE),
            _ => return None,
        };
        find(body, tag, step, of_equal).map(|entry| Self::of(body, &entry))
    }
}
