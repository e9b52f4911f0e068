//! `Debug` of values that were read, and of builders: as much as a reader of a log wants, however large a value is.

use crate::{ArrayBuilder, ArrayRef, ArrayValues, TableBuilder, TablePairs, TableRef, ValueRef};
use core::cell::Cell;
use core::fmt::{self, Debug, Formatter};

/// How many values are shown inside a container, in all its levels.
const VALUES: usize = 64;
/// How many bytes are shown of a string or a byte array.
const BYTES: usize = 64;

/// A part of a value, and how many more values may be shown.
struct Shown<'c, T>(T, &'c Cell<usize>);

/// Whether one more value may be shown, which then counts.
fn may_show(left: &Cell<usize>) -> bool {
    let now = left.get();
    left.set(now.saturating_sub(1));
    now > 0
}

impl Debug for Shown<'_, ArrayValues<'_>> {
    fn fmt(&self, f: &mut Formatter<'_>) -> fmt::Result {
        let Self(values, left) = self;
        let (mut list, mut values) = (f.debug_list(), values.clone());
        while let Some(value) = values.next() {
            if !may_show(left) {
                let more = 1 + values.count();
                return list.entry(&format_args!(".. {more} more")).finish();
            }
            list.entry(&Shown(value, left));
        }
        list.finish()
    }
}

impl Debug for Shown<'_, TablePairs<'_>> {
    fn fmt(&self, f: &mut Formatter<'_>) -> fmt::Result {
        let Self(pairs, left) = self;
        let (mut map, mut pairs) = (f.debug_map(), pairs.clone());
        while let Some((key, value)) = pairs.next() {
            if !may_show(left) {
                let more = 1 + pairs.count();
                return map.entry(&format_args!(".."), &format_args!("{more} more")).finish();
            }
            map.entry(&key, &Shown(value, left));
        }
        map.finish()
    }
}

/// Bytes as in a byte string of Rust, and how many they are if not all are shown.
struct Bytes<'a>(&'a [u8]);

impl Debug for Bytes<'_> {
    fn fmt(&self, f: &mut Formatter<'_>) -> fmt::Result {
        let Self(bytes) = self;
        match bytes.get(..BYTES) {
            Some(first) if first.len() < bytes.len() => {
                write!(f, "b\"{}..\" of {} bytes", first.escape_ascii(), bytes.len())
            }
            _ => write!(f, "b\"{}\"", bytes.escape_ascii()),
        }
    }
}

impl Debug for Shown<'_, ValueRef<'_>> {
    fn fmt(&self, f: &mut Formatter<'_>) -> fmt::Result {
        let Self(value, left) = self;
        let mut show = |name, content: &dyn Debug| f.debug_tuple(name).field(content).finish();
        match value {
            ValueRef::Boolean(it) => show("Boolean", it),
            ValueRef::ShortShortInt(it) => show("ShortShortInt", it),
            ValueRef::ShortShortUInt(it) => show("ShortShortUInt", it),
            ValueRef::ShortInt(it) => show("ShortInt", it),
            ValueRef::ShortUInt(it) => show("ShortUInt", it),
            ValueRef::LongInt(it) => show("LongInt", it),
            ValueRef::LongUInt(it) => show("LongUInt", it),
            ValueRef::LongLongInt(it) => show("LongLongInt", it),
            ValueRef::Float(it) => show("Float", it),
            ValueRef::Double(it) => show("Double", it),
            ValueRef::DecimalValue(it) => show("DecimalValue", it),
            ValueRef::LongString(it) => show("LongString", &Bytes(it)),
            ValueRef::FieldArray(it) => show("FieldArray", &Shown(it.iter(), left)),
            ValueRef::Timestamp(it) => show("Timestamp", it),
            ValueRef::FieldTable(it) => show("FieldTable", &Shown(it.iter(), left)),
            ValueRef::ByteArray(it) => show("ByteArray", &Bytes(it)),
            ValueRef::Void => f.write_str("Void"),
        }
    }
}

macro_rules! shown {
    ($($(#[$doc:meta])* $of:ty: |$it:ident| $part:expr;)*) => {
        $(impl Debug for $of {
            $(#[$doc])*
            fn fmt(&self, f: &mut Formatter<'_>) -> fmt::Result {
                let $it = self;
                Shown($part, &Cell::new(VALUES)).fmt(f)
            }
        })*
    };
}

shown! {
    /// Shows the value, of a container at most 64 values in all levels, and at most 64 bytes of each string.
    ValueRef<'_>: |it| *it;
    /// Shows at most 64 values, in all levels.
    ArrayRef<'_>: |it| it.iter();
    /// Shows at most 64 pairs, in all levels.
    TableRef<'_>: |it| it.iter();
    /// Shows at most 64 of the values that are left.
    ArrayValues<'_>: |it| it.clone();
    /// Shows at most 64 of the pairs that are left.
    TablePairs<'_>: |it| it.clone();
}

/// Shows at most 64 pairs, in all levels, and, if the slice is too small, how many bytes the table needs so far. While a function fills
/// a container in it, nothing of that is shown.
impl Debug for TableBuilder<'_> {
    fn fmt(&self, f: &mut Formatter<'_>) -> fmt::Result {
        match self.pairs() {
            Ok(pairs) => pairs.fmt(f),
            Err(needed) => write!(f, "{{.. {needed} bytes}}"),
        }
    }
}

/// Shows at most 64 values, in all levels, and, if the slice is too small, how many bytes the table needs so far.
impl Debug for ArrayBuilder<'_> {
    fn fmt(&self, f: &mut Formatter<'_>) -> fmt::Result {
        match self.values() {
            Ok(values) => values.fmt(f),
            Err(needed) => write!(f, "[.. {needed} bytes]"),
        }
    }
}
