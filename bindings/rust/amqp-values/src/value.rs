//! `ValueRef`, a value in the bytes that it was read from, with `ArrayRef` and `TableRef`.

use crate::calls::{bytes_of, LENGTH};
use amqp_values_sys as sys;
use core::str;

/// A decimal number.
#[derive(Clone, Copy, Debug, PartialEq, Eq)]
pub struct DecimalValue {
    /// How many digits are after the point.
    pub scale: u8,
    /// The digits, as an integer.
    pub value: u32,
}

/// An array in some bytes that were read. Two are equal if their bytes are.
#[derive(Clone, Copy, PartialEq, Eq)]
pub struct ArrayRef<'a> {
    /// A type tag, a length and values.
    encoding: &'a [u8],
}

/// A table in some bytes that were read. Two are equal if their bytes are.
#[derive(Clone, Copy, PartialEq, Eq)]
pub struct TableRef<'a> {
    /// A length and pairs.
    encoding: &'a [u8],
}

/// A value in some bytes that were read.
#[derive(Clone, Copy, PartialEq)]
pub enum ValueRef<'a> {
    /// A boolean.
    Boolean(bool),
    /// A signed integer of 8 bits.
    ShortShortInt(i8),
    /// An unsigned integer of 8 bits.
    ShortShortUInt(u8),
    /// A signed integer of 16 bits.
    ShortInt(i16),
    /// An unsigned integer of 16 bits.
    ShortUInt(u16),
    /// A signed integer of 32 bits.
    LongInt(i32),
    /// An unsigned integer of 32 bits.
    LongUInt(u32),
    /// A signed integer of 64 bits.
    LongLongInt(i64),
    /// A floating-point number of 32 bits.
    Float(f32),
    /// A floating-point number of 64 bits.
    Double(f64),
    /// A decimal number.
    DecimalValue(DecimalValue),
    /// Any bytes, which most peers take for a string.
    LongString(&'a [u8]),
    /// A list of values.
    FieldArray(ArrayRef<'a>),
    /// A time: by the specification, seconds since 1970.
    Timestamp(u64),
    /// A list of pairs, each a key and a value.
    FieldTable(TableRef<'a>),
    /// Any bytes.
    ByteArray(&'a [u8]),
    /// No value.
    Void,
}

/// What a call puts.
pub(crate) enum Payload<'a> {
    /// A value of fixed width.
    Fixed { tag: u8, bits: u64, scale: u8 },
    /// A string or a byte array.
    Bytes { tag: u8, bytes: &'a [u8] },
    /// An array or a table, with the flags by which it is read.
    Container { encoding: &'a [u8], flags: u32 },
}

impl<'a> ArrayRef<'a> {
    fn of(bytes: &'a [u8], entry: &sys::amqpv_entry) -> Self {
        Self { encoding: bytes_of(bytes, entry.value) }
    }

    /// Returns the encoding, its type tag included, as [`read`](crate::read) and `to_json` take it. (That of a table has none.)
    #[must_use]
    pub fn as_bytes(self) -> &'a [u8] {
        self.encoding
    }

    pub(crate) fn body(self) -> &'a [u8] {
        &self.encoding[1 + LENGTH..]
    }
}

impl<'a> TableRef<'a> {
    /// The table of an entry of these bytes, which may have a type tag or not.
    pub(crate) fn of(bytes: &'a [u8], entry: &sys::amqpv_entry) -> Self {
        let sys::amqpv_span { offset, length } = entry.content;
        Self { encoding: &bytes[offset - LENGTH..offset + length] }
    }

    /// Returns the encoding without a type tag, as [`read_table`](crate::read_table) and `table_to_json` take it. So a table in another
    /// can be converted.
    ///
    /// # Examples
    ///
    /// ```
    /// use amqp_values::{read_table, Error, Limits, ValueRef};
    ///
    /// let (headers, _) = read_table(b"\0\0\0\x0b\x01aF\0\0\0\x04\x01bt\x01", Limits::DEFAULT)?;
    /// let inner = headers.get("a").and_then(ValueRef::as_table).unwrap();
    /// assert_eq!(inner.as_bytes(), b"\0\0\0\x04\x01bt\x01");
    /// # Ok::<(), Error>(())
    /// ```
    #[must_use]
    pub fn as_bytes(self) -> &'a [u8] {
        self.encoding
    }

    pub(crate) fn body(self) -> &'a [u8] {
        &self.encoding[LENGTH..]
    }
}

impl<'a> ValueRef<'a> {
    /// The value of an entry of these bytes.
    pub(crate) fn of(bytes: &'a [u8], entry: &sys::amqpv_entry) -> Self {
        let (bits, content) = (entry.bits, || bytes_of(bytes, entry.content));
        match entry.tag {
            sys::AMQPV_BOOLEAN => Self::Boolean(bits != 0),
            sys::AMQPV_SHORT_SHORT_INT => Self::ShortShortInt(bits as i8),
            sys::AMQPV_SHORT_SHORT_UINT => Self::ShortShortUInt(bits as u8),
            sys::AMQPV_SHORT_INT => Self::ShortInt(bits as i16),
            sys::AMQPV_SHORT_UINT => Self::ShortUInt(bits as u16),
            sys::AMQPV_LONG_INT => Self::LongInt(bits as i32),
            sys::AMQPV_LONG_UINT => Self::LongUInt(bits as u32),
            sys::AMQPV_LONG_LONG_INT => Self::LongLongInt(bits as i64),
            sys::AMQPV_FLOAT => Self::Float(f32::from_bits(bits as u32)),
            sys::AMQPV_DOUBLE => Self::Double(f64::from_bits(bits)),
            sys::AMQPV_DECIMAL => Self::DecimalValue(DecimalValue { scale: entry.scale, value: bits as u32 }),
            sys::AMQPV_LONG_STRING => Self::LongString(content()),
            sys::AMQPV_ARRAY => Self::FieldArray(ArrayRef::of(bytes, entry)),
            sys::AMQPV_TIMESTAMP => Self::Timestamp(bits),
            sys::AMQPV_TABLE => Self::FieldTable(TableRef::of(bytes, entry)),
            sys::AMQPV_BYTE_ARRAY => Self::ByteArray(content()),
            // an entry has no other tag than AMQPV_VOID
            _ => Self::Void,
        }
    }

    /// The value as the calls take it.
    pub(crate) fn payload(self) -> Payload<'a> {
        let fixed = |tag, bits| Payload::Fixed { tag, bits, scale: 0 };
        let signed = |tag, number: i64| fixed(tag, number as u64);
        match self {
            Self::Boolean(truth) => fixed(sys::AMQPV_BOOLEAN, truth.into()),
            Self::ShortShortInt(number) => signed(sys::AMQPV_SHORT_SHORT_INT, number.into()),
            Self::ShortShortUInt(number) => fixed(sys::AMQPV_SHORT_SHORT_UINT, number.into()),
            Self::ShortInt(number) => signed(sys::AMQPV_SHORT_INT, number.into()),
            Self::ShortUInt(number) => fixed(sys::AMQPV_SHORT_UINT, number.into()),
            Self::LongInt(number) => signed(sys::AMQPV_LONG_INT, number.into()),
            Self::LongUInt(number) => fixed(sys::AMQPV_LONG_UINT, number.into()),
            Self::LongLongInt(number) => signed(sys::AMQPV_LONG_LONG_INT, number),
            Self::Float(number) => fixed(sys::AMQPV_FLOAT, number.to_bits().into()),
            Self::Double(number) => fixed(sys::AMQPV_DOUBLE, number.to_bits()),
            Self::DecimalValue(DecimalValue { scale, value }) => {
                Payload::Fixed { tag: sys::AMQPV_DECIMAL, bits: value.into(), scale }
            }
            Self::LongString(bytes) => Payload::Bytes { tag: sys::AMQPV_LONG_STRING, bytes },
            Self::FieldArray(ArrayRef { encoding }) => Payload::Container { encoding, flags: 0 },
            Self::Timestamp(seconds) => fixed(sys::AMQPV_TIMESTAMP, seconds),
            Self::FieldTable(TableRef { encoding }) => Payload::Container { encoding, flags: sys::AMQPV_UNTAGGED },
            Self::ByteArray(bytes) => Payload::Bytes { tag: sys::AMQPV_BYTE_ARRAY, bytes },
            Self::Void => fixed(sys::AMQPV_VOID, 0),
        }
    }

    /// Returns the number of an integer of any type, or `None` for a value of another type. A timestamp isn't an integer.
    #[must_use]
    pub fn as_int(self) -> Option<i64> {
        Some(match self {
            Self::ShortShortInt(number) => number.into(),
            Self::ShortShortUInt(number) => number.into(),
            Self::ShortInt(number) => number.into(),
            Self::ShortUInt(number) => number.into(),
            Self::LongInt(number) => number.into(),
            Self::LongUInt(number) => number.into(),
            Self::LongLongInt(number) => number,
            _ => return None,
        })
    }

    /// Returns the number of an integer of any type, or `None` if it is negative or the value has another type. A timestamp isn't an
    /// integer.
    ///
    /// # Examples
    ///
    /// ```
    /// use amqp_values::ValueRef;
    ///
    /// assert_eq!(ValueRef::LongInt(5).as_uint(), Some(5));
    /// assert_eq!(ValueRef::LongInt(-5).as_uint(), None);
    /// ```
    #[must_use]
    pub fn as_uint(self) -> Option<u64> {
        self.as_int()?.try_into().ok()
    }

    /// Returns a boolean, or `None` for a value of another type.
    #[must_use]
    pub fn as_bool(self) -> Option<bool> {
        match self {
            Self::Boolean(truth) => Some(truth),
            _ => None,
        }
    }

    /// Returns the number of a Float or a Double, or `None` for a value of another type, also an integer.
    #[must_use]
    pub fn as_f64(self) -> Option<f64> {
        match self {
            Self::Float(number) => Some(number.into()),
            Self::Double(number) => Some(number),
            _ => None,
        }
    }

    /// Returns the text of a string, or `None` if it isn't UTF-8 or the value has another type.
    #[must_use]
    pub fn as_str(self) -> Option<&'a str> {
        match self {
            Self::LongString(bytes) => str::from_utf8(bytes).ok(),
            _ => None,
        }
    }

    /// Returns the array, or `None` for a value of another type.
    #[must_use]
    pub fn as_array(self) -> Option<ArrayRef<'a>> {
        match self {
            Self::FieldArray(array) => Some(array),
            _ => None,
        }
    }

    /// Returns the table, or `None` for a value of another type.
    #[must_use]
    pub fn as_table(self) -> Option<TableRef<'a>> {
        match self {
            Self::FieldTable(table) => Some(table),
            _ => None,
        }
    }
}

/// Values that are made of Rust's own types, and of decimals.
macro_rules! made_of {
    ($($of:ty => $variant:ident),* $(,)?) => {
        $(impl From<$of> for ValueRef<'_> {
            fn from(value: $of) -> Self {
                Self::$variant(value)
            }
        })*
    };
}

made_of! {
    bool => Boolean,
    i8 => ShortShortInt,
    u8 => ShortShortUInt,
    i16 => ShortInt,
    u16 => ShortUInt,
    i32 => LongInt,
    u32 => LongUInt,
    i64 => LongLongInt,
    f32 => Float,
    f64 => Double,
    DecimalValue => DecimalValue,
}

impl<'a> From<&'a str> for ValueRef<'a> {
    /// Makes a string.
    fn from(text: &'a str) -> Self {
        Self::LongString(text.as_bytes())
    }
}
