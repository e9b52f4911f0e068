//! The C API as safe functions. No other module has `unsafe`.
//!
//! What the header asks of callers holds for references: structs are aligned, what is written overlaps nothing else, and no slice
//! has more than `isize::MAX` bytes. [`Limits`] says how much stack is needed.
#![allow(unsafe_code)]

use crate::value::Payload;
use crate::{EqualKeys, Error, JsonReason, Limits, Measure, PathStep, Problem, ProblemKind, ValueRef, WriteError};
use amqp_values_sys::*;
use core::str;
#[cfg(feature = "std")]
use std::{string::String, vec::Vec};

/// How many bytes the length of a table has.
pub(crate) const LENGTH: usize = 4;

/// The most levels for the calls that allocate, of which each takes more stack than one of reading.
#[cfg(feature = "std")]
const ALLOCATING_DEPTH: u32 = Limits::MOST_DEPTH / 4;

/// How many bytes the JSON of a value may have for each byte of its encoding.
#[cfg(feature = "std")]
const JSON_FOR_A_BYTE: usize = 12;

/// A call that checks all of a value.
type Check<T> = unsafe extern "C" fn(*const amqpv_input, *mut T, *mut amqpv_problem) -> amqpv_result;

fn input(bytes: &[u8], flags: u32, limits: Limits) -> amqpv_input {
    amqpv_input {
        bytes: bytes.as_ptr(),
        length: bytes.len(),
        max_bytes: limits.max_bytes,
        max_depth: limits.depth.min(Limits::MOST_DEPTH),
        flags,
    }
}

#[inline]
fn checked<T: Default>(call: Check<T>, bytes: &[u8], flags: u32, limits: Limits) -> Result<T, Error> {
    let (mut found, mut problem) = (T::default(), amqpv_problem::default());
    // SAFETY: `bytes` can be read, `found` and `problem` are borrowed alone, and the stack suffices for the depth
    match unsafe { call(&input(bytes, flags, limits), &mut found, &mut problem) } {
        AMQPV_OK => Ok(found),
        AMQPV_MORE => Err(Error::Incomplete { missing: problem.missing }),
        result => Err(Error::Problem(Problem { offset: problem.offset, kind: kind_of(result, problem) })),
    }
}

fn kind_of(result: amqpv_result, problem: amqpv_problem) -> ProblemKind {
    match result {
        AMQPV_UNKNOWN_TAG => ProblemKind::UnknownTag(problem.tag),
        AMQPV_KEY_CUT => ProblemKind::KeyCut,
        AMQPV_KEY_NOT_UTF8 => ProblemKind::KeyNotUtf8,
        AMQPV_NOT_FINITE => ProblemKind::NotFinite,
        AMQPV_TOO_DEEP => ProblemKind::TooDeep,
        AMQPV_TOO_LARGE => ProblemKind::TooLarge,
        AMQPV_NOT_JSON => ProblemKind::NotJson(reason_of(problem.reason)),
        AMQPV_NOT_A_VALUE => ProblemKind::NotAValue(reason_of(problem.reason)),
        // AMQPV_CUT: the flags are known, and a str is UTF-8
        _ => ProblemKind::Cut,
    }
}

fn reason_of(reason: u8) -> JsonReason {
    match reason {
        AMQPV_JSON_UNEXPECTED_END => JsonReason::UnexpectedEnd,
        AMQPV_JSON_UNFINISHED_STRING => JsonReason::UnfinishedString,
        AMQPV_JSON_UNEXPECTED_CHARACTER => JsonReason::UnexpectedCharacter,
        AMQPV_JSON_CONTROL_CHARACTER => JsonReason::ControlCharacter,
        AMQPV_JSON_UNKNOWN_ESCAPE => JsonReason::UnknownEscape,
        AMQPV_JSON_LONE_SURROGATE => JsonReason::LoneSurrogate,
        AMQPV_JSON_MISSING_COMMA => JsonReason::MissingComma,
        AMQPV_JSON_MISSING_COLON => JsonReason::MissingColon,
        AMQPV_JSON_TRAILING_COMMA => JsonReason::TrailingComma,
        AMQPV_JSON_AFTER_THE_VALUE => JsonReason::AfterTheValue,
        AMQPV_JSON_BYTE_ORDER_MARK => JsonReason::ByteOrderMark,
        AMQPV_JSON_UNKNOWN_TYPE => JsonReason::UnknownType,
        AMQPV_JSON_NOT_ALONE => JsonReason::NotAlone,
        AMQPV_JSON_KEY_TOO_LONG => JsonReason::KeyTooLong,
        AMQPV_JSON_NOT_A_NUMBER => JsonReason::NotANumber,
        AMQPV_JSON_NOT_A_STRING => JsonReason::NotAString,
        AMQPV_JSON_OUT_OF_RANGE => JsonReason::OutOfRange,
        AMQPV_JSON_ODD_DIGITS => JsonReason::OddDigits,
        AMQPV_JSON_NOT_HEXADECIMAL => JsonReason::NotHexadecimal,
        AMQPV_JSON_DIGIT_COUNT => JsonReason::DigitCount,
        AMQPV_JSON_NOT_A_DECIMAL => JsonReason::NotADecimal,
        _ => JsonReason::Other,
    }
}

fn within_values(values: usize, limits: Limits) -> bool {
    u32::try_from(values).map_or(false, |it| it <= limits.values)
}

/// Reads the value at the start of the bytes.
#[inline]
pub(crate) fn read(bytes: &[u8], flags: u32, limits: Limits) -> Result<amqpv_entry, Error> {
    let entry = checked(amqpv_read, bytes, flags, limits)?;
    // each value has at least a byte
    if !within_values(entry.value.length, limits) {
        measure(bytes, flags, limits)?;
    }
    Ok(entry)
}

pub(crate) fn measure(bytes: &[u8], flags: u32, limits: Limits) -> Result<Measure, Error> {
    let size = checked(amqpv_measure, bytes, flags, limits)?;
    if !within_values(size.values, limits) {
        return Err(Error::Problem(Problem { offset: 0, kind: ProblemKind::TooManyValues }));
    }
    Ok(Measure { bytes: size.bytes, values: size.values, levels: size.levels })
}

/// The first problem by RabbitMQ's rules or those of this crate, and otherwise that there are too many values.
pub(crate) fn problem_for_rabbitmq(bytes: &[u8], flags: u32, limits: Limits) -> Option<Problem> {
    let as_problem = |error| match error {
        Error::Problem(problem) => problem,
        // (Error::Incomplete: reading doesn't allocate)
        _ => Problem { offset: 0, kind: ProblemKind::Cut },
    };
    let by = |rules| checked::<amqpv_entry>(amqpv_read, bytes, flags | rules, limits).err().map(as_problem);
    let first = by(AMQPV_RABBITMQ).into_iter().chain(by(0)).min_by_key(|it| it.offset);
    first.or_else(|| read(bytes, flags, limits).err().map(as_problem))
}

/// What others than RabbitMQ may not accept, streams included.
#[cfg(feature = "std")]
pub(crate) fn warn(
    bytes: &[u8],
    flags: u32,
    limits: Limits,
    frame_max: u32,
    levels: u32,
) -> Result<amqpv_warnings, Error> {
    let limits = Limits { depth: limits.depth.min(ALLOCATING_DEPTH), ..limits };
    // what isn't a value, or nests deeper than is looked at, would have no warnings
    checked(amqpv_read, bytes, flags | AMQPV_RABBITMQ, limits)?;
    let mut warnings = amqpv_warnings::default();
    // SAFETY: `bytes` can be read, `warnings` is borrowed alone, and the stack suffices for the depth
    match unsafe { amqpv_warn(&input(bytes, flags | AMQPV_STREAMS, limits), frame_max, levels, &mut warnings) } {
        AMQPV_OK => Ok(warnings),
        // AMQPV_NO_MEMORY: the flags are known
        _ => Err(Error::OutOfMemory),
    }
}

/// What a call writes into a buffer, whose length it sets: at first of a capacity that may be too small.
#[cfg(feature = "std")]
fn written(
    capacity: usize,
    mut call: impl FnMut(*mut u8, usize, &mut usize) -> amqpv_result,
) -> Result<Vec<u8>, amqpv_result> {
    let (mut buffer, mut length) = (Vec::new(), capacity);
    for is_last in [false, true] {
        buffer.try_reserve_exact(length.saturating_add(1)).map_err(|_| AMQPV_NO_MEMORY)?;
        match call(buffer.as_mut_ptr(), buffer.capacity(), &mut length) {
            AMQPV_OK => {
                // SAFETY: the call has written so many bytes
                unsafe { buffer.set_len(length) };
                buffer.shrink_to_fit();
                return Ok(buffer);
            }
            AMQPV_NO_ROOM if !is_last => {}
            result => return Err(result),
        }
    }
    Err(AMQPV_NO_ROOM)
}

/// The JSON of the value at the start of the bytes, or of its canonical encoding.
#[cfg(feature = "std")]
pub(crate) fn to_json(bytes: &[u8], flags: u32, limits: Limits, canonical: bool) -> Result<String, Error> {
    let limits = Limits { depth: limits.depth.min(ALLOCATING_DEPTH), ..limits };
    let read = read(bytes, flags, limits)?;
    let encoding = if canonical { Some(canonical_encoding(bytes, flags, limits, read.value.length)?) } else { None };
    let input = input(encoding.as_deref().unwrap_or(bytes), flags, limits);
    let text = written(read.value.length.saturating_mul(3), |buffer, capacity, length| {
        // SAFETY: the input can be read, and the buffer written; `length` is borrowed alone, and the stack suffices for the depth
        unsafe { amqpv_to_json(&input, buffer, capacity, length) }
    });
    // AMQPV_NO_MEMORY: the value was read
    let text = text.map_err(|_| Error::OutOfMemory)?;
    // SAFETY: JSON is UTF-8
    Ok(unsafe { String::from_utf8_unchecked(text) })
}

/// The canonical encoding of a value of these many bytes, which was read.
#[cfg(feature = "std")]
fn canonical_encoding(bytes: &[u8], flags: u32, limits: Limits, count: usize) -> Result<Vec<u8>, Error> {
    let input = input(bytes, flags, limits);
    let encoding = written(count, |buffer, capacity, length| {
        // SAFETY: `bytes` can be read, and the buffer written; `length` is borrowed alone, and the stack suffices for the depth
        unsafe { amqpv_canonical(&input, buffer, capacity, length) }
    });
    // AMQPV_NO_MEMORY: the value was read
    encoding.map_err(|_| Error::OutOfMemory)
}

/// The canonical encoding of the value that a JSON text means.
#[cfg(feature = "std")]
pub(crate) fn from_json(text: &str, limits: Limits) -> Result<Vec<u8>, Error> {
    let too_large = Error::Problem(Problem { offset: 0, kind: ProblemKind::TooLarge });
    let most = usize::try_from(limits.max_bytes).unwrap_or(usize::MAX);
    if text.len() > most.saturating_mul(JSON_FOR_A_BYTE) {
        return Err(too_large);
    }
    let mut problem = amqpv_problem::default();
    let encoding = written(text.len(), |buffer, capacity, length| {
        // SAFETY: `text` can be read, and the buffer written; `length` and `problem` are borrowed alone, and brackets nest at most
        // 127 deep, for which the stack suffices
        unsafe { amqpv_from_json(text.as_ptr(), text.len(), limits.depth, buffer, capacity, length, &mut problem) }
    });
    match encoding {
        Ok(encoding) if encoding.len() > most => Err(too_large),
        Ok(encoding) => {
            if !within_values(encoding.len(), limits) {
                measure(&encoding, 0, Limits { depth: Limits::MOST_DEPTH, ..limits })?;
            }
            Ok(encoding)
        }
        Err(AMQPV_NO_MEMORY) => Err(Error::OutOfMemory),
        Err(AMQPV_NO_ENCODING) => Err(too_large),
        Err(result) => Err(Error::Problem(Problem { offset: problem.offset, kind: kind_of(result, problem) })),
    }
}

/// The bytes of a span of an entry, which is inside these bytes.
pub(crate) fn bytes_of(bytes: &[u8], span: amqpv_span) -> &[u8] {
    &bytes[span.offset..][..span.length]
}

/// The key of an entry in the body of a table that was read.
pub(crate) fn key_of<'a>(body: &'a [u8], entry: &amqpv_entry) -> &'a str {
    // SAFETY: amqpv_read checks that all keys are UTF-8
    unsafe { str::from_utf8_unchecked(bytes_of(body, entry.key)) }
}

/// A cursor before the first entry of a body.
pub(crate) fn cursor(body: &[u8], tag: u8) -> amqpv_cursor {
    amqpv_cursor { left: amqpv_span { offset: 0, length: body.len() }, tag }
}

/// The next entry of a body that was read.
#[inline]
pub(crate) fn next(body: &[u8], cursor: &mut amqpv_cursor) -> Option<amqpv_entry> {
    let mut entry = amqpv_entry::default();
    // SAFETY: `body` can be read, `cursor` and `entry` are borrowed alone
    let result = unsafe { amqpv_next(&input(body, 0, Limits::DEFAULT), cursor, &mut entry) };
    (result == AMQPV_OK).then_some(entry)
}

/// The entry that a step leads to, from a container with this body that was read.
pub(crate) fn find(body: &[u8], tag: u8, step: PathStep<'_>, of_equal: EqualKeys) -> Option<amqpv_entry> {
    let (key, index, into) = match step {
        PathStep::Key(key) => (key, 0, AMQPV_TABLE),
        PathStep::Index(index) => ("", index, AMQPV_ARRAY),
    };
    let step = amqpv_step { key: key.as_ptr(), key_length: key.len(), index, into };
    let content = amqpv_span { offset: 0, length: body.len() };
    let from = amqpv_entry { content, tag, ..amqpv_entry::default() };
    let flags = if of_equal == EqualKeys::First { AMQPV_FIRST_KEY } else { 0 };
    let mut entry = amqpv_entry::default();
    // SAFETY: `body` and `key` can be read, and `entry` is borrowed alone
    let result = unsafe { amqpv_find(&input(body, flags, Limits::DEFAULT), &from, &step, 1, &mut entry) };
    (result == AMQPV_OK).then_some(entry)
}

/// Where a table is built.
pub(crate) enum Buffer<'b> {
    /// A slice, whose length is the limit.
    Slice(&'b mut [u8]),
    /// A vector, which grows: what it has from an offset on.
    #[cfg(feature = "std")]
    Vector { bytes: &'b mut Vec<u8>, start: usize },
}

impl<'b> Buffer<'b> {
    fn reborrow(&mut self) -> Buffer<'_> {
        match self {
            Self::Slice(slice) => Buffer::Slice(slice),
            #[cfg(feature = "std")]
            Self::Vector { bytes, start } => Buffer::Vector { bytes, start: *start },
        }
    }

    fn slice(&mut self) -> &mut [u8] {
        match self {
            Self::Slice(slice) => slice,
            #[cfg(feature = "std")]
            Self::Vector { bytes, start } => &mut bytes[*start..],
        }
    }

    /// Has a vector grow to at least so many bytes, if it has fewer. Whether there is room for them.
    fn has_room(&mut self, capacity: usize) -> Result<bool, WriteError> {
        let length = self.slice().len();
        match self {
            #[cfg(feature = "std")]
            Self::Vector { bytes, .. } if length < capacity => {
                bytes.try_reserve(capacity - length).map_err(|_| WriteError::OutOfMemory)?;
                bytes.resize(bytes.capacity(), 0);
                Ok(true)
            }
            _ => Ok(length >= capacity),
        }
    }

    /// The table that begins and ends at these offsets, after which a vector ends too.
    fn table(self, begin: usize, end: usize) -> &'b mut [u8] {
        match self {
            Self::Slice(slice) => &mut slice[begin..end],
            #[cfg(feature = "std")]
            Self::Vector { bytes, start } => {
                bytes.truncate(start + end);
                &mut bytes[start + begin..]
            }
        }
    }
}

/// A container that is being built in a buffer.
pub(crate) struct Body<'b> {
    buffer: Buffer<'b>,
    built: Progress<'b>,
}

/// How far a container is built, or, of one in another, where that stands: so it is known even if a function puts another builder in
/// the place of the one that it fills.
enum Progress<'b> {
    Own(Built),
    Lent(&'b mut Built),
}

/// How far a container is built.
#[derive(Clone, Copy)]
struct Built {
    /// What is written. Once the buffer is too small the container counts as empty, in a buffer of no bytes, so that each entry
    /// needs as many as it has.
    into: amqpv_container,
    /// If the buffer is too small, how many bytes the outermost table needs up to here.
    needed: Option<usize>,
}

impl Built {
    /// Of an empty container, whose bytes begin at an offset.
    fn empty(tag: u8, offset: usize, needed: Option<usize>) -> Self {
        let written = amqpv_span { offset, length: 0 };
        Self { into: amqpv_container { written, tag, ..amqpv_container::default() }, needed }
    }

    /// Where what is written ends.
    fn end(&self) -> usize {
        self.into.written.offset + self.into.written.length
    }
}

impl<'b> Body<'b> {
    /// Of an empty table without its type tag, at the start of a slice.
    pub(crate) fn in_slice(slice: &'b mut [u8]) -> Self {
        let (offset, needed) = if slice.len() < LENGTH { (0, Some(LENGTH)) } else { (LENGTH, None) };
        let built = Progress::Own(Built::empty(AMQPV_TABLE, offset, needed));
        Self { buffer: Buffer::Slice(slice), built }
    }

    /// Of an empty table without its type tag, after what a vector has.
    #[cfg(feature = "std")]
    pub(crate) fn after(bytes: &'b mut Vec<u8>) -> Self {
        let start = bytes.len();
        Self { buffer: Buffer::Vector { bytes, start }, built: Progress::Own(Built::empty(AMQPV_TABLE, LENGTH, None)) }
    }

    /// What is written of the container, or, if the buffer is too small, how many bytes the outermost table needs up to here.
    pub(crate) fn written(&self) -> Result<&[u8], usize> {
        let built = match &self.built {
            Progress::Own(built) => built,
            Progress::Lent(built) => &**built,
        };
        let buffer = match &self.buffer {
            Buffer::Slice(slice) => &slice[..],
            #[cfg(feature = "std")]
            Buffer::Vector { bytes, start } => &bytes[*start..],
        };
        match built.needed {
            // (a vector that nothing was put into may not have room for the length of the table)
            None => Ok(buffer.get(built.into.written.offset..built.end()).unwrap_or_default()),
            Some(needed) => Err(needed),
        }
    }

    fn built(&mut self) -> &mut Built {
        match &mut self.built {
            Progress::Own(built) => built,
            Progress::Lent(built) => built,
        }
    }

    /// Makes a call that puts something into the container, and makes it again once a vector has grown.
    fn put_by(
        &mut self,
        mut call: impl FnMut(*mut u8, usize, &mut amqpv_container) -> amqpv_result,
    ) -> Result<(), WriteError> {
        let Built { mut into, needed } = *self.built();
        // (a vector may not have room for the length of the table yet)
        self.buffer.has_room(into.written.offset)?;
        loop {
            let slice = self.buffer.slice();
            let capacity = if needed.is_some() { 0 } else { slice.len() };
            match call(slice.as_mut_ptr(), capacity, &mut into) {
                AMQPV_OK => {
                    self.built().into = into;
                    return Ok(());
                }
                AMQPV_NO_ROOM if needed.is_none() && self.buffer.has_room(into.needed)? => {}
                AMQPV_NO_ROOM => {
                    self.count(needed.unwrap_or(0).saturating_add(into.needed));
                    return Ok(());
                }
                AMQPV_BAD_KEY => return Err(WriteError::KeyTooLong),
                // AMQPV_TOO_LARGE: the structs are right, and so are tags, bits and scales
                _ => return Err(WriteError::TooLarge),
            }
        }
    }

    /// From here on only counts what is put, after so many bytes.
    fn count(&mut self, needed: usize) {
        *self.built() = Built::empty(self.built().into.tag, 0, Some(needed));
    }

    pub(crate) fn put(&mut self, key: &str, value: ValueRef<'_>) -> Result<(), WriteError> {
        let (key, key_length) = (key.as_ptr(), key.len());
        // a value that was read is within the most that limits can be
        let most = Limits { max_bytes: u32::MAX, depth: Limits::MOST_DEPTH, values: u32::MAX };
        let payload = value.payload();
        self.put_by(|buffer, capacity, into| {
            // SAFETY: the buffer can be written, the key and what is put can be read, and `into` is borrowed alone
            unsafe {
                match payload {
                    Payload::Fixed { tag, bits, scale } => {
                        amqpv_put(buffer, capacity, into, key, key_length, tag, bits, scale)
                    }
                    Payload::Bytes { tag, bytes } => {
                        let (at, length) = (bytes.as_ptr().cast(), bytes.len());
                        amqpv_put_bytes(buffer, capacity, into, key, key_length, tag, at, length)
                    }
                    Payload::Container { encoding, flags } => {
                        amqpv_put_value(buffer, capacity, into, key, key_length, &input(encoding, flags, most))
                    }
                }
            }
        })
    }

    /// Appends an array or a table, which a function fills. After an error, also of the function, nothing of it is there.
    pub(crate) fn put_filled<E: From<WriteError>>(
        &mut self,
        key: &str,
        tag: u8,
        fill: impl FnOnce(Body<'_>) -> Result<(), E>,
    ) -> Result<(), E> {
        let (before, mut inner) = (*self.built(), amqpv_container::default());
        self.put_by(|buffer, capacity, into| {
            // SAFETY: the buffer can be written, `key` can be read, and both containers are borrowed alone
            unsafe { amqpv_open(buffer, capacity, into, key.as_ptr(), key.len(), tag, &mut inner) }
        })?;
        let opened = *self.built();
        let mut filled = match opened.needed {
            None => Built { into: inner, needed: None },
            needed => Built::empty(tag, 0, needed),
        };
        // until the function has ended well, nothing is there
        *self.built() = before;
        fill(Body { buffer: self.buffer.reborrow(), built: Progress::Lent(&mut filled) })?;
        if let Some(needed) = filled.needed {
            self.count(needed);
            return Ok(());
        }
        *self.built() = opened;
        let closed = self.put_by(|buffer, capacity, into| {
            // SAFETY: the buffer can be written, and `into` is borrowed alone
            unsafe { amqpv_close(buffer, capacity, into, &filled.into) }
        });
        if closed.is_err() {
            *self.built() = before;
        }
        Ok(closed?)
    }

    /// The table, with its length before it.
    pub(crate) fn finish(mut self) -> Result<&'b [u8], WriteError> {
        let built = *self.built();
        let whole = built.needed.unwrap_or(LENGTH + built.into.written.length);
        let length = u32::try_from(whole - LENGTH).map_err(|_| WriteError::TooLarge)?;
        if built.needed.is_some() {
            return Err(WriteError::BufferTooSmall { needed: whole });
        }
        let end = built.end();
        self.buffer.has_room(end)?;
        let table = self.buffer.table(end - whole, end);
        table[..LENGTH].copy_from_slice(&length.to_be_bytes());
        Ok(table)
    }
}
