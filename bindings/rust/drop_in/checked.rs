//! `parse_container` checks an array or a table within the limits of the process, then parses it.
//!
//! drop_in.py puts this module into a copy of the crate amq-protocol-types; `crate` is that copy.

use crate::{
    FieldArray, FieldTable, ShortShortUInt,
    limits::{self, Limits, Refusal, Refused},
    parsing::{ParserError, ParserErrors, ParserResult, parse_long_uint, traits::ParsableInput, within_limits},
};
use amqp_values::{Error, Measure, Problem, ProblemKind};
use cookie_factory::GenError;
use nom::{
    Parser,
    bytes::streaming::take,
    error::{ErrorKind, ParseError},
};
use std::io;

/// How many bytes the length of an array or a table has, and its type tag.
const LENGTH: usize = 4;
const TAG: usize = 1;

/// What is checked and then parsed: an array or a table without its type tag.
pub(crate) trait Container: Sized {
    /// Checks all of it, within limits.
    fn check(bytes: &[u8], limits: amqp_values::Limits) -> Result<Measure, Error>;

    /// Parses what was checked.
    fn parse(bytes: &[u8]) -> ParserResult<&[u8], Self>;

    /// What a refused one becomes, if that isn't an error.
    fn refused(refusal: Refusal, refused: Refused) -> Option<Self>;
}

impl Container for FieldTable {
    fn check(bytes: &[u8], limits: amqp_values::Limits) -> Result<Measure, Error> {
        amqp_values::check_table(bytes, limits)
    }

    fn parse(bytes: &[u8]) -> ParserResult<&[u8], Self> {
        within_limits::parse_field_table(bytes)
    }

    fn refused(refusal: Refusal, refused: Refused) -> Option<Self> {
        let is_marked = match refused {
            Refused::Error => false,
            Refused::Marked => refusal != Refusal::Malformed,
            Refused::MarkedIfMalformed => true,
        };
        is_marked.then(|| refusal.table())
    }
}

impl Container for FieldArray {
    fn check(bytes: &[u8], limits: amqp_values::Limits) -> Result<Measure, Error> {
        amqp_values::check(&[b"A", bytes].concat(), limits)
    }

    fn parse(bytes: &[u8]) -> ParserResult<&[u8], Self> {
        within_limits::parse_field_array(bytes)
    }

    fn refused(_: Refusal, _: Refused) -> Option<Self> {
        None
    }
}

impl From<Error> for Refusal {
    fn from(error: Error) -> Self {
        match error {
            Error::Problem(Problem { kind: ProblemKind::TooDeep, .. }) => Self::TooDeep,
            Error::Problem(Problem { kind: ProblemKind::TooManyValues, .. }) => Self::TooManyValues,
            _ => Self::Malformed,
        }
    }
}

/// Parses an array or a table without its type tag, if it is within the limits of the process.
pub(crate) fn parse_container<I: ParsableInput, T: Container>(input: I) -> ParserResult<I, T> {
    let limits = limits::get();
    let (after, length) = parse_long_uint(input.clone())?;
    let length = usize::try_from(length).unwrap_or(usize::MAX);
    let is_within = length.saturating_add(LENGTH + TAG) <= usize::try_from(limits.max_bytes).unwrap_or(usize::MAX);
    if after.input_len() < length && !is_within {
        return Err(error(Refusal::TooLarge));
    }
    let (rest, _) = take::<_, _, ParserErrors>(length).parse(after)?;
    let parsed = if is_within {
        // (an input says nothing of how its bytes are stored)
        let bytes: Vec<u8> = input.take(LENGTH + length).iter_elements().collect();
        parse_within(&bytes, limits)
    } else {
        Err(Refusal::TooLarge)
    };
    match parsed {
        Ok(value) => Ok((rest, value?)),
        Err(refusal) => match T::refused(refusal, limits.refused) {
            Some(value) => Ok((rest, value)),
            None => Err(error(refusal)),
        },
    }
}

fn parse_within<T: Container>(bytes: &[u8], limits: Limits) -> Result<Result<T, ParserError>, Refusal> {
    let Limits { max_bytes: most, depth, values, .. } = limits;
    T::check(bytes, amqp_values::Limits { max_bytes: most, depth, values })?;
    Ok(T::parse(bytes).map(|(_, value)| value))
}

/// The error that a refused container is: that of the crate if it is malformed.
fn error(refusal: Refusal) -> ParserError {
    let kind = match refusal {
        Refusal::Malformed => ErrorKind::Eof,
        Refusal::TooLarge | Refusal::TooDeep | Refusal::TooManyValues => ErrorKind::TooLarge,
    };
    nom::Err::Error(ParserErrors::from_error_kind((), kind))
}

/// The length of a short string, as its one byte holds it.
pub(crate) fn short_length(text: &str) -> Result<ShortShortUInt, GenError> {
    ShortShortUInt::try_from(text.len())
        .map_err(|_| GenError::IoError(io::Error::new(io::ErrorKind::InvalidInput, "a short string exceeds 255 bytes")))
}
