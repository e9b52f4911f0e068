//! Compares the crate `amqp-values` with the Rust crate on random inputs, for `test_crates.py`: values COUNT SEED
//!
//! Each input is read with and without its type tag. What is read is compared value by value, measured, looked up by every key
//! and by a path, and built again. Only a claim above the limit may be answered otherwise: by an error, and not by waiting for
//! it. The last line is how many inputs were read, how many weren't, how many were such claims, and how many were wrong.

mod inputs;

use amqp_values::{
    ArrayBuilder, DecimalValue, EqualKeys, Error, Limits, Measure, PathStep, ProblemKind, TableBuilder, TableRef,
    ValueRef, WriteError, check, check_table, read, read_table,
};
use inputs::{Dice, asked, input};
use original::generation::{gen_field_table, gen_value};
use original::parsing::{ParserResult, parse_field_table, parse_value};
use original::{AMQPValue, FieldTable, ShortString};
use std::process::ExitCode;

const LIMITS: Limits = Limits { values: u32::MAX, ..Limits::DEFAULT };
const SHOWN: usize = 10;

/// What became of an input.
enum Outcome {
    Read,
    NotRead,
    Claim,
}

/// What is wrong, if anything is.
type Checked<T> = Result<T, String>;

fn ensure(is_right: bool, what: &str) -> Checked<()> {
    if is_right { Ok(()) } else { Err(what.to_owned()) }
}

/// The tree of a value that was read, by its iterators.
fn tree(value: ValueRef<'_>) -> AMQPValue {
    match value {
        ValueRef::Boolean(it) => AMQPValue::Boolean(it),
        ValueRef::ShortShortInt(it) => AMQPValue::ShortShortInt(it),
        ValueRef::ShortShortUInt(it) => AMQPValue::ShortShortUInt(it),
        ValueRef::ShortInt(it) => AMQPValue::ShortInt(it),
        ValueRef::ShortUInt(it) => AMQPValue::ShortUInt(it),
        ValueRef::LongInt(it) => AMQPValue::LongInt(it),
        ValueRef::LongUInt(it) => AMQPValue::LongUInt(it),
        ValueRef::LongLongInt(it) => AMQPValue::LongLongInt(it),
        ValueRef::Float(it) => AMQPValue::Float(it),
        ValueRef::Double(it) => AMQPValue::Double(it),
        ValueRef::DecimalValue(DecimalValue { scale, value }) => {
            AMQPValue::DecimalValue(original::DecimalValue { scale, value })
        }
        ValueRef::LongString(it) => AMQPValue::LongString(it.into()),
        ValueRef::FieldArray(it) => AMQPValue::FieldArray(it.iter().map(tree).collect::<Vec<_>>().into()),
        ValueRef::Timestamp(it) => AMQPValue::Timestamp(it),
        ValueRef::FieldTable(it) => AMQPValue::FieldTable(tree_of_table(it)),
        ValueRef::ByteArray(it) => AMQPValue::ByteArray(it.into()),
        ValueRef::Void => AMQPValue::Void,
    }
}

fn tree_of_table(table: TableRef<'_>) -> FieldTable {
    let mut built = FieldTable::default();
    for (key, value) in table {
        built.insert(ShortString::from(key), tree(value));
    }
    built
}

/// A value as the crate writes it, by which two are compared, since a NaN isn't equal to itself.
fn written(value: &AMQPValue) -> Vec<u8> {
    cookie_factory::r#gen(gen_value(value), Vec::new()).expect("a vector takes all").0
}

/// How many values are written in one, and how deep they nest.
fn measured(value: ValueRef<'_>) -> (usize, usize) {
    let inside = |all: &mut dyn Iterator<Item = ValueRef<'_>>| {
        all.map(measured).fold((1, 1), |(values, levels), (more, inner)| (values + more, levels.max(inner + 1)))
    };
    match value {
        ValueRef::FieldArray(array) => inside(&mut array.iter()),
        ValueRef::FieldTable(table) => inside(&mut table.iter().map(|(_, value)| value)),
        _ => (1, 0),
    }
}

/// Whether a value that was found is the crate's.
fn is_theirs(found: Option<ValueRef<'_>>, theirs: &AMQPValue) -> bool {
    found.is_some_and(|it| written(&tree(it)) == written(theirs))
}

/// Looks up each key of all tables in a value, and one that none has.
fn check_tables(value: ValueRef<'_>) -> Checked<()> {
    let table = match value {
        ValueRef::FieldArray(array) => return array.iter().try_for_each(check_tables),
        ValueRef::FieldTable(table) => table,
        _ => return Ok(()),
    };
    for (key, value) in tree_of_table(table).inner() {
        let (_, first) = table.iter().find(|(it, _)| *it == key.as_str()).expect("it is there");
        ensure(is_theirs(table.get(key.as_str()), value), "get finds another value")?;
        ensure(is_theirs(table.get_first(key.as_str()), &tree(first)), "get_first finds another value")?;
    }
    ensure(table.get("absent").is_none() && table.get_first("absent").is_none(), "a key is found that isn't there")?;
    table.iter().try_for_each(|(_, value)| check_tables(value))
}

/// Follows a random path, as far as it leads, and one step beyond.
fn check_path(dice: &mut Dice, value: ValueRef<'_>, theirs: &AMQPValue) -> Checked<()> {
    let (mut path, mut at) = (Vec::new(), theirs);
    loop {
        ensure(is_theirs(value.get_path(&path, EqualKeys::Last), at), "a path leads to another value")?;
        match at {
            AMQPValue::FieldTable(table) if !table.inner().is_empty() => {
                let (key, next) = table.inner().iter().nth(dice.below(table.inner().len())).expect("it has so many");
                path.push(PathStep::Key(key.as_str()));
                at = next;
            }
            AMQPValue::FieldArray(array) if !array.as_slice().is_empty() => {
                let index = dice.below(array.as_slice().len());
                path.push(PathStep::Index(index));
                at = &array.as_slice()[index];
            }
            _ => break,
        }
    }
    for step in [PathStep::Key("absent"), PathStep::Index(1 << 20)] {
        path.push(step);
        ensure(value.get_path(&path, EqualKeys::Last).is_none(), "a path leads too far")?;
        path.pop();
    }
    Ok(())
}

/// What both builders put.
enum Put<'b, 'p> {
    Pair(&'b mut TableBuilder<'p>, &'b str),
    Value(&'b mut ArrayBuilder<'p>),
}

/// Puts a value of the crate, all that it contains one by one.
fn put(into: Put<'_, '_>, value: &AMQPValue) -> Result<(), WriteError> {
    match value {
        AMQPValue::FieldArray(array) => {
            let fill =
                |built: &mut ArrayBuilder<'_>| array.as_slice().iter().try_for_each(|it| put(Put::Value(built), it));
            match into {
                Put::Pair(table, key) => table.put_array(key, fill),
                Put::Value(array) => array.push_array(fill),
            }
        }
        AMQPValue::FieldTable(pairs) => {
            let fill = |built: &mut TableBuilder<'_>| put_pairs(built, pairs);
            match into {
                Put::Pair(table, key) => table.put_table(key, fill),
                Put::Value(array) => array.push_table(fill),
            }
        }
        _ => {
            let bytes = written(value);
            let (scalar, _) = read(&bytes, LIMITS).expect("what the crate writes is a value");
            match into {
                Put::Pair(table, key) => table.put(key, scalar),
                Put::Value(array) => array.push(scalar),
            }
        }
    }
}

fn put_pairs(table: &mut TableBuilder<'_>, pairs: &FieldTable) -> Result<(), WriteError> {
    pairs.inner().iter().try_for_each(|(key, value)| put(Put::Pair(table, key.as_str()), value))
}

fn built<'b>(buffer: &'b mut [u8], pairs: &FieldTable) -> Result<&'b [u8], WriteError> {
    let mut table = TableBuilder::new(buffer);
    put_pairs(&mut table, pairs)?;
    table.finish()
}

/// Builds a table with the value, which has to be what the crate writes, and one with a copy of what was read, of so many bytes.
fn check_built(value: ValueRef<'_>, bytes: usize, theirs: &AMQPValue) -> Checked<()> {
    let mut pairs = FieldTable::default();
    pairs.insert(ShortString::from("key"), theirs.clone());
    let wanted = cookie_factory::r#gen(gen_field_table(&pairs), Vec::new()).expect("a vector takes all").0;
    let mut buffer = vec![0xaa; wanted.len()];
    ensure(built(&mut buffer, &pairs) == Ok(&wanted[..]), "another table is built")?;
    let needed = wanted.len();
    let short = built(&mut buffer[1..], &pairs);
    ensure(short == Err(WriteError::BufferTooSmall { needed }), "a table is measured otherwise")?;

    let mut buffer = vec![0; 16 + bytes];
    let mut table = TableBuilder::new(&mut buffer);
    let copied = table.put("key", value).and_then(|()| table.finish()).map_err(|it| it.to_string())?;
    let (copy, rest) = read_table(copied, LIMITS).map_err(|it| it.to_string())?;
    ensure(rest.is_empty() && is_theirs(copy.get("key"), theirs), "another value is copied")
}

/// Checks a value that both read.
fn check_value(
    dice: &mut Dice,
    (value, rest): (ValueRef<'_>, &[u8]),
    (left, theirs): (&[u8], AMQPValue),
    (length, measure): (usize, Measure),
) -> Checked<()> {
    ensure(rest == left, "other bytes are left")?;
    ensure(is_theirs(Some(value), &theirs), "another value is read")?;
    let (values, levels) = measured(value);
    ensure(measure == Measure { bytes: length - rest.len(), values, levels }, "it is measured otherwise")?;
    check_tables(value)?;
    check_path(dice, value, &theirs)?;
    check_built(value, measure.bytes, &theirs)
}

/// Whether more is claimed, by a length after the type tag, than the limit.
fn is_claim(tagged: &[u8]) -> bool {
    let length = match tagged {
        [b'S' | b'x' | b'A' | b'F', length @ ..] => length.first_chunk(),
        _ => None,
    };
    length.is_some_and(|it| u32::from_be_bytes(*it) > LIMITS.max_bytes - 5)
}

/// Compares what both say of some bytes.
fn compared<'a>(
    dice: &mut Dice,
    bytes: &'a [u8],
    ours: Result<(ValueRef<'a>, &'a [u8]), Error>,
    measure: Result<Measure, Error>,
    theirs: ParserResult<&'a [u8], AMQPValue>,
    is_claim: bool,
) -> Checked<Outcome> {
    ensure(ours.err() == measure.err(), "it is checked and read otherwise")?;
    match (ours.and_then(|it| Ok((it, measure?))), theirs) {
        (Ok((ours, measure)), Ok(theirs)) => {
            check_value(dice, ours, theirs, (bytes.len(), measure)).map(|()| Outcome::Read)
        }
        (Err(Error::Incomplete { missing }), Err(nom::Err::Incomplete(nom::Needed::Size(size)))) => {
            ensure(missing == size.get() && !is_claim, "other bytes are missing").map(|()| Outcome::NotRead)
        }
        (Err(Error::Problem(problem)), Err(nom::Err::Incomplete(_))) => {
            ensure(is_claim && problem.kind == ProblemKind::TooLarge, "it isn't waited for").map(|()| Outcome::Claim)
        }
        (Err(Error::Problem(problem)), Err(nom::Err::Error(_))) => {
            ensure(problem.offset <= bytes.len(), "the problem is outside").map(|()| Outcome::NotRead)
        }
        (ours, theirs) => Err(format!("{ours:?}, and theirs {theirs:?}")),
    }
}

fn compare(dice: &mut Dice, bytes: &[u8]) -> Checked<Outcome> {
    compared(dice, bytes, read(bytes, LIMITS), check(bytes, LIMITS), parse_value(bytes), is_claim(bytes))
}

fn compare_table(dice: &mut Dice, bytes: &[u8]) -> Checked<Outcome> {
    let ours = read_table(bytes, LIMITS).map(|(table, rest)| (ValueRef::FieldTable(table), rest));
    let theirs = parse_field_table(bytes).map(|(rest, table)| (rest, AMQPValue::FieldTable(table)));
    compared(dice, bytes, ours, check_table(bytes, LIMITS), theirs, is_claim(&[b"F", bytes].concat()))
}

fn main() -> ExitCode {
    let (count, mut dice) = asked();
    let (mut read, mut not_read, mut claims, mut wrong) = (0, 0, 0, 0);
    for number in 0..count {
        let bytes = input(&mut dice, number).into_boxed_slice();
        let mut outcomes = vec![compare(&mut dice, &bytes)];
        if let [b'F', table @ ..] = &bytes[..] {
            outcomes.push(compare_table(&mut dice, table));
        }
        for outcome in outcomes {
            match outcome {
                Ok(Outcome::Read) => read += 1,
                Ok(Outcome::NotRead) => not_read += 1,
                Ok(Outcome::Claim) => claims += 1,
                Err(what) => {
                    wrong += 1;
                    if wrong <= SHOWN {
                        println!("{bytes:02x?}\n  {what}");
                    }
                }
            }
        }
    }
    println!("{read} read, {not_read} not read, {claims} claims above the limit, {wrong} wrong");
    if wrong == 0 && read > 0 && not_read > 0 && claims > 0 { ExitCode::SUCCESS } else { ExitCode::FAILURE }
}
