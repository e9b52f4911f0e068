//! Tests of what the drop-in does with tables and arrays beyond the limits; `test_drop_in.py` runs them.

mod halves;

use drop_in::generation::gen_value;
use drop_in::limits::{self, Limits, Refusal, Refused};
use drop_in::parsing::{ParserResult, parse_field_array, parse_field_table, parse_value};
use drop_in::{AMQPValue, FieldArray, FieldTable, ShortString};
use halves::Halves;
use std::sync::{Mutex, PoisonError};

/// The stack of a worker of tokio.
const STACK: usize = 2 << 20;
const LIMITS: Limits = Limits::DEFAULT;
/// What becomes of a table or an array.
const READ: &str = "read";
const DEEP: &str = "x-refused-too-deep";
const MANY: &str = "x-refused-too-many-values";
const LARGE: &str = "x-refused-too-large";
const MALFORMED: &str = "x-refused-malformed";
const ERROR: &str = "Parser error: Nom(TooLarge)";
const EOF: &str = "Parser error: Nom(Eof)";

/// A parser, which says what becomes of bytes that it is given.
type Parse = fn(&[u8]) -> String;
type Row<'a> = (Parse, Vec<u8>, &'a str);

fn said<I, T>(parsed: ParserResult<I, T>, what: impl FnOnce(I, T) -> &'static str) -> String {
    match parsed {
        Ok((rest, value)) => what(rest, value).to_owned(),
        Err(nom::Err::Error(error)) => error.to_string(),
        Err(other) => format!("{other:?}"),
    }
}

/// The only key of a table that was refused.
fn key_of(table: &FieldTable) -> &'static str {
    let refusal = limits::refusal(table).inspect(|_| assert_eq!(table.inner().len(), 1));
    refusal.map_or(READ, Refusal::key)
}

fn table(bytes: &[u8]) -> String {
    said(parse_field_table(&[bytes, b"rest"].concat()[..]), |rest, table| {
        assert_eq!(rest, b"rest");
        key_of(&table)
    })
}

fn table_in_halves(bytes: &[u8]) -> String {
    said(parse_field_table(Halves::of(bytes, bytes.len() / 2)), |rest, table| {
        assert_eq!(rest, Halves(b"", b""));
        key_of(&table)
    })
}

fn array(bytes: &[u8]) -> String {
    said(parse_field_array(bytes), |_, _| READ)
}

fn value(bytes: &[u8]) -> String {
    said(parse_value(bytes), |_, value| value.as_field_table().map_or(READ, key_of))
}

/// Parses under limits, on such a stack; the limits are the process's, so one at once.
fn under(limits: Limits, rows: &[Row<'_>]) {
    static TURN: Mutex<()> = Mutex::new(());
    let _turn = TURN.lock().unwrap_or_else(PoisonError::into_inner);
    limits::set(limits);
    let parse_all = || {
        for (parse, bytes, wanted) in rows {
            assert_eq!(parse(bytes), *wanted, "{:02x?} ..", &bytes[..bytes.len().min(40)]);
        }
    };
    std::thread::scope(|scope| {
        let worker = std::thread::Builder::new().stack_size(STACK).spawn_scoped(scope, parse_all).unwrap();
        worker.join().unwrap_or_else(|panic| std::panic::resume_unwind(panic));
    });
}

/// The body of an array or a table with its length before it.
fn counted(body: &[u8]) -> Vec<u8> {
    [&(body.len() as u32).to_be_bytes(), body].concat()
}

/// Tables or arrays in each other, the outermost without its type tag.
fn nested(tag: u8, levels: usize) -> Vec<u8> {
    let header: &[u8] = if tag == b'F' { &[0, b'F'] } else { b"A" };
    let lengths = (0..levels).rev().map(|inside| ((inside * (header.len() + 4)) as u32).to_be_bytes());
    lengths.map(|it| it.to_vec()).collect::<Vec<_>>().join(header)
}

/// An array of as many values of one byte, without its type tag, and a table of as many pairs.
fn voids(count: usize) -> Vec<u8> {
    counted(&vec![b'V'; count])
}

fn pairs(count: usize) -> Vec<u8> {
    counted(&b"\x01kV".repeat(count))
}

#[test]
fn nesting_up_to_the_limit_is_read_and_no_deeper() {
    let tagged = [&b"F"[..], &nested(b'F', 20_000)].concat();
    under(LIMITS, &[(table, nested(b'F', 32), READ), (array, nested(b'A', 32), READ), (value, tagged, DEEP)]);
    for levels in [33, 258, 2_255, 3_000, 20_000] {
        let (tables, arrays) = (nested(b'F', levels), nested(b'A', levels));
        under(LIMITS, &[(table, tables.clone(), DEEP), (table_in_halves, tables, DEEP), (array, arrays, ERROR)]);
    }
    under(Limits { depth: 0, ..LIMITS }, &[(table, counted(b""), DEEP), (array, counted(b""), ERROR)]);
}

#[test]
fn bytes_up_to_the_limit_are_read_and_no_more() {
    let (bytes, larger) = (counted(b"\x01kS\0\0\0\x03abc"), counted(b"\x01kS\0\0\0\x04abcd"));
    let limits = Limits { max_bytes: 1 + bytes.len() as u32, ..LIMITS };
    under(limits, &[(table, bytes, READ), (table, larger, LARGE), (array, voids(15), ERROR)]);
}

#[test]
fn values_up_to_the_limit_are_read_and_no_more() {
    let limits = Limits { values: 10, ..LIMITS };
    under(
        limits,
        &[(array, voids(9), READ), (array, voids(10), ERROR), (table, pairs(9), READ), (table, pairs(10), MANY)],
    );
}

#[test]
fn a_claim_above_the_limit_is_not_waited_for() {
    under(
        LIMITS,
        &[
            (value, b"F\xff\xff\xff\xff".to_vec(), ERROR),
            (array, vec![0, 0x0f, 0xff, 0xfc], ERROR),
            (table_in_halves, vec![0, 0x0f, 0xff, 0xfb, 0], "Incomplete(Size(1048570))"),
            (table_in_halves, vec![0, 0, 0], "Incomplete(Size(1))"),
        ],
    );
    let claims = [6_u32, 1 << 20, u32::MAX].map(|it| counted(&[&b"x"[..], &it.to_be_bytes()].concat()));
    under(LIMITS, &claims.map(|it| (array as Parse, it, EOF)));
}

#[test]
fn a_process_may_choose_what_a_refused_table_becomes() {
    let key_not_utf8 = counted(b"\x01\xffV");
    let errors = Limits { refused: Refused::Error, ..LIMITS };
    under(errors, &[(table, nested(b'F', 3_000), ERROR), (table, key_not_utf8.clone(), EOF)]);
    under(Limits { max_bytes: 34, ..errors }, &[(table, pairs(10), ERROR)]);
    under(Limits { values: 10, ..errors }, &[(table, pairs(10), ERROR)]);
    under(LIMITS, &[(table, key_not_utf8.clone(), EOF)]);
    let rows: [Row<'_>; 3] =
        [(table, key_not_utf8, MALFORMED), (table, nested(b'F', 33), DEEP), (array, counted(b"z"), EOF)];
    under(Limits { refused: Refused::MarkedIfMalformed, ..LIMITS }, &rows);
}

#[test]
fn a_key_above_255_bytes_is_not_written() {
    let table = |length: usize| {
        let key: ShortString = serde_json::from_str(&format!("{:?}", "k".repeat(length))).unwrap();
        let mut table = FieldTable::default();
        table.insert(key, AMQPValue::FieldArray(FieldArray::default()));
        AMQPValue::FieldTable(table)
    };
    let written = |length| cookie_factory::r#gen(gen_value(&table(length)), Vec::new());
    assert_eq!(written(255).unwrap().0.len(), 5 + 256 + 5);
    assert!(matches!(written(256), Err(cookie_factory::GenError::IoError(_))));
}
