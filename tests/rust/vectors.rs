//! Prints, for `test_vectors.py`, what `amqp-values` reads of each line of standard input, `value HEX` or `table HEX`:
//! JSON in which each value is under its type tag, and how many bytes are left; or the error.

use amqp_values::{Limits, ValueRef, read, read_table};
use std::io::{Result, stdin};

const LIMITS: Limits = Limits { max_bytes: u32::MAX, depth: Limits::MOST_DEPTH, values: u32::MAX };

fn hex(bytes: impl AsRef<[u8]>) -> String {
    bytes.as_ref().iter().map(|it| format!("{it:02x}")).collect()
}

fn bytes_of(digits: &str) -> Vec<u8> {
    let byte = |at| u8::from_str_radix(&digits[at..at + 2], 16).expect("two digits");
    (0..digits.len()).step_by(2).map(byte).collect()
}

fn json(value: ValueRef<'_>) -> String {
    let (tag, content) = match value {
        ValueRef::Boolean(it) => ('t', it.to_string()),
        ValueRef::ShortShortInt(it) => ('b', it.to_string()),
        ValueRef::ShortShortUInt(it) => ('B', it.to_string()),
        ValueRef::ShortInt(it) => ('s', it.to_string()),
        ValueRef::ShortUInt(it) => ('u', it.to_string()),
        ValueRef::LongInt(it) => ('I', it.to_string()),
        ValueRef::LongUInt(it) => ('i', it.to_string()),
        ValueRef::LongLongInt(it) => ('l', it.to_string()),
        ValueRef::Timestamp(it) => ('T', it.to_string()),
        ValueRef::Float(it) => ('f', format!("\"{:08x}\"", it.to_bits())),
        ValueRef::Double(it) => ('d', format!("\"{:016x}\"", it.to_bits())),
        ValueRef::DecimalValue(it) => ('D', format!("\"{:02x}{:08x}\"", it.scale, it.value)),
        ValueRef::LongString(it) => ('S', format!("\"{}\"", hex(it))),
        ValueRef::ByteArray(it) => ('x', format!("\"{}\"", hex(it))),
        ValueRef::FieldArray(it) => ('A', format!("[{}]", it.iter().map(json).collect::<Vec<_>>().join(","))),
        ValueRef::FieldTable(it) => {
            let pairs = it.iter().map(|(key, it)| format!("[\"{}\",{}]", hex(key), json(it)));
            ('F', format!("[{}]", pairs.collect::<Vec<_>>().join(",")))
        }
        ValueRef::Void => ('V', "null".to_owned()),
    };
    format!("{{\"{tag}\":{content}}}")
}

fn main() -> Result<()> {
    for line in stdin().lines() {
        let line = line?;
        let (form, digits) = line.split_once(' ').expect("two words");
        let bytes = bytes_of(digits);
        let found = match form {
            "table" => read_table(&bytes, LIMITS).map(|(it, rest)| (ValueRef::FieldTable(it), rest)),
            _ => read(&bytes, LIMITS),
        };
        match found {
            Ok((value, rest)) => println!("{} {}", json(value), rest.len()),
            Err(error) => println!("{error:?}"),
        }
    }
    Ok(())
}
