//! Prints headers, a table without its type tag on standard input, as plain JSON.

use amqp_values::{Limits, ValueRef, read_table};
use serde_json::{Map, Value};
use std::io::{self, Read};

/// Converts a value to JSON with plain numbers. It loses types: integers, timestamps and decimals all become numbers, strings and
/// byte arrays become text, and infinities and NaN become null. Of equal keys the last counts. `amqp_values::to_json` keeps all types.
fn plain(value: ValueRef<'_>) -> Value {
    match value {
        ValueRef::Boolean(truth) => truth.into(),
        ValueRef::Float(number) => number.into(),
        ValueRef::Double(number) => number.into(),
        ValueRef::DecimalValue(it) => (f64::from(it.value) / 10_f64.powi(it.scale.into())).into(),
        ValueRef::LongString(bytes) | ValueRef::ByteArray(bytes) => String::from_utf8_lossy(bytes).into(),
        ValueRef::FieldArray(array) => array.iter().map(plain).collect(),
        ValueRef::Timestamp(seconds) => seconds.into(),
        ValueRef::FieldTable(table) => {
            let pairs = table.iter().map(|(key, value)| (key.to_owned(), plain(value)));
            pairs.collect::<Map<_, _>>().into()
        }
        ValueRef::Void => Value::Null,
        integer => integer.as_int().map_or(Value::Null, Value::from),
    }
}

fn main() -> Result<(), Box<dyn std::error::Error>> {
    let mut bytes = Vec::new();
    io::stdin().read_to_end(&mut bytes)?;
    let (headers, _) = read_table(&bytes, Limits::DEFAULT)?;
    println!("{}", plain(ValueRef::FieldTable(headers)));
    Ok(())
}
