//! Prints the table on standard input, as program.py reads it, by the crate amq-protocol-types.
use amq_protocol_types::{AMQPValue, parsing::parse_field_table};
use std::io::{ErrorKind, Read, Result, stdin};

fn hex(bytes: impl AsRef<[u8]>) -> String {
    bytes.as_ref().iter().map(|it| format!("{it:02x}")).collect()
}

fn text(value: &AMQPValue) -> String {
    match value {
        AMQPValue::Boolean(it) => it.to_string(),
        AMQPValue::ShortShortInt(it) => it.to_string(),
        AMQPValue::ShortShortUInt(it) => it.to_string(),
        AMQPValue::ShortInt(it) => it.to_string(),
        AMQPValue::ShortUInt(it) => it.to_string(),
        AMQPValue::LongInt(it) => it.to_string(),
        AMQPValue::LongUInt(it) => it.to_string(),
        AMQPValue::LongLongInt(it) => it.to_string(),
        AMQPValue::Timestamp(it) => it.to_string(),
        AMQPValue::Float(it) => format!(r#"{{"f":"{:08x}"}}"#, it.to_bits()),
        AMQPValue::Double(it) => format!(r#"{{"d":"{:016x}"}}"#, it.to_bits()),
        AMQPValue::DecimalValue(it) => format!(r#"{{"D":"{}e-{}"}}"#, it.value, it.scale),
        AMQPValue::LongString(it) => format!(r#"{{"S":"{}"}}"#, hex(it.as_bytes())),
        AMQPValue::ByteArray(it) => format!(r#"{{"S":"{}"}}"#, hex(it.as_slice())),
        AMQPValue::FieldArray(it) => format!("[{}]", it.as_slice().iter().map(text).collect::<Vec<_>>().join(",")),
        AMQPValue::FieldTable(it) => {
            let pairs = it.inner().iter().map(|(key, it)| format!(r#"["{}",{}]"#, hex(key.as_str()), text(it)));
            format!(r#"{{"F":[{}]}}"#, pairs.collect::<Vec<_>>().join(","))
        }
        AMQPValue::ShortString(_) | AMQPValue::Void => "null".to_owned(),
    }
}

fn main() -> Result<()> {
    let mut data = Vec::new();
    stdin().read_to_end(&mut data)?;
    let (_, table) = parse_field_table(&data[..]).map_err(|_| ErrorKind::InvalidData)?;
    println!("{}", text(&AMQPValue::FieldTable(table)));
    Ok(())
}
