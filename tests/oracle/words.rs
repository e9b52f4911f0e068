//! Reads and prints the words of requests and answers for `driver.rs`, as `crates/test_calls` does: bytes, strings,
//! flags and values.

use amq_protocol_types::flags::AMQPFlags;
use amq_protocol_types::*;
use std::str::FromStr;

/// Why a line is no request that the crate can be asked.
pub struct Unknown;

pub type Result<T> = std::result::Result<T, Unknown>;

/// A run of so many equal bytes or more is printed as `N*xx`. A string in quotes is shorter.
const RUN: usize = 16;

// ---- bytes and strings

/// `-` for no bytes, else hexadecimal digits, with long runs as `N*xx`, joined by `+`.
pub fn digits(bytes: &[u8]) -> String {
    if bytes.is_empty() {
        return "-".to_owned();
    }
    let mut parts = Vec::new();
    let mut is_after_run = true;
    for equal in bytes.chunk_by(|one, other| one == other) {
        let is_run = RUN <= equal.len();
        if is_run {
            parts.push(format!("{}*{:02x}", equal.len(), equal[0]));
        } else {
            if is_after_run {
                parts.push(String::new());
            }
            parts.last_mut().expect("there is a part").extend(equal.iter().map(|it| format!("{it:02x}")));
        }
        is_after_run = is_run;
    }
    parts.join("+")
}

/// A string in quotes if it is short and plain, else its bytes.
pub fn quoted(text: &str) -> String {
    let is_plain = text.bytes().all(|it| it.is_ascii_alphanumeric() || it == b'_' || it == b'-');
    if text.is_empty() || RUN <= text.len() || !is_plain { digits(text.as_bytes()) } else { format!("'{text}'") }
}

/// The bytes of a word.
pub fn bytes_of(word: &str) -> Result<Vec<u8>> {
    let parts: Vec<Vec<u8>> = word.split('+').map(part_of).collect::<Result<_>>()?;
    Ok(parts.concat())
}

/// The bytes of one part: `-` for none, hexadecimal digits or a string in quotes, maybe after `N*`.
fn part_of(part: &str) -> Result<Vec<u8>> {
    let (count, part) = counted(part)?;
    let bytes = match part.strip_prefix('\'') {
        Some(text) => text.strip_suffix('\'').ok_or(Unknown)?.as_bytes().to_vec(),
        None => hex(part.trim_start_matches('-'))?,
    };
    Ok(bytes.repeat(count))
}

/// The number before a `*`, and what comes after it.
fn counted(word: &str) -> Result<(usize, &str)> {
    word.split_once('*').map_or(Ok((1, word)), |(count, word)| Ok((number(count)?, word)))
}

fn hex(digits: &str) -> Result<Vec<u8>> {
    if digits.len() % 2 != 0 || !digits.is_ascii() {
        return Err(Unknown);
    }
    (0..digits.len()).step_by(2).map(|at| u8::from_str_radix(&digits[at..at + 2], 16).map_err(|_| Unknown)).collect()
}

/// The string of a word of bytes.
pub fn text_of(word: &str) -> Result<String> {
    String::from_utf8(bytes_of(word)?).map_err(|_| Unknown)
}

pub fn short_string(word: &str) -> Result<ShortString> {
    ShortString::try_new(text_of(word)?).map_err(|_| Unknown)
}

/// A number or a boolean.
pub fn number<T: FromStr>(word: &str) -> Result<T> {
    word.parse().map_err(|_| Unknown)
}

pub fn float(word: &str) -> Result<f32> {
    Ok(f32::from_bits(number(word)?))
}

pub fn double(word: &str) -> Result<f64> {
    Ok(f64::from_bits(number(word)?))
}

// ---- flags and types

/// `-` for no names, else names joined by `,`. `N*NAME` is a name N times.
pub fn names_of(word: &str) -> Result<Vec<&str>> {
    let mut names = Vec::new();
    for (count, name) in word.split(',').filter(|_| word != "-").map(counted).collect::<Result<Vec<_>>>()? {
        names.extend(std::iter::repeat_n(name, count));
    }
    Ok(names)
}

/// Flags are names, those that are false after a `!`.
pub fn flags_of(word: &str) -> Result<AMQPFlags> {
    let mut flags = AMQPFlags::default();
    for name in names_of(word)? {
        let bare = name.strip_prefix('!');
        flags.add_flag(bare.unwrap_or(name).to_owned(), bare.is_none());
    }
    Ok(flags)
}

/// The word of flags. Only serde shows all of them, in their order.
pub fn flags_text(flags: &AMQPFlags) -> String {
    let mut json = serde_json::to_value(flags).expect("flags can be serialized");
    let flags: Vec<(String, bool)> = serde_json::from_value(json["flags"].take()).expect("flags are pairs");
    let names: Vec<String> =
        flags.into_iter().map(|(name, flag)| if flag { name } else { format!("!{name}") }).collect();
    if names.is_empty() { "-".to_owned() } else { names.join(",") }
}

pub fn type_of(name: &str) -> Result<AMQPType> {
    serde_json::from_value(name.into()).map_err(|_| Unknown)
}

// ---- values

/// The value of a word: `NAME(WORD)`, `Void`, `[VALUE,..]` or `{KEY:VALUE,..}`.
pub fn value_of(word: &str) -> Result<AMQPValue> {
    match read_value(word)? {
        (value, "") => Ok(value),
        _ => Err(Unknown),
    }
}

/// An array.
pub fn array_of(word: &str) -> Result<FieldArray> {
    match value_of(word)? {
        AMQPValue::FieldArray(array) => Ok(array),
        _ => Err(Unknown),
    }
}

/// A table.
pub fn table_of(word: &str) -> Result<FieldTable> {
    match value_of(word)? {
        AMQPValue::FieldTable(table) => Ok(table),
        _ => Err(Unknown),
    }
}

/// The value at the start of a text, and what is left of the text.
fn read_value(text: &str) -> Result<(AMQPValue, &str)> {
    if let Some(rest) = text.strip_prefix('[') {
        let (values, rest) = read_list(rest, ']', read_value)?;
        return Ok((FieldArray::from(values).into(), rest));
    }
    if let Some(rest) = text.strip_prefix('{') {
        let (entries, rest) = read_list(rest, '}', read_entry)?;
        let mut table = FieldTable::default();
        for (key, value) in entries {
            table.insert(key, value);
        }
        return Ok((table.into(), rest));
    }
    let (word, rest) = text.split_at(text.find([',', ']', '}']).unwrap_or(text.len()));
    Ok((scalar_of(word)?, rest))
}

fn read_entry(text: &str) -> Result<((ShortString, AMQPValue), &str)> {
    let (key, rest) = text.split_once(':').ok_or(Unknown)?;
    let (value, rest) = read_value(rest)?;
    Ok(((short_string(key)?, value), rest))
}

/// What stands before a bracket, separated by `,`, and what is left after the bracket.
fn read_list<T>(text: &str, end: char, read: fn(&str) -> Result<(T, &str)>) -> Result<(Vec<T>, &str)> {
    let mut list = Vec::new();
    let mut rest = text;
    loop {
        if let Some(rest) = rest.strip_prefix(end) {
            return Ok((list, rest));
        }
        if !list.is_empty() {
            rest = rest.strip_prefix(',').ok_or(Unknown)?;
        }
        let (it, after) = read(rest)?;
        list.push(it);
        rest = after;
    }
}

/// A value that isn't a container, by the conversion from what it holds.
fn scalar_of(word: &str) -> Result<AMQPValue> {
    if word == "Void" {
        return Ok(AMQPValue::Void);
    }
    let (name, held) = word.strip_suffix(')').and_then(|it| it.split_once('(')).ok_or(Unknown)?;
    Ok(match name {
        "Boolean" => number::<bool>(held)?.into(),
        "ShortShortInt" => number::<i8>(held)?.into(),
        "ShortShortUInt" => number::<u8>(held)?.into(),
        "ShortInt" => number::<i16>(held)?.into(),
        "ShortUInt" => number::<u16>(held)?.into(),
        "LongInt" => number::<i32>(held)?.into(),
        "LongUInt" => number::<u32>(held)?.into(),
        "LongLongInt" => number::<i64>(held)?.into(),
        "Timestamp" => number::<u64>(held)?.into(),
        "Float" => float(held)?.into(),
        "Double" => double(held)?.into(),
        "DecimalValue" => decimal_of(held)?.into(),
        "ShortString" => short_string(held)?.into(),
        "LongString" => LongString::from(bytes_of(held)?).into(),
        "ByteArray" => ByteArray::from(bytes_of(held)?).into(),
        _ => return Err(Unknown),
    })
}

/// A decimal, as `SCALE/VALUE`.
pub fn decimal_of(word: &str) -> Result<DecimalValue> {
    let (scale, value) = word.split_once('/').ok_or(Unknown)?;
    Ok(DecimalValue { scale: number(scale)?, value: number(value)? })
}

/// The word of a value, by the getter that returns something.
pub fn value_text(value: &AMQPValue) -> String {
    let (name, held) = got(value).next().expect("a getter returns something");
    match name {
        "as_array" | "as_field_table" => held,
        "as_void" => value.get_type().to_string(),
        _ => format!("{}({held})", value.get_type()),
    }
}

/// The getters that return something, and what.
pub fn got(value: &AMQPValue) -> impl Iterator<Item = (&'static str, String)> {
    let all = [
        ("as_bool", value.as_bool().map(|it| it.to_string())),
        ("as_short_short_int", value.as_short_short_int().map(|it| it.to_string())),
        ("as_short_short_uint", value.as_short_short_uint().map(|it| it.to_string())),
        ("as_short_int", value.as_short_int().map(|it| it.to_string())),
        ("as_short_uint", value.as_short_uint().map(|it| it.to_string())),
        ("as_long_int", value.as_long_int().map(|it| it.to_string())),
        ("as_long_uint", value.as_long_uint().map(|it| it.to_string())),
        ("as_long_long_int", value.as_long_long_int().map(|it| it.to_string())),
        ("as_float", value.as_float().map(|it| it.to_bits().to_string())),
        ("as_double", value.as_double().map(|it| it.to_bits().to_string())),
        ("as_decimal_value", value.as_decimal_value().map(decimal_text)),
        ("as_timestamp", value.as_timestamp().map(|it| it.to_string())),
        ("as_short_string", value.as_short_string().map(|it| quoted(it.as_str()))),
        ("as_long_string", value.as_long_string().map(string_text)),
        ("as_array", value.as_array().map(array_text)),
        ("as_field_table", value.as_field_table().map(table_text)),
        ("as_byte_array", value.as_byte_array().map(|it| digits(it.as_slice()))),
        ("as_void", value.as_void().map(|()| "-".to_owned())),
    ];
    all.into_iter().filter_map(|(name, held)| Some((name, held?)))
}

pub fn decimal_text(decimal: DecimalValue) -> String {
    format!("{}/{}", decimal.scale, decimal.value)
}

/// A long string, in quotes if it is a short and plain text.
pub fn string_text(string: &LongString) -> String {
    std::str::from_utf8(string.as_bytes()).map_or_else(|_| digits(string.as_bytes()), quoted)
}

pub fn array_text(array: &FieldArray) -> String {
    let values: Vec<String> = array.as_slice().iter().map(value_text).collect();
    format!("[{}]", values.join(","))
}

/// The entries in the order of `for`.
pub fn table_text(table: &FieldTable) -> String {
    let entries: Vec<String> =
        table.into_iter().map(|(key, value)| format!("{}:{}", quoted(key.as_str()), value_text(value))).collect();
    format!("{{{}}}", entries.join(","))
}
