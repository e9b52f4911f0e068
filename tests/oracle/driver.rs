//! Answers requests of `crates/test_calls` by the Rust crate; `crate.py` builds and runs it. Standard input has
//! requests, a line each, and standard output each with its answer. An answer that a request has already is replaced.
//! Comments stay.
//!
//! `--as-it-is` prints what differs from this library on purpose as the crate answers it.

mod differences;
mod words;

use amq_protocol_types::flags::AMQPFlags;
use amq_protocol_types::generation::*;
use amq_protocol_types::parsing::*;
use amq_protocol_types::*;
use cookie_factory::combinator::slice;
use cookie_factory::r#gen;
use std::fmt::Display;
use std::hash::{DefaultHasher, Hash, Hasher};
use std::io::{self, ErrorKind, Read, Write};
use std::panic::{AssertUnwindSafe, catch_unwind};
use words::*;

type Answer = words::Result<String>;

fn main() {
    // a panic is an answer
    std::panic::set_hook(Box::new(|_| {}));
    let differs = std::env::args().nth(1).as_deref() != Some("--as-it-is");
    let mut text = String::new();
    io::stdin().read_to_string(&mut text).expect("standard input is UTF-8");
    let mut out = io::BufWriter::new(io::stdout().lock());
    for line in text.split_terminator('\n') {
        if line.is_empty() || line.starts_with('#') {
            writeln!(out, "{line}").expect("standard output can be written");
            continue;
        }
        let request = line.split(" => ").next().unwrap_or(line);
        let words: Vec<&str> = request.split(' ').collect();
        let answer = match catch_unwind(AssertUnwindSafe(|| answer(&words))) {
            Ok(Ok(answer)) => answer,
            Ok(Err(Unknown)) => "no request".to_owned(),
            Err(_) => "panic".to_owned(),
        };
        let answer = if differs { differences::translated(&words, answer) } else { answer };
        writeln!(out, "{request} => {answer}").expect("standard output can be written");
    }
}

fn answer(words: &[&str]) -> Answer {
    match *words {
        [call, room, word] if call.starts_with("gen_") => match room.strip_suffix("least") {
            Some(before) => generate_in_least(call, before, word),
            None => generate(call, &Room::of(room)?, word),
        },
        ["parse_raw_value", name, word] => {
            let bytes = bytes_of(word)?;
            Ok(parsed(nom::Parser::parse(&mut parse_raw_value(type_of(name)?), &bytes[..]), |it| value_text(&it)))
        }
        ["parse_flags", names, word] => {
            Ok(parsed(parse_flags(&bytes_of(word)?[..], &names_of(names)?), |it| flags_text(&it)))
        }
        ["message", word] => message(&bytes_of(word)?),
        [call, word] if call.starts_with("parse_") || call == "wire" => parse(call, &bytes_of(word)?),
        ["add_flag" | "get_flag" | "get_bytes" | "from_bytes" | "clone_flags", ..] => of_flags(words),
        ["push" | "insert" | "contains_key" | "clone" | "equal", ..] => of_values(words),
        ["get_type" | "getters" | "from" | "from_id" | "get_id" | "try_from", ..] => of_types(words),
        _ => of_strings(words),
    }
}

// ---- parsing

fn parsed<T>(result: ParserResult<&[u8], T>, text: impl Fn(T) -> String) -> String {
    match result {
        Ok(([], it)) => format!("ok {}", text(it)),
        Ok((rest, it)) => format!("ok {} rest {}", text(it), digits(rest)),
        Err(nom::Err::Incomplete(nom::Needed::Size(count))) => format!("more {count}"),
        Err(nom::Err::Incomplete(nom::Needed::Unknown)) => "more".to_owned(),
        Err(nom::Err::Error(error)) => format!("error {}", kind_of(&error)),
        Err(nom::Err::Failure(error)) => format!("failure {}", kind_of(&error)),
    }
}

/// The kind of an error, which is private, by its text.
fn kind_of(error: &ParserErrors) -> String {
    let text = error.to_string();
    let kind = text.strip_prefix("Parser error: Nom(").and_then(|it| it.strip_suffix(')'));
    kind.unwrap_or(&text).to_owned()
}

fn parse(call: &str, bytes: &[u8]) -> Answer {
    fn plain(it: impl Display) -> String {
        it.to_string()
    }
    Ok(match call {
        "parse_value" => parsed(parse_value(bytes), |it| value_text(&it)),
        "parse_type" => parsed(parse_type(bytes), plain),
        "parse_id" => parsed(parse_id(bytes), plain),
        "parse_boolean" => parsed(parse_boolean(bytes), plain),
        "parse_short_short_int" => parsed(parse_short_short_int(bytes), plain),
        "parse_short_short_uint" => parsed(parse_short_short_uint(bytes), plain),
        "parse_short_int" => parsed(parse_short_int(bytes), plain),
        "parse_short_uint" => parsed(parse_short_uint(bytes), plain),
        "parse_long_int" => parsed(parse_long_int(bytes), plain),
        "parse_long_uint" => parsed(parse_long_uint(bytes), plain),
        "parse_long_long_int" => parsed(parse_long_long_int(bytes), plain),
        "parse_long_long_uint" => parsed(parse_long_long_uint(bytes), plain),
        "parse_timestamp" => parsed(parse_timestamp(bytes), plain),
        "parse_float" => parsed(parse_float(bytes), |it| plain(it.to_bits())),
        "parse_double" => parsed(parse_double(bytes), |it| plain(it.to_bits())),
        "parse_decimal_value" => parsed(parse_decimal_value(bytes), decimal_text),
        "parse_short_string" => parsed(parse_short_string(bytes), |it| quoted(it.as_str())),
        "parse_long_string" => parsed(parse_long_string(bytes), |it| string_text(&it)),
        "parse_byte_array" => parsed(parse_byte_array(bytes), |it| digits(it.as_slice())),
        "parse_field_array" => parsed(parse_field_array(bytes), |it| array_text(&it)),
        "parse_field_table" => parsed(parse_field_table(bytes), |it| table_text(&it)),
        "wire" => parsed(parse_value(bytes), |it| match r#gen(gen_value(&it), Vec::new()) {
            Ok((written, _)) => digits(&written),
            Err(error) => error.to_string(),
        }),
        _ => return Err(Unknown),
    })
}

/// The text of an error; the library's own has no text for one of nom's, which is nom's.
fn message(bytes: &[u8]) -> Answer {
    match parse_value(bytes) {
        Ok(_) => Err(Unknown),
        Err(nom::Err::Error(error)) => Ok(error.to_string()),
        Err(error) => Ok(error.to_string()),
    }
}

// ---- generation

/// Where a generator writes.
enum Room {
    /// Into a slice of so many bytes, after these.
    Slice(Vec<u8>, usize),
    /// To the end of a vector that has these bytes.
    Vector(Vec<u8>),
    /// To a device that takes all, or fails at once.
    Device(Option<ErrorKind>),
}

impl Room {
    /// The room of a word: `[BYTES/]CAPACITY`, `[BYTES/]vec` or `io:STEPS`.
    fn of(word: &str) -> words::Result<Room> {
        let (before, to) = word.split_once('/').unwrap_or(("-", word));
        let before = bytes_of(before)?;
        Ok(match to {
            "vec" => Room::Vector(before),
            "io:9999" => Room::Device(None),
            "io:BrokenPipe" => Room::Device(Some(ErrorKind::BrokenPipe)),
            "io:TimedOut" => Room::Device(Some(ErrorKind::TimedOut)),
            _ => {
                let capacity: usize = number(to)?;
                let capacity = capacity.checked_sub(before.len()).ok_or(Unknown)?;
                Room::Slice(before, capacity)
            }
        })
    }
}

/// A device that fails so, or takes everything.
struct Device(Option<ErrorKind>, Vec<u8>);

impl Write for Device {
    fn write(&mut self, bytes: &[u8]) -> io::Result<usize> {
        match self.0 {
            Some(kind) => Err(kind.into()),
            None => self.1.write(bytes),
        }
    }

    fn flush(&mut self) -> io::Result<()> {
        Ok(())
    }
}

/// What a generator answers that writes to a buffer.
macro_rules! to_buffer {
    ($room:expr, $generator:expr) => {
        match $room {
            Room::Slice(before, capacity) => {
                let mut buffer = vec![0; *capacity];
                let made = r#gen($generator, &mut buffer[..]).map(|(_, position)| position);
                made.map(|it| written(&[&before[..], &buffer[..it as usize]].concat(), it)).unwrap_or_else(failed)
            }
            Room::Vector(before) => {
                let made = r#gen($generator, before.clone());
                made.map(|(bytes, position)| written(&bytes, position)).unwrap_or_else(failed)
            }
            Room::Device(_) => return Err(Unknown),
        }
    };
}

/// What a generator answers that writes to anything.
macro_rules! to_any {
    ($room:expr, $generator:expr) => {
        match $room {
            Room::Device(fault) => {
                let made = r#gen($generator, Device(*fault, Vec::new()));
                let all = made.map(|(device, it)| format!("{} position {it} faults 0", written(&device.1, it)));
                all.unwrap_or_else(failed)
            }
            room => to_buffer!(room, $generator),
        }
    };
}

fn written(bytes: &[u8], position: u64) -> String {
    format!("ok {} counted {position}", digits(bytes))
}

/// Why a generator failed. It keeps the context.
fn failed(error: GenError) -> String {
    match error {
        GenError::BufferTooSmall(_) => "BufferTooSmall".to_owned(),
        GenError::IoError(error) => format!("IoError({:?})", error.kind()),
        other => other.to_string(),
    }
}

/// In the shortest slice in which a generator doesn't fail, after `BYTES/`.
fn generate_in_least(call: &str, before: &str, word: &str) -> Answer {
    for capacity in bytes_of(before.trim_end_matches('/'))?.len()..512 {
        let room = Room::of(&format!("{before}{capacity}"))?;
        // (over fewer than four bytes, what begins with a length panics)
        if let Ok(answer) = catch_unwind(AssertUnwindSafe(|| generate(call, &room, word))) {
            let answer = answer?;
            if answer.starts_with("ok") {
                return Ok(format!("{answer} in {capacity}"));
            }
        }
    }
    Err(Unknown)
}

fn generate(call: &str, room: &Room, word: &str) -> Answer {
    Ok(match call {
        "gen_value" => to_buffer!(room, gen_value(&value_of(word)?)),
        "gen_raw_value" => to_buffer!(room, gen_raw_value(&value_of(word)?)),
        "gen_field_array" => to_buffer!(room, gen_field_array(&array_of(word)?)),
        "gen_field_table" => to_buffer!(room, gen_field_table(&table_of(word)?)),
        "gen_with_len" => to_buffer!(room, gen_with_len(slice(bytes_of(word)?))),
        "gen_type" => to_any!(room, gen_type(type_of(word)?)),
        "gen_id" => to_any!(room, gen_id(number(word)?)),
        "gen_boolean" => to_any!(room, gen_boolean(number(word)?)),
        "gen_short_short_int" => to_any!(room, gen_short_short_int(number(word)?)),
        "gen_short_short_uint" => to_any!(room, gen_short_short_uint(number(word)?)),
        "gen_short_int" => to_any!(room, gen_short_int(number(word)?)),
        "gen_short_uint" => to_any!(room, gen_short_uint(number(word)?)),
        "gen_long_int" => to_any!(room, gen_long_int(number(word)?)),
        "gen_long_uint" => to_any!(room, gen_long_uint(number(word)?)),
        "gen_long_long_int" => to_any!(room, gen_long_long_int(number(word)?)),
        "gen_long_long_uint" => to_any!(room, gen_long_long_uint(number(word)?)),
        "gen_timestamp" => to_any!(room, gen_timestamp(number(word)?)),
        "gen_float" => to_any!(room, gen_float(float(word)?)),
        "gen_double" => to_any!(room, gen_double(double(word)?)),
        "gen_decimal_value" => to_any!(room, gen_decimal_value(decimal_of(word)?)),
        "gen_short_string" => to_any!(room, gen_short_string(&text_of(word)?)),
        "gen_long_string" => to_any!(room, gen_long_string(&bytes_of(word)?)),
        "gen_byte_array" => to_any!(room, gen_byte_array(&bytes_of(word)?.into())),
        "gen_flags" => to_any!(room, gen_flags(&flags_of(word)?)),
        _ => return Err(Unknown),
    })
}

// ---- flags, values and types

fn of_flags(words: &[&str]) -> Answer {
    Ok(match *words {
        ["add_flag", word, name, flag] => {
            let mut flags = flags_of(word)?;
            flags.add_flag(name.to_owned(), number(flag)?);
            format!("ok {}", flags_text(&flags))
        }
        ["get_flag", word, "-"] => format!("{:?}", flags_of(word)?.get_flag("")),
        ["get_flag", word, name] => format!("{:?}", flags_of(word)?.get_flag(name)),
        ["get_bytes", word] => format!("ok {}", digits(&flags_of(word)?.get_bytes())),
        ["from_bytes", names, word] => {
            format!("ok {}", flags_text(&AMQPFlags::from_bytes(&names_of(names)?, &bytes_of(word)?[..])))
        }
        ["clone_flags", word] => format!("ok {}", flags_text(&flags_of(word)?.clone())),
        _ => return Err(Unknown),
    })
}

fn of_values(words: &[&str]) -> Answer {
    Ok(match *words {
        ["push", array, value] => {
            let mut array = array_of(array)?;
            array.push(value_of(value)?);
            format!("ok {}", array_text(&array))
        }
        ["insert", table, key, value] => {
            let mut table = table_of(table)?;
            table.insert(short_string(key)?, value_of(value)?);
            format!("ok {}", table_text(&table))
        }
        ["contains_key", table, key] => table_of(table)?.contains_key(&text_of(key)?).to_string(),
        ["clone", value] => {
            let value = value_of(value)?;
            let copy = value.clone();
            format!("ok {} equal {}", value_text(&copy), copy == value)
        }
        ["equal", one, other] => (value_of(one)? == value_of(other)?).to_string(),
        _ => return Err(Unknown),
    })
}

fn of_types(words: &[&str]) -> Answer {
    Ok(match *words {
        ["get_type", value] => value_of(value)?.get_type().to_string(),
        ["getters", value] => getters(&value_of(value)?),
        ["from", value] => value_text(&value_of(value)?),
        ["from_id", code] => format!("{:?}", AMQPType::from_id(char::from_u32(number(code)?).ok_or(Unknown)?)),
        ["get_id", name] => type_of(name)?.get_id().to_string(),
        ["try_from", name, json] => {
            let json = serde_json::from_str(json).map_err(|_| Unknown)?;
            AMQPValue::try_from(&json, type_of(name)?).map_or("None".to_owned(), |it| value_text(&it))
        }
        _ => return Err(Unknown),
    })
}

fn getters(value: &AMQPValue) -> String {
    let found: Vec<String> = got(value).map(|(name, held)| format!("{name}={held}")).collect();
    found.join(" ")
}

// ---- strings

fn of_strings(words: &[&str]) -> Answer {
    Ok(match *words {
        ["try_new", text] => match ShortString::try_new(text_of(text)?) {
            Ok(string) => short_text(string),
            Err(error) => format!("error {error}"),
        },
        ["order", one, other] => {
            let (one, other) = (short_string(one)?, short_string(other)?);
            let (how, partial) = (one.cmp(&other), one.partial_cmp(&other));
            format!("{how:?} {partial:?} equal {} hashed {}", one == other, hash_of(&one) == hash_of(&other))
        }
        ["long_string", word] => {
            let it = LongString::from(bytes_of(word)?);
            format!("ok {} {} {} \"{it}\"", string_text(&it), it.len(), it.is_empty())
        }
        ["byte_array", word] => {
            let it = ByteArray::from(&bytes_of(word)?[..]);
            format!("ok {} {} {}", digits(it.as_slice()), it.len(), it.is_empty())
        }
        _ => return Err(Unknown),
    })
}

/// A short string, which is held, printed and made a string alike.
fn short_text(string: ShortString) -> String {
    let held = quoted(string.as_str());
    assert_eq!(held, quoted(&string.to_string()));
    assert_eq!(held, quoted(&String::from(string)));
    format!("ok {held}")
}

fn hash_of(string: &ShortString) -> u64 {
    let mut hasher = DefaultHasher::new();
    string.hash(&mut hasher);
    hasher.finish()
}
