//! Compares the drop-in with the Rust crate on random inputs, for `test_drop_in.py`: equal COUNT SEED
//!
//! Each input is parsed with and without its type tag, from one slice and from two. Only a claim above the limit may be answered otherwise:
//! by an error, and not by waiting for it. The last line is how many answers were equal, how many were such claims, and how
//! many were wrong.

mod halves;
mod inputs;

use halves::Halves;
use inputs::{asked, input};
use std::process::ExitCode;

const TOO_LARGE: &str = "Err(Error(ParserErrors { error: Nom(TooLarge)";
const SHOWN: usize = 10;

#[derive(Clone, Copy, Debug)]
enum Call {
    Value,
    Table,
    Array,
}

/// What a crate answers: how many bytes are left and the value, which is also written again, as bits aren't printed.
macro_rules! answers {
    ($side:ident, $of:ident) => {
        mod $side {
            use super::Call;
            use $of::{AMQPValue, generation::gen_value, parsing::*};

            pub fn answer<I: traits::ParsableInput>(call: Call, input: I) -> String {
                let parsed = match call {
                    Call::Value => parse_value(input),
                    Call::Table => parse_field_table(input).map(|(rest, it)| (rest, AMQPValue::FieldTable(it))),
                    Call::Array => parse_field_array(input).map(|(rest, it)| (rest, AMQPValue::FieldArray(it))),
                };
                format!("{:?}", parsed.map(|(rest, value)| (rest.input_len(), written(&value), value)))
            }

            fn written(value: &AMQPValue) -> Vec<u8> {
                cookie_factory::r#gen(gen_value(value), Vec::new()).expect("a vector takes all").0
            }
        }
    };
}

answers!(theirs, original);
answers!(ours, drop_in);

/// The calls that are asked, each with its input: with a type tag and, if it is that of a container, without.
fn calls(bytes: &[u8]) -> impl Iterator<Item = (Call, &[u8])> {
    let without = match bytes {
        [b'F', body @ ..] => Some((Call::Table, body)),
        [b'A', body @ ..] => Some((Call::Array, body)),
        _ => None,
    };
    std::iter::once((Call::Value, bytes)).chain(without)
}

/// How many bytes an array or a table claims that isn't all there, its type tag included.
fn claimed(call: Call, bytes: &[u8]) -> Option<usize> {
    let length = match (call, bytes) {
        (Call::Value, [b'A' | b'F', length @ ..]) => length,
        (Call::Table | Call::Array, length) => length,
        _ => return None,
    };
    let (length, body) = length.split_first_chunk()?;
    let length = u32::from_be_bytes(*length) as usize;
    (length > body.len()).then_some(length + 5)
}

/// Whether the drop-in answers as it has to: as the crate, or by an error if more is claimed than the limit.
fn is_right(call: Call, bytes: &[u8], theirs: &str, ours: &str) -> bool {
    let most = drop_in::limits::Limits::DEFAULT.max_bytes as usize;
    match claimed(call, bytes) {
        Some(claim) if claim > most => theirs.starts_with("Err(Incomplete(") && ours.starts_with(TOO_LARGE),
        _ => ours == theirs,
    }
}

fn main() -> ExitCode {
    let (count, mut dice) = asked();
    let (mut equal, mut claims, mut wrong) = (0, 0, 0);
    for number in 0..count {
        let bytes = input(&mut dice, number);
        let at = dice.below(bytes.len() + 1);
        for (call, bytes) in calls(&bytes) {
            let halves = Halves::of(bytes, at);
            let answers = [
                (theirs::answer(call, bytes), ours::answer(call, bytes)),
                (theirs::answer(call, halves), ours::answer(call, halves)),
            ];
            for (theirs, ours) in answers {
                let is_right = is_right(call, bytes, &theirs, &ours);
                equal += usize::from(is_right && ours == theirs);
                claims += usize::from(is_right && ours != theirs);
                wrong += usize::from(!is_right);
                if !is_right && wrong <= SHOWN {
                    println!("{call:?} {bytes:02x?} split at {at}\n  the crate   {theirs}\n  the drop-in {ours}");
                }
            }
        }
    }
    println!("{equal} equal, {claims} claims above the limit, {wrong} wrong");
    if wrong == 0 && equal > 0 && claims > 0 { ExitCode::SUCCESS } else { ExitCode::FAILURE }
}
