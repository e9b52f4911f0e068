//! Prints, for `test_json.py`, what the JSON calls of `amqp-values` return for each line of standard input: what is
//! written, in hexadecimal, or the error. A line is `CALL DEPTH HEX`.

use amqp_values::{Limits, from_json, table_from_json, table_to_json, to_json};
use std::io::{Result, stdin};

fn hex(bytes: impl AsRef<[u8]>) -> String {
    bytes.as_ref().iter().map(|it| format!("{it:02x}")).collect()
}

fn bytes_of(digits: &str) -> Vec<u8> {
    let byte = |at| u8::from_str_radix(&digits[at..at + 2], 16).expect("two digits");
    (0..digits.len()).step_by(2).map(byte).collect()
}

fn main() -> Result<()> {
    for line in stdin().lines() {
        let line = line?;
        let [call, depth, digits] = line.split(' ').collect::<Vec<_>>()[..] else { panic!("three words") };
        let limits = Limits { max_bytes: u32::MAX, depth: depth.parse().expect("a number"), values: u32::MAX };
        let given = bytes_of(digits);
        let text = || std::str::from_utf8(&given).expect("UTF-8");
        let made = match call {
            "to_json" => to_json(&given, limits, false).map(String::into_bytes),
            "table_to_json" => table_to_json(&given, limits, false).map(String::into_bytes),
            "canonical_to_json" => to_json(&given, limits, true).map(String::into_bytes),
            "canonical_table_to_json" => table_to_json(&given, limits, true).map(String::into_bytes),
            "from_json" => from_json(text(), limits),
            _ => table_from_json(text(), limits),
        };
        match made {
            Ok(made) => println!("{}", hex(made)),
            Err(error) => println!("{error:?}"),
        }
    }
    Ok(())
}
