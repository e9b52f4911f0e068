//! A consumer over the Rust crate, which `test_client.py` builds over the crate and over the drop-in: client [CHOICE]
//!
//! It takes tables from standard input as the headers of messages, on a thread of 2 MiB, and prints a line for each: whether it
//! takes or rejects the message, and its headers. CHOICE is what a refused table becomes.

use amq_protocol_types::FieldTable;
use amq_protocol_types::parsing::parse_field_table;
use std::io::{Read, stdin};

/// Whether the headers of a message were refused, so that it is to be rejected.
fn is_refused(headers: &FieldTable) -> bool {
    headers.inner().keys().any(|key| key.as_str().starts_with("x-refused-"))
}

#[cfg(feature = "chosen")]
fn choose() {
    use amq_protocol_types::limits::{self, Limits, Refused};
    let is_error = std::env::args().nth(1).is_some_and(|it| it == "error");
    let refused = if is_error { Refused::Error } else { Refused::MarkedIfMalformed };
    limits::set(Limits { refused, ..Limits::default() });
}

fn consume() {
    #[cfg(feature = "chosen")]
    choose();
    let mut given = Vec::new();
    stdin().read_to_end(&mut given).expect("it can be read");
    let mut left = &given[..];
    while let Some(length) = left.first_chunk() {
        let (headers, rest) = left.split_at(4 + u32::from_be_bytes(*length) as usize);
        match parse_field_table(headers) {
            Ok((_, table)) if !is_refused(&table) => println!("taken: {:?}", table.inner()),
            Ok((_, table)) => println!("rejected: {:?}", table.inner()),
            Err(error) => println!("rejected: {error}"),
        }
        left = rest;
    }
}

fn main() {
    let consumer = std::thread::Builder::new().stack_size(2 << 20).spawn(consume).expect("a thread starts");
    consumer.join().expect("the thread doesn't panic");
}
