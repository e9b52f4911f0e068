//! How often a message was dead-lettered: the header `count` of the first table in the array `x-death` of its headers, a table
//! as content headers have it, without its type tag, which is given in hexadecimal on standard input.

use amqp_values::{read_table, EqualKeys, Error, Limits, PathStep::*, ValueRef};
use std::io::{self, Read};

/// The count of the first death, if the headers have one.
fn deaths(headers: &[u8]) -> Result<Option<i64>, Error> {
    let (headers, _) = read_table(headers, Limits::DEFAULT)?;
    let path = [Key("x-death"), Index(0), Key("count")];
    Ok(headers.get_path(&path, EqualKeys::First).and_then(ValueRef::as_int))
}

/// The bytes of pairs of digits, without what a `#` begins in a line.
fn hexadecimal(text: &str) -> Vec<u8> {
    let lines = text.lines().filter_map(|line| line.split('#').next());
    let digits: Vec<u32> = lines.flat_map(str::chars).filter_map(|it| it.to_digit(16)).collect();
    digits.chunks_exact(2).map(|pair| (pair[0] * 16 + pair[1]) as u8).collect()
}

fn main() -> io::Result<()> {
    let mut text = String::new();
    io::stdin().read_to_string(&mut text)?;
    println!("{}", deaths(&hexadecimal(&text)).ok().flatten().unwrap_or(-1));
    Ok(())
}
