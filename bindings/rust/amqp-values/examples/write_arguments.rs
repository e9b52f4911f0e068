//! Writes the arguments of a queue, a table without its type tag, as the method `queue.declare` has it, and prints its bytes in
//! hexadecimal. A number as argument is the buffer's length.

use amqp_values::{TableBuilder, ValueRef, WriteError};

/// Writes the arguments, and returns their bytes.
fn write_arguments(buffer: &mut [u8]) -> Result<&[u8], WriteError> {
    let mut arguments = TableBuilder::new(buffer);
    arguments.put("x-max-length", 10_000)?;
    arguments.put("x-queue-type", "quorum")?;
    arguments.put_table("limits", |limits| {
        limits.put("low", -5_i16)?;
        limits.put("strict", true)
    })?;
    arguments.put_array("hosts", |hosts| {
        hosts.push("a")?;
        hosts.push(ValueRef::Void)
    })?;
    arguments.finish()
}

fn main() -> Result<(), WriteError> {
    let length = std::env::args().nth(1).map_or(256, |it| it.parse().expect("a number"));
    let mut buffer = vec![0; length];
    let written = write_arguments(&mut buffer)?;
    println!("{}", written.iter().map(|it| format!("{it:02x}")).collect::<String>());
    Ok(())
}
