//! The sides of bench/measure.py that are one process: this library, the Rust crate, librabbitmq, and a loop by hand.
//!
//! It first prints its lanes on a line, each a side and an operation, and then a line for each that it reads:
//!
//!     load PATH            takes the input: ok
//!     make LANE PATH       how many bytes LANE reads of it, value by value, or writes to the file; or the number that it
//!                          finds; negative: an error
//!     all SIDE STEP PATH   of each prefix, and each change of a byte to a multiple of STEP, 8 bytes to the file: how many bytes
//!                          SIDE reads, or -1; then, if it writes, for each a hash of what it writes
//!     time LANE N          the nanoseconds of N calls
//!     heap LANE            how often LANE requests memory in one reading, and its most bytes at once, by bench/heap.c
#![allow(unexpected_cfgs, dead_code)]

use amq_protocol_types::{AMQPValue, generation::gen_value, parsing::parse_value};
use std::ffi::c_char;
use std::hint::black_box;
use std::io::{BufRead, Write as _};
use std::time::Instant;

/// Returns how many bytes it read, or a negative number.
type Read = unsafe extern "C" fn(*const u8, usize) -> i64;
/// Reads once, writes that often, and returns how many bytes were written last, or a negative number.
type Write = unsafe extern "C" fn(*const u8, usize, *mut u8, usize, u64) -> i64;
/// Makes JSON of bytes, or bytes of JSON.
type Convert = fn(&[u8], &mut [u8]) -> i64;
/// A task of bench/tasks.c: writes bytes and returns how many, or finds a number in the input; negative: an error.
type Task = unsafe extern "C" fn(*const u8, usize, *mut u8, usize) -> i64;

struct Side {
    name: &'static str,
    read: Read,
    write: Option<Write>,
    json: Option<[Convert; 2]>,
    /// By their operations.
    tasks: &'static [(&'static str, Task)],
}

fn slice<'a>(bytes: *const u8, length: usize) -> &'a [u8] {
    unsafe { std::slice::from_raw_parts(bytes, length) }
}

// ---- the Rust crate

fn written(value: &AMQPValue, out: &mut [u8]) -> i64 {
    cookie_factory::r#gen(gen_value(black_box(value)), out).map_or(-1, |(_, n)| n as i64)
}

extern "C" fn crate_read(bytes: *const u8, length: usize) -> i64 {
    parse_value(slice(bytes, length)).map_or(-1, |(rest, value)| {
        black_box(&value);
        (length - rest.len()) as i64
    })
}

extern "C" fn crate_write(bytes: *const u8, length: usize, out: *mut u8, capacity: usize, times: u64) -> i64 {
    let out = unsafe { std::slice::from_raw_parts_mut(out, capacity) };
    parse_value(slice(bytes, length)).map_or(-1, |(_, value)| (0..times).fold(0, |_, _| written(&value, out)))
}

fn crate_to_json(bytes: &[u8], out: &mut [u8]) -> i64 {
    let (Ok((_, value)), capacity) = (parse_value(bytes), out.len()) else { return -1 };
    let mut rest = out;
    serde_json::to_writer(&mut rest, &value).map_or(-1, |()| (capacity - rest.len()) as i64)
}

fn crate_from_json(text: &[u8], out: &mut [u8]) -> i64 {
    serde_json::from_slice(text).map_or(-1, |value| written(&value, out))
}

// ---- this library, by what crates/amqp_bench exports and the C API; and librabbitmq, by bench/rabbitmq.c

unsafe extern "C" {
    fn amqp_bench_decode(bytes: *const u8, length: usize) -> i64;
    fn amqp_bench_scan(bytes: *const u8, length: usize) -> i64;
    fn amqp_bench_find(bytes: *const u8, length: usize) -> i64;
    fn amqp_bench_encode_n(bytes: *const u8, length: usize, out: *mut u8, capacity: usize, times: u64) -> i64;
    fn amqpv_read(input: &Input, entry: &mut [usize; 8], problem: &mut [usize; 3]) -> i32;
    fn amqpv_to_json(input: &Input, out: *mut u8, capacity: usize, length: &mut usize) -> i32;
    fn amqpv_from_json(
        text: *const u8,
        length: usize,
        nesting: u32,
        out: *mut u8,
        capacity: usize,
        written: &mut usize,
        problem: &mut [usize; 3],
    ) -> i32;
    fn rabbitmq_read(bytes: *const u8, length: usize) -> i64;
    fn rabbitmq_write(bytes: *const u8, length: usize, out: *mut u8, capacity: usize, times: u64) -> i64;
    fn library_arguments(bytes: *const u8, length: usize, out: *mut u8, capacity: usize) -> i64;
    fn library_deaths(bytes: *const u8, length: usize, out: *mut u8, capacity: usize) -> i64;
    fn rabbitmq_arguments(bytes: *const u8, length: usize, out: *mut u8, capacity: usize) -> i64;
    fn rabbitmq_deaths(bytes: *const u8, length: usize, out: *mut u8, capacity: usize) -> i64;
    fn dlsym(library: *const u8, name: *const c_char) -> Option<extern "C" fn(&mut [u64; 2])>;
}

/// An amqpv_input.
#[repr(C)]
struct Input {
    bytes: *const u8,
    length: usize,
    max_bytes: u32,
    max_depth: u32,
    flags: u32,
}

impl Input {
    /// A value without limits.
    fn of(bytes: *const u8, length: usize) -> Self {
        Self { bytes, length, max_bytes: u32::MAX, max_depth: u32::MAX, flags: 0 }
    }
}

/// The length that a call sets if it succeeds, otherwise -1.
fn length_by(call: impl FnOnce(&mut usize) -> i32) -> i64 {
    let mut length = 0;
    if call(&mut length) == 0 { length as i64 } else { -1 }
}

extern "C" fn c_read(bytes: *const u8, length: usize) -> i64 {
    let mut entry = [0; 8];
    // (the length of `value` is the fourth number of an amqpv_entry)
    if unsafe { amqpv_read(&Input::of(bytes, length), &mut entry, &mut [0; 3]) } == 0 { entry[3] as i64 } else { -1 }
}

const LIBRARY_JSON: [Convert; 2] = [
    |bytes, out| {
        length_by(|length| unsafe {
            amqpv_to_json(&Input::of(bytes.as_ptr(), bytes.len()), out.as_mut_ptr(), out.len(), length)
        })
    },
    |text, out| {
        length_by(|length| unsafe {
            amqpv_from_json(text.as_ptr(), text.len(), 127, out.as_mut_ptr(), out.len(), length, &mut [0; 3])
        })
    },
];

// ---- a loop by hand, which checks everything and keeps nothing

fn take<'a>(bytes: &mut &'a [u8], count: usize) -> Option<&'a [u8]> {
    let (taken, rest) = bytes.split_at_checked(count)?;
    *bytes = rest;
    Some(taken)
}

fn counted<'a>(bytes: &mut &'a [u8]) -> Option<&'a [u8]> {
    let (length, rest) = bytes.split_first_chunk()?;
    *bytes = rest;
    take(bytes, u32::from_be_bytes(*length) as usize)
}

fn checked(bytes: &mut &[u8]) -> Option<()> {
    let tag = take(bytes, 1)?[0];
    match tag {
        b'V' => Some(()),
        b't' | b'b' | b'B' => take(bytes, 1).map(drop),
        b's' | b'U' | b'u' => take(bytes, 2).map(drop),
        b'I' | b'i' | b'f' => take(bytes, 4).map(drop),
        b'D' => take(bytes, 5).map(drop),
        b'l' | b'L' | b'd' | b'T' => take(bytes, 8).map(drop),
        b'S' | b'x' => counted(bytes).map(drop),
        b'A' | b'F' => {
            let mut body = counted(bytes)?;
            while !body.is_empty() {
                if tag == b'F' {
                    let length = take(&mut body, 1)?[0];
                    std::str::from_utf8(take(&mut body, length as usize)?).ok()?;
                }
                checked(&mut body)?;
            }
            Some(())
        }
        _ => None,
    }
}

extern "C" fn by_hand(bytes: *const u8, length: usize) -> i64 {
    let mut rest = slice(bytes, length);
    checked(&mut rest).map_or(-1, |()| (length - rest.len()) as i64)
}

fn sides() -> Vec<Side> {
    let side = |name, read: Read, write: Option<Write>| Side { name, read, write, json: None, tasks: &[] };
    #[allow(unused_mut)]
    let mut found = vec![
        Side { json: Some([crate_to_json, crate_from_json]), ..side("crate", crate_read, Some(crate_write)) },
        side("library", amqp_bench_decode, Some(amqp_bench_encode_n)),
        side("in-place", amqp_bench_scan, None),
        side("look-up", amqp_bench_find, None),
        side("by-hand", by_hand, None),
    ];
    found[1].json.replace(LIBRARY_JSON);
    found.push(side("c", c_read, None));
    #[cfg(rabbitmq)]
    found.push(side("librabbitmq", rabbitmq_read, Some(rabbitmq_write)));
    #[cfg(rabbitmq)]
    for it in &mut found {
        it.tasks = match it.name {
            "c" => &[("arguments", library_arguments), ("deaths", library_deaths)],
            "librabbitmq" => &[("arguments", rabbitmq_arguments), ("deaths", rabbitmq_deaths)],
            _ => &[],
        };
    }
    found
}

impl Side {
    fn lanes(&self) -> Vec<String> {
        let json = self.json.into_iter().flat_map(|_| ["to-json", "from-json"]);
        let tasks = self.tasks.iter().map(|it| it.0);
        ["read"]
            .into_iter()
            .chain(self.write.map(|_| "write"))
            .chain(json)
            .chain(tasks)
            .map(|it| format!("{}.{it}", self.name))
            .collect()
    }

    fn task(&self, operation: &str) -> Option<Task> {
        self.tasks.iter().find(|it| it.0 == operation).map(|it| it.1)
    }

    fn reads(&self, bytes: &[u8]) -> i64 {
        unsafe { (self.read)(bytes.as_ptr(), bytes.len()) }
    }

    /// Reads value by value up to the end.
    fn reads_all(&self, bytes: &[u8]) -> i64 {
        let mut done = 0;
        while done < bytes.len() {
            match self.reads(&bytes[done..]) {
                count @ 1.. => done += count as usize,
                fault => return fault.min(-1),
            }
        }
        done as i64
    }

    fn writes(&self, bytes: &[u8], out: &mut [u8], times: u64) -> i64 {
        unsafe {
            self.write.expect("a side that writes")(bytes.as_ptr(), bytes.len(), out.as_mut_ptr(), out.len(), times)
        }
    }

    fn json_of(&self, bytes: &[u8], out: &mut [u8]) -> Vec<u8> {
        let count = self.json.expect("a side with JSON")[0](bytes, out);
        out[..count.max(0) as usize].to_vec()
    }

    /// How many bytes are read, or written to `out`, or the number that is found.
    fn make(&self, operation: &str, bytes: &[u8], out: &mut [u8]) -> i64 {
        if let Some(task) = self.task(operation) {
            return unsafe { task(bytes.as_ptr(), bytes.len(), out.as_mut_ptr(), out.len()) };
        }
        match (operation, self.json) {
            ("write", _) => self.writes(bytes, out, 1),
            ("to-json", Some(json)) => json[0](bytes, out),
            ("from-json", Some(json)) => json[1](&self.json_of(bytes, out), out),
            _ => self.reads_all(bytes),
        }
    }

    /// How often a reading requests memory, and the most bytes at once.
    fn heap(&self, bytes: &[u8]) -> [u64; 2] {
        let (since, mut counts) =
            (unsafe { dlsym(std::ptr::null(), c"heap_since".as_ptr()) }.expect("bench/heap.c"), [0; 2]);
        since(&mut counts);
        black_box(self.reads_all(bytes));
        since(&mut counts);
        counts
    }

    /// The nanoseconds of that many calls. Of writing, one reading is taken off.
    fn time(&self, operation: &str, bytes: &[u8], out: &mut [u8], times: u64) -> u64 {
        if let Some(task) = self.task(operation) {
            return repeated(times, || unsafe {
                task(black_box(bytes).as_ptr(), bytes.len(), out.as_mut_ptr(), out.len())
            });
        }
        match (operation, self.json) {
            ("write", _) => {
                let reading = (0..3).map(|_| repeated(1, || self.writes(bytes, out, 0))).min().unwrap_or(0);
                repeated(1, || self.writes(bytes, out, times)).saturating_sub(reading).max(1)
            }
            ("to-json", Some(json)) => repeated(times, || json[0](black_box(bytes), out)),
            ("from-json", Some(json)) => {
                let text = self.json_of(bytes, out);
                repeated(times, || json[1](black_box(&text), out))
            }
            _ => repeated(times, || self.reads_all(black_box(bytes))),
        }
    }

    fn all(&self, input: &[u8], step: usize, out: &mut [u8]) -> Vec<u8> {
        let mut results = Vec::new();
        for_changed(input, step, |bytes| results.push(self.reads(bytes).max(-1)));
        for_changed(if self.write.is_some() { input } else { &[] }, step, |bytes| {
            let count = self.writes(bytes, out, 1);
            results.push(if count < 0 { -1 } else { hash(&out[..count as usize]) });
        });
        results.iter().flat_map(|it| it.to_le_bytes()).collect()
    }
}

fn repeated(times: u64, mut call: impl FnMut() -> i64) -> u64 {
    let begin = Instant::now();
    (0..times).for_each(|_| {
        black_box(call());
    });
    begin.elapsed().as_nanos() as u64
}

/// The prefixes of the input, and it with a byte changed.
fn for_changed(input: &[u8], step: usize, mut work: impl FnMut(&[u8])) {
    (0..input.len()).for_each(|length| work(&input[..length]));
    for at in 0..input.len() {
        let mut changed = input.to_vec();
        for byte in (0..=255).step_by(step) {
            changed[at] = byte;
            work(&changed);
        }
    }
}

/// Side::time, by a name at which callgrind counts.
#[unsafe(no_mangle)]
#[inline(never)]
fn bench_time(side: &Side, operation: &str, input: &[u8], out: &mut [u8], times: u64) -> u64 {
    side.time(operation, input, out, times)
}

fn hash(bytes: &[u8]) -> i64 {
    bytes.iter().fold(0xcbf29ce484222325_u64, |sum, byte| (sum ^ u64::from(*byte)).wrapping_mul(0x100000001b3)) as i64
}

fn serve() {
    let sides = sides();
    println!("{}", sides.iter().flat_map(Side::lanes).collect::<Vec<_>>().join(" "));
    let (mut input, mut out) = (Vec::new(), Vec::new());
    for line in std::io::stdin().lock().lines() {
        let line = line.expect("a line");
        let words: Vec<&str> = line.split(' ').collect();
        let (name, operation) = words[1].split_once('.').unwrap_or((words[1], "read"));
        let side = || sides.iter().find(|it| it.name == name).expect("a side");
        let number = || words[2].parse::<u64>().expect("a number");
        match words[0] {
            "load" => {
                input = std::fs::read(words[1]).expect("an input");
                // (a LongInt of 5 bytes has 24 of JSON)
                out = vec![0; 8 * input.len() + 4096];
                println!("ok");
            }
            "make" => {
                let count = side().make(operation, &input, &mut out);
                let made = if matches!(operation, "read" | "deaths") { 0 } else { count.max(0) as usize };
                std::fs::write(words[2], &out[..made]).expect("a file");
                println!("{count}");
            }
            "all" => {
                std::fs::write(words[3], side().all(&input, number() as usize, &mut out)).expect("a file");
                println!("ok");
            }
            "heap" => println!("{:?}", side().heap(&input)),
            _ => println!("{}", bench_time(side(), operation, &input, &mut out, number())),
        }
        std::io::stdout().flush().expect("a line");
    }
}

fn main() {
    // changed inputs nest deep
    std::thread::Builder::new().stack_size(1 << 30).spawn(serve).expect("a thread").join().expect("the work");
}
