//! Random inputs for `equal.rs` and `values.rs`: `input` makes an encoding, often changed or cut.

/// Random numbers, the same of the same seed (splitmix64).
pub struct Dice(u64);

impl Dice {
    pub fn next(&mut self) -> u64 {
        self.0 = self.0.wrapping_add(0x9e37_79b9_7f4a_7c15);
        let mixed = (self.0 ^ (self.0 >> 30)).wrapping_mul(0xbf58_476d_1ce4_e5b9);
        let mixed = (mixed ^ (mixed >> 27)).wrapping_mul(0x94d0_49bb_1331_11eb);
        mixed ^ (mixed >> 31)
    }

    /// A number below another.
    pub fn below(&mut self, most: usize) -> usize {
        (self.next() % most as u64) as usize
    }

    fn of<'a, T>(&mut self, these: &'a [T]) -> &'a T {
        &these[self.below(these.len())]
    }

    fn bytes(&mut self, count: usize) -> impl Iterator<Item = u8> {
        (0..count).map(|_| self.next() as u8)
    }
}

/// How many inputs are asked for by the first word of the program, and what makes them, by the seed that is the second.
pub fn asked() -> (usize, Dice) {
    let words: Vec<u64> = std::env::args().skip(1).map(|it| it.parse().expect("a number")).collect();
    let [count, seed] = words[..] else { panic!("COUNT SEED") };
    (count as usize, Dice(seed))
}

/// The type tags of a value of fixed width, and of one whose length is written.
const FIXED: &[u8; 15] = b"tbBsUuIiLlfdDTV";
const COUNTED: [u8; 4] = *b"SxAF";
const KEYS: [&str; 8] = ["", "a", "k", "count", "x-death", "é", "𝄞", "routing-keys"];
const LEVELS: usize = 6;

/// How many bytes a value of fixed width has.
fn width(tag: u8) -> usize {
    match tag {
        b'V' => 0,
        b't' | b'b' | b'B' => 1,
        b's' | b'U' | b'u' => 2,
        b'I' | b'i' | b'f' => 4,
        b'D' => 5,
        _ => 8,
    }
}

/// Appends a value, type tag included.
fn append_value(dice: &mut Dice, levels: usize, to: &mut Vec<u8>) {
    if levels == 0 || dice.below(3) > 0 {
        let tag = *dice.of(FIXED);
        to.push(tag);
        to.extend(dice.bytes(width(tag)));
        return;
    }
    let tag = *dice.of(&COUNTED);
    append_counted(dice, tag, levels - 1, to);
}

/// Appends a value whose length is written before its content.
fn append_counted(dice: &mut Dice, tag: u8, levels: usize, to: &mut Vec<u8>) {
    to.extend([tag, 0, 0, 0, 0]);
    let begin = to.len();
    let count = dice.below(6);
    match tag {
        b'A' => (0..count).for_each(|_| append_value(dice, levels, to)),
        b'F' => (0..count).for_each(|_| append_pair(dice, levels, to)),
        _ => to.extend(dice.bytes(count)),
    }
    let length = (to.len() - begin) as u32;
    to[begin - 4..begin].copy_from_slice(&length.to_be_bytes());
}

fn append_pair(dice: &mut Dice, levels: usize, to: &mut Vec<u8>) {
    let key = *dice.of(&KEYS);
    to.push(key.len() as u8);
    to.extend(key.bytes());
    append_value(dice, levels, to);
}

/// Changes a few bytes: other values, lengths and tags, bytes that are missing or come twice.
fn mutate(dice: &mut Dice, bytes: &mut Vec<u8>) {
    for _ in 0..=dice.below(3) {
        let at = dice.below(bytes.len());
        match dice.below(6) {
            0 => bytes[at] = dice.next() as u8,
            1 => bytes[at] ^= 1 << dice.below(8),
            2 => bytes[at] = *dice.of(b"tbBsUuIiLlfdDTVSxAF_"),
            3 => bytes[at] = *dice.of(&[0, 1, 2, 0x7f, 0x80, 0xff]),
            4 => bytes.insert(at, dice.next() as u8),
            _ if bytes.len() > 1 => drop(bytes.remove(at)),
            _ => {}
        }
    }
}

/// An input, its type tag included: every second is a table that was changed, the others are values, complete or cut.
pub fn input(dice: &mut Dice, number: usize) -> Vec<u8> {
    let mut bytes = Vec::new();
    if number % 2 == 0 {
        append_counted(dice, b'F', LEVELS, &mut bytes);
        mutate(dice, &mut bytes);
    } else {
        append_value(dice, LEVELS, &mut bytes);
        match dice.below(4) {
            0 => bytes.truncate(dice.below(bytes.len() + 1)),
            1 => bytes = dice.bytes(12).collect(),
            2 => bytes.extend_from_within(..),
            _ => {}
        }
    }
    bytes
}
