//! Tests of `to_json` and `from_json`. `tests/rust/json.rs` compares both with a model.

use amqp_values::{
    from_json, table_from_json, table_to_json, to_json, Error, JsonReason, Limits, Problem, ProblemKind,
};

const LIMITS: Limits = Limits::DEFAULT;
/// Each type, as `docs/JSON.md` has it, and its encoding.
const ROWS: [(&str, &[u8]); 21] = [
    ("null", b"V"),
    ("true", b"t\x01"),
    (r#"{"$ShortShortInt":-2}"#, b"b\xfe"),
    (r#"{"$ShortShortUInt":254}"#, b"B\xfe"),
    (r#"{"$ShortInt":-32768}"#, b"s\x80\0"),
    (r#"{"$ShortUInt":65535}"#, b"u\xff\xff"),
    (r#"{"$LongInt":5}"#, b"I\0\0\0\x05"),
    (r#"{"$LongUInt":4294967295}"#, b"i\xff\xff\xff\xff"),
    ("-5", b"l\xff\xff\xff\xff\xff\xff\xff\xfb"),
    (r#"{"$Float":1.5}"#, b"f\x3f\xc0\0\0"),
    ("-0.25", b"d\xbf\xd0\0\0\0\0\0\0"),
    (r#"{"$Double":"7ff8000000000000"}"#, b"d\x7f\xf8\0\0\0\0\0\0"),
    (r#"{"$DecimalValue":"314e-2"}"#, b"D\x02\0\0\x01\x3a"),
    (r#"{"$Timestamp":1800000000}"#, b"T\0\0\0\0\x6b\x49\xd2\0"),
    ("\"h\u{e9}\"", b"S\0\0\0\x03h\xc3\xa9"),
    (r#"{"$LongString":"68ff"}"#, b"S\0\0\0\x02h\xff"),
    (r#"{"$ByteArray":"01ab"}"#, b"x\0\0\0\x02\x01\xab"),
    ("[null,[]]", b"A\0\0\0\x06VA\0\0\0\0"),
    (r#"{"a":null,"b":true}"#, b"F\0\0\0\x07\x01aV\x01bt\x01"),
    (r#"{"$$ShortInt":null}"#, b"F\0\0\0\x0b\x09$ShortIntV"),
    ("{}", b"F\0\0\0\0"),
];

fn problem<T>(result: Result<T, Error>) -> Option<(ProblemKind, usize)> {
    match result {
        Err(Error::Problem(Problem { kind, offset })) => Some((kind, offset)),
        _ => None,
    }
}

/// Arrays in each other.
fn nested(levels: usize) -> Vec<u8> {
    let lengths = (0..levels as u32).rev().map(|inside| (5 * inside).to_be_bytes());
    lengths.flat_map(|length| [&b"A"[..], &length].concat()).collect()
}

#[test]
fn each_type_has_its_json() {
    for (text, bytes) in ROWS {
        assert_eq!(to_json(bytes, LIMITS, false).as_deref(), Ok(text));
        assert_eq!(to_json(&[bytes, b"rest"].concat(), LIMITS, false).as_deref(), Ok(text));
        assert_eq!(from_json(text, LIMITS).as_deref(), Ok(bytes));
        assert_eq!(from_json(&format!("\n {text}\t"), LIMITS).as_deref(), Ok(bytes));
        if let [b'F', table @ ..] = bytes {
            assert_eq!(table_to_json(table, LIMITS, false).as_deref(), Ok(text));
            assert_eq!(table_from_json(text, LIMITS).as_deref(), Ok(table));
        } else {
            assert_eq!(problem(table_from_json(text, LIMITS)), Some((ProblemKind::NotATable, 0)));
            assert_eq!(problem(table_from_json(&format!("\n {text}"), LIMITS)), Some((ProblemKind::NotATable, 2)));
        }
    }
}

#[test]
fn arguments_come_back() -> Result<(), Error> {
    let arguments = table_from_json(r#"{"x-max-length":{"$LongInt":10000}}"#, Limits::DEFAULT)?;
    assert_eq!(table_to_json(&arguments, Limits::DEFAULT, false)?, r#"{"x-max-length":{"$LongInt":10000}}"#);
    Ok(())
}

#[test]
fn keys_are_as_encoded_or_canonical() {
    let bytes = b"F\0\0\0\x0e\x01bV\x01at\x01\x01bA\0\0\0\0";
    assert_eq!(to_json(bytes, LIMITS, false).as_deref(), Ok(r#"{"b":null,"a":true,"b":[]}"#));
    assert_eq!(table_to_json(&bytes[1..], LIMITS, false).as_deref(), Ok(r#"{"b":null,"a":true,"b":[]}"#));
    assert_eq!(to_json(bytes, LIMITS, true).as_deref(), Ok(r#"{"a":true,"b":[]}"#));
    assert_eq!(table_to_json(&bytes[1..], LIMITS, true).as_deref(), Ok(r#"{"a":true,"b":[]}"#));
    let canonical = from_json(r#"{"b":null,"a":true,"b":[]}"#, LIMITS);
    assert_eq!(canonical.as_deref(), Ok(&b"F\0\0\0\x0b\x01at\x01\x01bA\0\0\0\0"[..]));
}

#[test]
fn bytes_that_are_not_read_have_no_json() {
    assert_eq!(to_json(b"I\0", LIMITS, false), Err(Error::Incomplete { missing: 3 }));
    assert_eq!(table_to_json(b"\0\0\0", LIMITS, false), Err(Error::Incomplete { missing: 1 }));
    for (bytes, kind, offset) in [
        (&b"\0\0\0\0"[..], ProblemKind::UnknownTag(0), 0),
        (b"A\0\0\0\x03t\x01z", ProblemKind::UnknownTag(b'z'), 7),
        (b"F\0\0\0\x03\x01\xffV", ProblemKind::KeyNotUtf8, 5),
        (b"F\0\0\0\x03\x01kI", ProblemKind::Cut, 7),
    ] {
        assert_eq!(problem(to_json(bytes, LIMITS, false)), Some((kind, offset)));
        if let [b'F', table @ ..] = bytes {
            assert_eq!(problem(table_to_json(table, LIMITS, false)), Some((kind, offset - 1)));
        }
    }
}

#[test]
fn a_text_has_the_reason_and_the_offset_of_what_is_wrong() {
    let long = format!("{{\"{}\":1}}", "k".repeat(256));
    for (text, reason, offset) in [
        ("", JsonReason::UnexpectedEnd, 0),
        ("[1", JsonReason::UnexpectedEnd, 2),
        ("[\"a", JsonReason::UnfinishedString, 3),
        ("{'a':1}", JsonReason::UnexpectedCharacter, 1),
        ("\"\n\"", JsonReason::ControlCharacter, 1),
        (r#"["\x"]"#, JsonReason::UnknownEscape, 3),
        (r#""\udc00""#, JsonReason::LoneSurrogate, 4),
        ("[1 2]", JsonReason::MissingComma, 3),
        (r#"{"a" 1}"#, JsonReason::MissingColon, 5),
        ("[1,]", JsonReason::TrailingComma, 3),
        ("\"\u{e9}\" x", JsonReason::AfterTheValue, 5),
        ("\u{feff}1", JsonReason::ByteOrderMark, 0),
    ] {
        assert_eq!(problem(from_json(text, LIMITS)), Some((ProblemKind::NotJson(reason), offset)), "{text}");
        assert_eq!(problem(table_from_json(text, LIMITS)), Some((ProblemKind::NotJson(reason), offset)), "{text}");
    }
    for (text, reason, offset) in [
        (r#"{"$Boolean":true}"#, JsonReason::UnknownType, 1),
        (r#"{"$ShortInt":5,"a":1}"#, JsonReason::NotAlone, 15),
        (&long, JsonReason::KeyTooLong, 1),
        (r#"{"$ShortInt":"5"}"#, JsonReason::NotANumber, 13),
        (r#"{"$DecimalValue":1}"#, JsonReason::NotAString, 17),
        (r#"{"$ShortInt":32768}"#, JsonReason::OutOfRange, 13),
        (r#"{"a":[-0]}"#, JsonReason::OutOfRange, 6),
        (r#"{"$ByteArray":"01a"}"#, JsonReason::OddDigits, 14),
        (r#"{"$ByteArray":"0x"}"#, JsonReason::NotHexadecimal, 14),
        (r#"{"$Float":"3f80"}"#, JsonReason::DigitCount, 10),
        (r#"{"$DecimalValue":"3.14"}"#, JsonReason::NotADecimal, 17),
    ] {
        assert_eq!(problem(from_json(text, LIMITS)), Some((ProblemKind::NotAValue(reason), offset)), "{text}");
        assert_eq!(problem(table_from_json(text, LIMITS)), Some((ProblemKind::NotAValue(reason), offset)), "{text}");
    }
    assert_eq!(from_json("[1,]", LIMITS).unwrap_err().to_string(), "not JSON: trailing comma, at 3");
    let why = "not the JSON of a value: expected a number that the type holds, at 1";
    assert_eq!(from_json("[-0]", LIMITS).unwrap_err().to_string(), why);
}

#[test]
fn limits_are_on_the_value() {
    let (text, bytes) = (r#"["a",null,{"$ByteArray":"00"}]"#, &b"A\0\0\0\x0dS\0\0\0\x01aVx\0\0\0\x01\0"[..]);
    let limits = Limits { max_bytes: bytes.len() as u32, depth: 2, values: 4 };
    assert_eq!(from_json(text, limits).as_deref(), Ok(bytes));
    assert_eq!(to_json(bytes, limits, false).as_deref(), Ok(text));
    for (limits, kind) in [
        (Limits { max_bytes: limits.max_bytes - 1, ..limits }, ProblemKind::TooLarge),
        (Limits { values: 3, ..limits }, ProblemKind::TooManyValues),
    ] {
        assert_eq!(problem(from_json(text, limits)), Some((kind, 0)));
        assert_eq!(problem(to_json(bytes, limits, false)), Some((kind, 0)));
    }
    // the bracket of a named value counts too
    let shallow = Limits { depth: 1, ..limits };
    assert_eq!(problem(from_json(text, shallow)), Some((ProblemKind::TooDeep, 10)));
    assert_eq!(to_json(bytes, shallow, false).as_deref(), Ok(text));
    assert_eq!(problem(to_json(bytes, Limits { depth: 0, ..limits }, false)), Some((ProblemKind::TooDeep, 0)));
    // white space has a limit too, and JSON of as many bytes as it can have has none
    let small = Limits { max_bytes: 1, depth: 0, values: 1 };
    assert_eq!(from_json(&format!("{}null", " ".repeat(8)), small).as_deref(), Ok(&b"V"[..]));
    assert_eq!(problem(from_json(&format!("{}null", " ".repeat(9)), small)), Some((ProblemKind::TooLarge, 0)));
    let most = b"b\x80".repeat(1000);
    let bytes = [&b"A\0\0\x07\xd0"[..], &most].concat();
    let text = to_json(&bytes, LIMITS, false).unwrap();
    assert_eq!(from_json(&text, Limits { max_bytes: bytes.len() as u32, ..LIMITS }).as_deref(), Ok(&bytes[..]));
}

#[test]
fn no_nesting_ends_a_thread() {
    let limits = Limits { max_bytes: u32::MAX, depth: u32::MAX, values: u32::MAX };
    let worker = std::thread::Builder::new().stack_size(2 << 20).spawn(move || {
        let text = to_json(&nested(1024), limits, false).unwrap();
        assert_eq!(text, ["[".repeat(1024), "]".repeat(1024)].concat());
        for levels in [1025, 20_000] {
            assert_eq!(problem(to_json(&nested(levels), limits, false)), Some((ProblemKind::TooDeep, 1024 * 5)));
        }
        for levels in [128, 1024, 200_000] {
            assert_eq!(problem(from_json(&"[".repeat(levels), limits)), Some((ProblemKind::TooDeep, 127)));
            let text = ["[".repeat(levels), "]".repeat(levels)].concat();
            assert_eq!(problem(from_json(&text, limits)), Some((ProblemKind::TooDeep, 127)));
        }
        let text = ["[".repeat(127), "]".repeat(127)].concat();
        assert_eq!(from_json(&text, limits).as_deref(), Ok(&nested(127)[..]));
        assert_eq!(problem(from_json(&text, LIMITS)), Some((ProblemKind::TooDeep, LIMITS.depth as usize)));
    });
    worker.unwrap().join().expect("the thread ends well");
}

/// The number after a text in the documentation of `to_json`.
#[cfg(target_arch = "x86_64")]
fn stated(before: &str) -> usize {
    let text = include_str!("../src/json.rs").split(before).nth(1).expect(before);
    text.split(' ').next().unwrap().parse().unwrap()
}

#[test]
#[cfg(target_arch = "x86_64")]
fn the_stack_that_is_stated_suffices() {
    let (besides, a_level) = (stated("more stack than reading: "), stated("each level "));
    for depth in [LIMITS.depth, 1024] {
        let limits = Limits { max_bytes: u32::MAX, depth, values: u32::MAX };
        let stack = (besides << 10) + a_level * depth as usize;
        let worker = std::thread::Builder::new().stack_size(stack).spawn(move || {
            assert!(to_json(&nested(depth as usize), limits, false).is_ok());
            assert!(to_json(&nested(depth as usize + 1), limits, false).is_err());
        });
        worker.unwrap().join().expect("the thread ends well");
    }
}
