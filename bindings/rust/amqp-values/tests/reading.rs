//! Tests of `read` and `check`, of look-ups in what was read, and of `rabbitmq`.

use amqp_values::{
    check, check_table, from_json, rabbitmq, read, read_table, table_from_json, table_to_json, to_json, DecimalValue,
    EqualKeys, Error, Limits, Measure, PathStep::*, Problem, ProblemKind, TableRef, ValueRef,
};

const LIMITS: Limits = Limits::DEFAULT;

/// A type tag, and the length of a body before it.
fn counted(tag: u8, body: &[u8]) -> Vec<u8> {
    [&[tag], &(body.len() as u32).to_be_bytes()[..], body].concat()
}

fn table(bytes: &[u8]) -> TableRef<'_> {
    let (value, rest) = read(bytes, LIMITS).expect("a value");
    assert_eq!(rest, b"");
    value.as_table().expect("a table")
}

fn problem<T>(result: Result<T, Error>) -> Option<(ProblemKind, usize)> {
    match result {
        Err(Error::Problem(Problem { kind, offset })) => Some((kind, offset)),
        _ => None,
    }
}

/// Tables in each other, as many as levels.
fn nested(levels: usize) -> Vec<u8> {
    let lengths = (0..levels as u32).rev().map(|inside| (6 * inside).to_be_bytes());
    lengths.enumerate().flat_map(|(at, length)| [&b"\0F"[usize::from(at == 0)..], &length[..]].concat()).collect()
}

#[test]
fn each_type_is_read_with_what_follows() {
    let decimal = DecimalValue { scale: 2, value: 0xffff_ffff };
    let read_as: [(&[u8], ValueRef<'_>); 18] = [
        (b"t\x07", ValueRef::Boolean(true)),
        (b"b\xfe", ValueRef::ShortShortInt(-2)),
        (b"B\xfe", ValueRef::ShortShortUInt(254)),
        (b"s\x80\0", ValueRef::ShortInt(i16::MIN)),
        (b"U\x80\0", ValueRef::ShortInt(i16::MIN)),
        (b"u\xff\xff", ValueRef::ShortUInt(u16::MAX)),
        (b"I\x80\0\0\0", ValueRef::LongInt(i32::MIN)),
        (b"i\xff\xff\xff\xff", ValueRef::LongUInt(u32::MAX)),
        (b"l\x80\0\0\0\0\0\0\0", ValueRef::LongLongInt(i64::MIN)),
        (b"L\x80\0\0\0\0\0\0\0", ValueRef::LongLongInt(i64::MIN)),
        (b"f\x3f\xc0\0\0", ValueRef::Float(1.5)),
        (b"d\xc0\x04\0\0\0\0\0\0", ValueRef::Double(-2.5)),
        (b"D\x02\xff\xff\xff\xff", ValueRef::DecimalValue(decimal)),
        (b"S\0\0\0\x02\xff\0", ValueRef::LongString(b"\xff\0")),
        (b"x\0\0\0\x02\xff\0", ValueRef::ByteArray(b"\xff\0")),
        (b"T\xff\xff\xff\xff\xff\xff\xff\xff", ValueRef::Timestamp(u64::MAX)),
        (b"V", ValueRef::Void),
        (b"S\0\0\0\0", ValueRef::LongString(b"")),
    ];
    for (bytes, value) in read_as {
        let more = [bytes, b"rest"].concat();
        assert_eq!(read(&more, LIMITS), Ok((value, &b"rest"[..])));
        assert_eq!(check(&more, LIMITS), Ok(Measure { bytes: bytes.len(), values: 1, levels: 0 }));
    }
    let (value, _) = read(b"f\xff\x80\0\x01", LIMITS).unwrap();
    assert!(matches!(value, ValueRef::Float(number) if number.to_bits() == 0xff80_0001));
}

#[test]
fn pairs_come_as_they_are_written_and_keys_may_be_equal() {
    let inner = counted(b'A', b"I\0\0\0\x07S\0\0\0\x01a");
    let body = [b"\x01kb\x01\x02\xc3\xa9", &inner[..], b"\x01kb\x02"].concat();
    let bytes = counted(b'F', &body);
    let read = table(&bytes);
    let keys: Vec<_> = read.iter().map(|(key, _)| key).collect();
    assert_eq!(keys, ["k", "é", "k"]);
    assert_eq!(read.get("k"), Some(ValueRef::ShortShortInt(2)));
    assert_eq!(read.get_first("k"), Some(ValueRef::ShortShortInt(1)));
    assert_eq!((read.get(""), read.get_first("kk")), (None, None));
    let values: Vec<_> = read.get("é").and_then(ValueRef::as_array).unwrap().iter().collect();
    assert_eq!(values, [ValueRef::LongInt(7), ValueRef::LongString(b"a")]);
    assert_eq!(values[1].as_str(), Some("a"));
    assert_eq!(read_table(&bytes[1..], LIMITS), Ok((read, &b""[..])));
    assert_eq!(check_table(&bytes[1..], LIMITS), Ok(Measure { bytes: bytes.len() - 1, values: 6, levels: 2 }));
}

#[test]
fn a_path_leads_by_keys_and_positions() {
    let inner = counted(b'A', &[b"V", &counted(b'F', b"\x01kb\x01\x01kb\x02")[..]].concat());
    let bytes = counted(b'F', &[b"\x01a", &inner[..]].concat());
    let read = table(&bytes);
    let path = [Key("a"), Index(1), Key("k")];
    assert_eq!(read.get_path(&path, EqualKeys::First).and_then(ValueRef::as_int), Some(1));
    assert_eq!(read.get_path(&path, EqualKeys::Last).and_then(ValueRef::as_int), Some(2));
    assert_eq!(read.get_path(&[], EqualKeys::Last), Some(ValueRef::FieldTable(read)));
    for none in
        [&[Key("b")][..], &[Index(0)], &[Key("a"), Index(2)], &[Key("a"), Key("k")], &[Key("a"), Index(0), Index(0)]]
    {
        assert_eq!(read.get_path(none, EqualKeys::First), None, "{none:?}");
    }
}

#[test]
fn cut_bytes_say_how_many_are_missing() {
    for (bytes, missing) in [(&b""[..], 1), (b"I\0", 3), (b"F\0\0", 2), (b"F\0\0\0\x0a\x01k", 8), (b"S\0\0\0\x01", 1)] {
        assert_eq!(read(bytes, LIMITS), Err(Error::Incomplete { missing }));
        assert_eq!(check(bytes, LIMITS), Err(Error::Incomplete { missing }));
    }
    assert_eq!(read_table(b"\0\0\0", LIMITS), Err(Error::Incomplete { missing: 1 }));
}

#[test]
fn a_problem_has_its_offset() {
    for (bytes, kind, offset) in [
        (&b"z"[..], ProblemKind::UnknownTag(b'z'), 0),
        (b"A\0\0\0\x03t\x01z", ProblemKind::UnknownTag(b'z'), 7),
        (b"F\0\0\0\x03\x01kI", ProblemKind::Cut, 7),
        (b"F\0\0\0\x02\x05k", ProblemKind::KeyCut, 5),
        (b"F\0\0\0\x03\x01\xffV", ProblemKind::KeyNotUtf8, 5),
        (b"S\xff\xff\xff\xff", ProblemKind::TooLarge, 0),
    ] {
        assert_eq!(problem(read(bytes, LIMITS)), Some((kind, offset)));
        assert_eq!(problem(check(bytes, LIMITS)), Some((kind, offset)));
    }
    assert_eq!(problem(read_table(b"\0\0\0\x03\x01kz", LIMITS)), Some((ProblemKind::UnknownTag(b'z'), 6)));
}

#[test]
fn values_up_to_a_limit_are_read_and_no_more() {
    let bytes = counted(b'A', b"VVVVVVVVV");
    let limits = Limits { max_bytes: bytes.len() as u32, depth: 1, values: 10 };
    assert!(read(&bytes, limits).is_ok() && check(&bytes, limits).is_ok());
    for (limits, kind) in [
        (Limits { max_bytes: limits.max_bytes - 1, ..limits }, ProblemKind::TooLarge),
        (Limits { depth: 0, ..limits }, ProblemKind::TooDeep),
        (Limits { values: 9, ..limits }, ProblemKind::TooManyValues),
    ] {
        assert_eq!(problem(read(&bytes, limits)), Some((kind, 0)));
        assert_eq!(problem(check(&bytes, limits)), Some((kind, 0)));
    }
    let tables = counted(b'F', b"\x01kV\x01kV");
    let limits = Limits { max_bytes: tables.len() as u32, depth: 1, values: 3 };
    assert!(read_table(&tables[1..], limits).is_ok() && check_table(&tables[1..], limits).is_ok());
    let fewer = Limits { values: 2, ..limits };
    assert_eq!(problem(read_table(&tables[1..], fewer)), Some((ProblemKind::TooManyValues, 0)));
    assert_eq!(problem(check_table(&tables[1..], fewer)), Some((ProblemKind::TooManyValues, 0)));
}

#[test]
fn no_nesting_ends_a_thread() {
    let limits = Limits { max_bytes: u32::MAX, depth: u32::MAX, values: u32::MAX };
    let most = Limits::MOST_DEPTH as usize;
    let worker = std::thread::Builder::new().stack_size(2 << 20).spawn(move || {
        let deepest = check_table(&nested(most)[1..], limits).map(|it| it.levels);
        assert_eq!(deepest, Ok(most));
        for levels in [most + 1, 20_000] {
            let bytes = nested(levels);
            assert_eq!(problem(check_table(&bytes[1..], limits)).map(|it| it.0), Some(ProblemKind::TooDeep));
            assert_eq!(problem(read(&bytes, limits)).map(|it| it.0), Some(ProblemKind::TooDeep));
            assert_eq!(rabbitmq::first_problem(&bytes, limits).map(|it| it.kind), Some(ProblemKind::TooDeep));
            assert_eq!(
                problem(rabbitmq::warnings(&bytes, limits, 0, u32::MAX)).map(|it| it.0),
                Some(ProblemKind::TooDeep)
            );
        }
        let warned = |levels| rabbitmq::warnings_in_table(&nested(levels)[1..], limits, 0, u32::MAX);
        assert_eq!(warned(1024).map(|it| (it.too_deep, it.empty_key)), Ok((None, Some(4))));
        assert_eq!(problem(warned(1025)), Some((ProblemKind::TooDeep, 1024 * 6 - 1)));
    });
    worker.unwrap().join().expect("the thread ends well");
}

/// The number after a text in the documentation of `Limits`.
#[cfg(target_arch = "x86_64")]
fn stated(before: &str) -> usize {
    let text = include_str!("../src/limits.rs").split(before).nth(1).expect(before);
    text.split(' ').next().unwrap().parse().unwrap()
}

#[test]
#[cfg(target_arch = "x86_64")]
fn the_stack_that_limits_state_suffices() {
    let (besides, a_level) = (stated("stack has to suffice: "), stated("each level of `depth` "));
    for depth in [LIMITS.depth, Limits::MOST_DEPTH] {
        let limits = Limits { max_bytes: u32::MAX, depth, values: u32::MAX };
        let stack = (besides << 10) + a_level * depth as usize;
        let worker = std::thread::Builder::new().stack_size(stack).spawn(move || {
            for levels in [depth as usize, depth as usize + 1] {
                let (bytes, is_within) = (nested(levels), levels == depth as usize);
                assert_eq!(read(&bytes, limits).is_ok(), is_within);
                assert_eq!(read_table(&bytes[1..], limits).is_ok(), is_within);
                assert_eq!(check(&bytes, limits).is_ok(), is_within);
                assert_eq!(check_table(&bytes[1..], limits).is_ok(), is_within);
                assert_eq!(rabbitmq::first_problem(&bytes, limits).is_none(), is_within);
            }
        });
        worker.unwrap().join().expect("the thread ends well");
    }
}

#[test]
fn rabbitmq_has_other_rules() {
    let found = |body: &[u8]| {
        let bytes = counted(b'F', body);
        let [of_value, of_table] =
            [rabbitmq::first_problem(&bytes, LIMITS), rabbitmq::first_problem_in_table(&bytes[1..], LIMITS)];
        assert_eq!(of_value.map(|it| (it.kind, it.offset - 1)), of_table.map(|it| (it.kind, it.offset)));
        of_value.map(|it| (it.kind, it.offset))
    };
    assert_eq!(found(b"\x01kf\x7f\x7f\xff\xff"), None);
    assert_eq!(found(b"\x01kU\0\0"), Some((ProblemKind::UnknownTag(b'U'), 7)));
    assert_eq!(found(b"\x01kf\x7f\x80\0\0"), Some((ProblemKind::NotFinite, 7)));
    assert_eq!(found(b"\x01kd\xff\xf8\0\0\0\0\0\0"), Some((ProblemKind::NotFinite, 7)));
}

#[test]
fn what_has_no_problem_is_read() {
    let limits = Limits { values: 3, ..LIMITS };
    for (body, kind, offset) in [
        // RabbitMQ accepts the key
        (&b"\x01\xffV"[..], ProblemKind::KeyNotUtf8, 4),
        // the first of two problems, whoever has it
        (b"\x01\xffV\x01kf\x7f\x80\0\0", ProblemKind::KeyNotUtf8, 4),
        (b"\x01kf\x7f\x80\0\0\x01\xffV", ProblemKind::NotFinite, 6),
        // the limit on values is the last
        (b"\x01kV\x01kV\x01kV", ProblemKind::TooManyValues, 0),
        (b"\x01kV\x01kV\x01kU\0\0", ProblemKind::UnknownTag(b'U'), 12),
    ] {
        let found = rabbitmq::first_problem_in_table(&counted(b'F', body)[1..], limits);
        assert_eq!(found, Some(Problem { kind, offset }));
    }
    let bytes = counted(b'F', b"\x01kV\x01kV");
    assert_eq!(rabbitmq::first_problem(&bytes, limits), None);
    assert!(read(&bytes, limits).is_ok());
}

#[test]
fn a_value_is_converted_to_its_own_type_only() {
    let converted = |value: ValueRef<'_>| (value.as_bool(), value.as_int(), value.as_uint(), value.as_f64());
    assert_eq!(converted(true.into()), (Some(true), None, None, None));
    assert_eq!(converted(u32::MAX.into()), (None, Some(0xffff_ffff), Some(0xffff_ffff), None));
    assert_eq!(converted(i64::MAX.into()), (None, Some(i64::MAX), Some(i64::MAX as u64), None));
    assert_eq!(converted((-1_i8).into()), (None, Some(-1), None, None));
    assert_eq!(converted(1.5_f32.into()), (None, None, None, Some(1.5)));
    assert_eq!(converted((-0.1).into()), (None, None, None, Some(-0.1)));
    for other in [ValueRef::Void, ValueRef::Timestamp(1), "1".into(), DecimalValue { scale: 0, value: 1 }.into()] {
        assert_eq!(converted(other), (None, None, None, None));
    }
}

#[test]
fn a_container_has_its_bytes_and_its_length() {
    let array = counted(b'A', &[b"V", &counted(b'F', b"\x01kV\x01kV")[..]].concat());
    let bytes = counted(b'F', &[b"\x01a", &array[..], b"\x01bt\x01\x01cF\0\0\0\0"].concat());
    let read = table(&bytes);
    assert_eq!((read.len(), read.as_bytes(), read.is_empty()), (3, &bytes[1..], false));
    let inner = read.get("a").and_then(ValueRef::as_array).unwrap();
    assert_eq!((inner.len(), inner.as_bytes(), inner.is_empty()), (2, &array[..], false));
    assert_eq!(to_json(inner.as_bytes(), LIMITS, false).unwrap(), r#"[null,{"k":null,"k":null}]"#);
    let last = inner.get(1).and_then(ValueRef::as_table).unwrap();
    assert_eq!((last.len(), table_to_json(last.as_bytes(), LIMITS, true).unwrap()), (2, r#"{"k":null}"#.to_owned()));
    let empty = read.get("c").and_then(ValueRef::as_table).unwrap();
    assert_eq!((empty.len(), empty.is_empty()), (0, true));
}

#[test]
fn debug_shows_the_entries_of_what_is_small_and_a_part_of_what_is_large() {
    let shown = |bytes: &[u8]| format!("{:?}", read(bytes, LIMITS).unwrap().0);
    let small = counted(b'F', &[b"\x01\x22I\0\0\0\x05\x01b", &counted(b'A', b"S\0\0\0\x02a\xffV")[..]].concat());
    let entries = r#"{"\"": LongInt(5), "b": FieldArray([LongString(b"a\xff"), Void])}"#;
    assert_eq!(shown(&small), format!("FieldTable({entries})"));
    let (table, _) = read_table(&small[1..], LIMITS).unwrap();
    assert_eq!((format!("{table:?}"), format!("{:?}", table.iter())), (entries.to_owned(), entries.to_owned()));

    assert_eq!(shown(&counted(b'A', &[b'V'; 64])), format!("FieldArray([{}])", ["Void"; 64].join(", ")));
    let large = counted(b'A', &[&counted(b'A', &[b'V'; 62])[..], b"VVV"].concat());
    assert_eq!(shown(&large), format!("FieldArray([FieldArray([{}]), Void, .. 2 more])", ["Void"; 62].join(", ")));
    let pairs = counted(b'F', &b"\x01kV".repeat(1000));
    assert!(shown(&pairs).ends_with(r#""k": Void, ..: 936 more})"#) && shown(&pairs).len() < 1000);
    let deep = format!("{:?}", read(&nested(4000), Limits { depth: 4096, ..LIMITS }).unwrap().0);
    assert_eq!(deep.matches("FieldTable").count(), 65);
    assert!(deep.contains("{..: 1 more}"));
    let text = shown(&counted(b'S', &[b'x'; 65]));
    assert_eq!(text, format!("LongString(b\"{}..\" of 65 bytes)", "x".repeat(64)));
}

#[test]
fn warnings_are_of_what_rabbitmq_accepts() {
    let warned = |body: &[u8], frame_max, levels| {
        let bytes = counted(b'F', body);
        let found = rabbitmq::warnings(&bytes, LIMITS, frame_max, levels).unwrap();
        let in_table = rabbitmq::warnings_in_table(&bytes[1..], LIMITS, frame_max, levels).unwrap();
        assert_eq!(found.repeated_key.map(|it| it - 1), in_table.repeated_key);
        found
    };
    assert_eq!(warned(b"\x01kV", 0, LIMITS.depth), rabbitmq::Warnings::default());
    let found = warned(b"\x01kV\x01\xffV\0V\x01kF\0\0\0\0\x01dD\0\0\0\0\0", 16, 1);
    assert_eq!((found.repeated_key, found.key_not_utf8, found.empty_key), (Some(13), Some(8), Some(11)));
    assert_eq!((found.too_deep, found.decimal, found.nested_header), (Some(15), Some(22), Some(15)));
    assert!(found.exceeds_frame);
}

#[test]
fn only_what_rabbitmq_accepts_has_warnings() {
    let warned = |bytes: &[u8]| rabbitmq::warnings(bytes, LIMITS, 0, LIMITS.depth);
    let in_table = |bytes: &[u8]| rabbitmq::warnings_in_table(bytes, LIMITS, 0, LIMITS.depth);
    // headers as they come, without a type tag
    let headers = &counted(b'F', b"\x01kA\0\0\0\0")[1..];
    assert_eq!(problem(warned(headers)), Some((ProblemKind::UnknownTag(0), 0)));
    assert_eq!(in_table(headers).unwrap().nested_header, Some(6));
    for (bytes, kind, offset) in [
        (&b"F\0\0\0\x05\x01kU\0\0"[..], ProblemKind::UnknownTag(b'U'), 7),
        (b"F\0\0\0\x07\x01kf\x7f\x80\0\0", ProblemKind::NotFinite, 7),
        (b"F\0\0\0\x03\x01kI", ProblemKind::Cut, 7),
        (b"S\xff\xff\xff\xff", ProblemKind::TooLarge, 0),
    ] {
        assert_eq!(problem(warned(bytes)), Some((kind, offset)));
        if let [b'F', table @ ..] = bytes {
            assert_eq!(problem(in_table(table)), Some((kind, offset - 1)));
        }
    }
    assert_eq!(warned(b"F\0\0\0\x05\x01k"), Err(Error::Incomplete { missing: 3 }));
    assert_eq!(in_table(b"\0\0\0"), Err(Error::Incomplete { missing: 1 }));
    let shallow = Limits { depth: 1, ..LIMITS };
    let found = rabbitmq::warnings_in_table(headers, shallow, 0, 0);
    assert_eq!(problem(found), Some((ProblemKind::TooDeep, 6)));
}

#[test]
fn test_much_memory() {
    // pairs whose keys descend are kept: more than a mebibyte, for each call
    let limits = Limits { max_bytes: u32::MAX, values: u32::MAX, ..LIMITS };
    let text = "x".repeat(1 << 20);
    let first = [&b"\x01s"[..], &counted(b'S', text.as_bytes())].concat();
    let pairs = (0..40_000).rev().flat_map(|key| format!("\x07{key:07}V").into_bytes());
    let bytes = counted(b'F', &first.into_iter().chain(pairs).collect::<Vec<_>>());
    let none = Ok(rabbitmq::Warnings::default());
    assert_eq!(rabbitmq::warnings(&bytes, limits, 0, LIMITS.depth), none);
    assert_eq!(rabbitmq::warnings_in_table(&bytes[1..], limits, 0, LIMITS.depth), none);
    let last = format!("\"s\":\"{text}\"");
    let members: Vec<_> = (0..40_000).map(|key| format!("\"{key:07}\":null")).chain([last]).collect();
    let ascending = format!("{{{}}}", members.join(","));
    let descending = format!("{{{}}}", members.into_iter().rev().collect::<Vec<_>>().join(","));
    // (assert_eq would print mebibytes)
    assert!(to_json(&bytes, limits, false).as_ref() == Ok(&descending));
    assert!(table_to_json(&bytes[1..], limits, true).as_ref() == Ok(&ascending));
    let canonical = from_json(&descending, limits).unwrap();
    assert!(to_json(&canonical, limits, false).as_ref() == Ok(&ascending));
    assert!(table_from_json(&descending, limits).as_deref() == Ok(&canonical[1..]));
}

#[test]
fn errors_are_those_of_std() {
    let failed = || -> Result<(), Box<dyn std::error::Error>> {
        read(b"A\0\0\0\x01z", LIMITS)?;
        Ok(())
    };
    assert_eq!(failed().unwrap_err().to_string(), "unknown type tag 0x7a, at 5");
}

#[test]
fn a_table_without_its_type_tag_is_recognized() {
    let said = |bytes: &[u8]| read(bytes, LIMITS).unwrap_err().to_string();
    let hint = ": a table without its type tag? `read_table` and calls like it take one";
    assert_eq!(said(b"\0\0\0\0"), format!("unknown type tag 0x00, at 0{hint}"));
    assert_eq!(said(b"A\0\0\0\x01\0"), "unknown type tag 0x00, at 5");
    assert_eq!(said(b"\x01"), "unknown type tag 0x01, at 0");
}
