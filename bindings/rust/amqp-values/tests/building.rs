//! Tests of `TableBuilder`: what it builds is read again.

use amqp_values::{read, read_table, DecimalValue, Limits, TableBuilder, TableRef, ValueRef, WriteError};

fn table(bytes: &[u8]) -> TableRef<'_> {
    let (table, rest) = read_table(bytes, Limits::DEFAULT).expect("a table");
    assert_eq!(rest, b"");
    table
}

/// A value of each type, at its type tag.
fn values() -> [(&'static str, ValueRef<'static>); 15] {
    [
        ("t", true.into()),
        ("b", (-2_i8).into()),
        ("B", 254_u8.into()),
        ("s", i16::MIN.into()),
        ("u", u16::MAX.into()),
        ("I", (-53).into()),
        ("i", u32::MAX.into()),
        ("l", i64::MIN.into()),
        ("f", 1.5_f32.into()),
        ("d", f64::NEG_INFINITY.into()),
        ("D", DecimalValue { scale: 255, value: u32::MAX }.into()),
        ("S", "text".into()),
        ("x", ValueRef::ByteArray(b"\xff\0")),
        ("T", ValueRef::Timestamp(u64::MAX)),
        ("V", ValueRef::Void),
    ]
}

/// A table with these values, and with those of another table.
fn build<'b>(buffer: &'b mut [u8], other: TableRef<'_>) -> Result<&'b [u8], WriteError> {
    build_by(TableBuilder::new(buffer), other)
}

fn build_by<'b>(mut table: TableBuilder<'b>, other: TableRef<'_>) -> Result<&'b [u8], WriteError> {
    values().into_iter().try_for_each(|(key, value)| table.put(key, value))?;
    table.put_array("A", |array| {
        array.push(7)?;
        array.push_array(|empty| empty.push_table(|_| Ok(())))?;
        array.push_table(|table| table.put("", "v"))
    })?;
    table.put_table("F", |table| other.iter().try_for_each(|(key, value)| table.put(key, value)))?;
    table.put("F", ValueRef::FieldTable(other))?;
    table.finish()
}

#[test]
fn what_is_built_is_read_again() {
    let mut buffer = [0; 64];
    let mut first = TableBuilder::new(&mut buffer);
    first.put_array("a", |array| array.push("b")).unwrap();
    first.put_table("t", |table| table.put("k", 1)).unwrap();
    let other = first.finish().unwrap();
    let mut buffer = [0; 512];
    let built = build(&mut buffer, table(other)).unwrap();
    let read = table(built);
    assert_eq!(read.iter().map(|(key, _)| key).collect::<String>(), "tbBsuIilfdDSxTVAFF");
    for (key, value) in values() {
        let tag = key.as_bytes()[0];
        assert!(built.windows(3).any(|it| it == [1, tag, tag]), "{key}");
        assert_eq!(read.get(key), Some(value));
    }
    assert_eq!(read.get("F"), Some(ValueRef::FieldTable(table(other))));
    assert_eq!(read.get_first("F"), Some(ValueRef::FieldTable(table(other))));
    let array = b"A\0\0\0\x1bI\0\0\0\x07A\0\0\0\x05F\0\0\0\0F\0\0\0\x07\0S\0\0\0\x01v";
    assert!(built.windows(array.len()).any(|it| it == array), "{built:02x?}");
}

#[test]
fn a_buffer_that_is_too_small_has_the_length_that_is_needed() {
    let other = [0, 0, 0, 4, 1, b'k', b't', 1];
    let mut large = [0; 512];
    let length = build(&mut large, table(&other)).unwrap().len();
    for capacity in 0..length {
        let mut buffer = vec![0; capacity];
        let built = build(&mut buffer, table(&other));
        assert_eq!(built, Err(WriteError::BufferTooSmall { needed: length }), "of {capacity} bytes");
    }
    assert!(build(&mut vec![0; length], table(&other)).is_ok());
}

#[test]
fn a_vector_grows_and_ends_with_the_table() {
    let other = [0, 0, 0, 4, 1, b'k', b't', 1];
    let mut large = [0; 512];
    let wanted = build(&mut large, table(&other)).unwrap();
    for before in [&b""[..], b"before"] {
        for capacity in [0, 8, 100, 1000] {
            let mut bytes = Vec::with_capacity(capacity);
            bytes.extend_from_slice(before);
            assert_eq!(build_by(TableBuilder::append_to(&mut bytes), table(&other)), Ok(wanted));
            assert_eq!(bytes, [before, wanted].concat());
        }
    }
    let mut bytes = Vec::new();
    assert_eq!(TableBuilder::append_to(&mut bytes).finish(), Ok(&[0; 4][..]));
    assert_eq!(bytes, [0; 4]);
    // an entry that fails leaves nothing
    let mut wanted = [0; 64];
    let wanted = build_with_errors(TableBuilder::new(&mut wanted)).unwrap();
    assert_eq!(build_with_errors(TableBuilder::append_to(&mut bytes)), Ok(wanted));
    assert_eq!(bytes, [&[0; 4], wanted].concat());
}

#[test]
fn an_error_of_a_function_may_have_any_type() {
    #[derive(Debug, PartialEq)]
    enum Failed {
        Own(u8),
        Writing(WriteError),
    }
    impl From<WriteError> for Failed {
        fn from(why: WriteError) -> Self {
            Self::Writing(why)
        }
    }
    let (mut buffer, key) = ([0; 64], "k".repeat(256));
    let mut built = TableBuilder::new(&mut buffer);
    assert_eq!(built.put_table("t", |_| Err(Failed::Own(1))), Err(Failed::Own(1)));
    assert_eq!(built.put_array("a", |array| array.push_table(|_| Err(Failed::Own(2)))), Err(Failed::Own(2)));
    assert_eq!(built.put_array("a", |array| array.push_array(|_| Err(Failed::Own(3)))), Err(Failed::Own(3)));
    let too_long = built.put_table("t", |table| {
        table.put(&key, 1)?;
        Err(Failed::Own(4))
    });
    assert_eq!(too_long, Err(Failed::Writing(WriteError::KeyTooLong)));
    assert_eq!(built.put_table(&key, |_| Err(Failed::Own(5))), Err(Failed::Writing(WriteError::KeyTooLong)));
    built.put("k", true).unwrap();
    assert_eq!(built.finish().unwrap(), b"\0\0\0\x04\x01kt\x01");
}

#[test]
fn a_builder_that_is_replaced_leaves_its_table_as_it_is() {
    // another table, of which nothing is in the one that is built; with an empty buffer it only counts
    let other: [Vec<u8>; 2] = [vec![], vec![0; 64]];
    for (buffer, capacity) in other.into_iter().flat_map(|it| [(it.clone(), 0), (it.clone(), 64), (it, 12)]) {
        let buffer = Box::leak(buffer.into_boxed_slice());
        let mut own = vec![0; capacity];
        let mut built = TableBuilder::new(&mut own);
        let replaced: Result<(), WriteError> = built.put_table("t", |table| {
            table.put("a", 1_i8)?;
            let mut first = std::mem::replace(table, TableBuilder::new(buffer));
            table.put("other", 2_i8)?;
            first.put("b", 3_i8)?;
            // what it returns is the inner table
            let finished = first.finish();
            assert_eq!(finished.is_ok(), capacity == 64);
            assert!(finished.map_or(true, |it| it == b"\0\0\0\x08\x01ab\x01\x01bb\x03"));
            Ok(())
        });
        assert_eq!(replaced, Ok(()));
        let wanted = b"\0\0\0\x0f\x01tF\0\0\0\x08\x01ab\x01\x01bb\x03";
        let too_small = Err(WriteError::BufferTooSmall { needed: wanted.len() });
        assert_eq!(built.finish(), if capacity == 64 { Ok(&wanted[..]) } else { too_small });
    }
}

/// A table in whose parts some keys are too long, which leave nothing.
fn build_with_errors(mut built: TableBuilder<'_>) -> Result<&[u8], WriteError> {
    let key = "k".repeat(256);
    assert_eq!(built.put(&key, 1), Err(WriteError::KeyTooLong));
    assert_eq!(built.put_table(&key, |_| Ok(())), Err(WriteError::KeyTooLong));
    built.put("k", 2)?;
    built.put_array("a", |array| {
        array.push_array(|array| array.push(1_i64))?;
        let failed = array.push_table(|table| {
            table.put("k", "0123456789")?;
            table.put_array("k", |array| array.push(ValueRef::Void))?;
            table.put(&key, 1)
        });
        assert_eq!(failed, Err(WriteError::KeyTooLong));
        array.push(true)
    })?;
    let failed = built.put_array("a", |array| array.push_table(|table| table.put(&key, 1)));
    assert_eq!(failed, Err(WriteError::KeyTooLong));
    built.put("l", 3)?;
    built.finish()
}

#[test]
fn an_entry_that_fails_leaves_nothing() {
    let wanted = b"\0\0\0\x25\x01kI\0\0\0\x02\x01aA\0\0\0\x10A\0\0\0\x09l\0\0\0\0\0\0\0\x01t\x01\x01lI\0\0\0\x03";
    for capacity in 0..100 {
        let mut buffer = vec![0; capacity];
        let too_small = Err(WriteError::BufferTooSmall { needed: wanted.len() });
        let expected = if capacity < wanted.len() { too_small } else { Ok(&wanted[..]) };
        assert_eq!(build_with_errors(TableBuilder::new(&mut buffer)), expected, "of {capacity} bytes");
    }
}

#[test]
fn a_table_of_4_gib_is_too_large() {
    // a pair with this text has 1 MiB
    let text = "0".repeat((1 << 20) - 7);
    let needed = (1 << 32) + 3;
    for (shorter, error) in [(0, WriteError::TooLarge), (1, WriteError::BufferTooSmall { needed })] {
        for capacity in [0, 64] {
            let mut buffer = vec![0; capacity];
            let mut built = TableBuilder::new(&mut buffer);
            (1..4096).try_for_each(|_| built.put("k", &*text)).unwrap();
            built.put("k", &text[shorter..]).unwrap();
            assert_eq!(built.finish(), Err(error));
        }
    }
}

#[test]
fn what_was_read_within_larger_limits_is_put() {
    let mut bytes = [&b"S\0\x10\0\0"[..], &[0; 1 << 20]].concat();
    for _ in 0..100 {
        bytes = [&b"A"[..], &(bytes.len() as u32).to_be_bytes(), &bytes].concat();
    }
    let (value, _) = read(&bytes, Limits { max_bytes: u32::MAX, depth: 100, values: u32::MAX }).unwrap();
    let mut buffer = vec![0; bytes.len() + 6];
    let mut built = TableBuilder::new(&mut buffer);
    built.put("k", value).unwrap();
    assert_eq!(built.finish().unwrap()[6..], bytes);
}

#[test]
fn a_key_may_have_255_bytes() {
    let (mut buffer, key) = ([0; 512], "k".repeat(255));
    let mut built = TableBuilder::new(&mut buffer);
    built.put(&key, ValueRef::Void).unwrap();
    assert_eq!(table(built.finish().unwrap()).get(&key), Some(ValueRef::Void));
}

#[test]
fn a_builder_shows_what_it_has() {
    let mut buffer = [0; 512];
    let mut table = TableBuilder::new(&mut buffer);
    assert_eq!(format!("{table:?}"), "{}");
    table.put("a", 5).unwrap();
    let filled = table.put_array("b", |array| {
        array.push_table(|inner| {
            inner.put("k", true)?;
            assert_eq!(format!("{inner:?}"), r#"{"k": Boolean(true)}"#);
            Ok::<(), WriteError>(())
        })?;
        assert_eq!(format!("{array:?}"), r#"[FieldTable({"k": Boolean(true)})]"#);
        (0..65).try_for_each(|_| array.push(ValueRef::Void))
    });
    assert_eq!(filled, Ok(()));
    // of 69 values 64 are shown
    let array = ["FieldTable({\"k\": Boolean(true)})", &["Void"; 60].join(", "), ".. 5 more"].join(", ");
    let shown = format!(r#"{{"a": LongInt(5), "b": FieldArray([{array}])}}"#);
    assert_eq!(format!("{table:?}"), shown);

    let mut vector = vec![1, 2, 3];
    let mut table = TableBuilder::append_to(&mut vector);
    assert_eq!(format!("{table:?}"), "{}");
    table.put("a", 5).unwrap();
    assert_eq!(format!("{table:?}"), r#"{"a": LongInt(5)}"#);

    let mut small = [0; 10];
    let mut table = TableBuilder::new(&mut small);
    table.put("a", 5).unwrap();
    let filled = table.put_array("b", |array| {
        array.push(ValueRef::Void)?;
        assert_eq!(format!("{array:?}"), "[.. 19 bytes]");
        Ok::<(), WriteError>(())
    });
    assert_eq!((filled, format!("{table:?}")), (Ok(()), "{.. 19 bytes}".to_owned()));
}
