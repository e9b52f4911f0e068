# What amqp_show prints of values of each type, as a tree and as parts (`--bytes`): quoting, and what isn't canonical.

every_type
  $ amqp_show --hex each_type.hex
  each_type.hex:
  FieldArray
    Boolean false
    ShortShortInt -1
    ShortShortUInt 255
    ShortInt -2
    ShortUInt 65534
    LongInt -3
    LongUInt 4294967293
    LongLongInt -4
    Float 1.5
    Double -0.25
    DecimalValue 314.15
    LongString "say \"hi\"\u000a"
    ByteArray 009bff
    FieldArray
    FieldTable
    Timestamp 1 (1970-01-01T00:00:01Z)
    Void
  = a value of 98 bytes

empty_ones
  $ echo 41000000195300000000780000000041000000004600000003 0056 | xxd -r -p | amqp_show --tree
  FieldArray
    LongString ""
    ByteArray
    FieldArray
    FieldTable
      "": Void
  ! offset 27: the input ends inside the FieldTable
  = truncated; more bytes needed: 3
  [1]

controls
  $ echo 46000000300c1b5b316d7fc29be280aec3a453000000141b5b316d0a7fc29be280aee281a6d89c225cc3a40161530000000368ff1b | xxd -r -p | amqp_show
  FieldTable
    "\u001b[1m\u007f\u009b\u202eä": LongString "\u001b[1m\u000a\u007f\u009b\u202e\u2066\u061c\"\\ä"
    "a": LongString "h\xff\u001b"
  = a value of 53 bytes

not_utf8
  $ echo 46 00000010 0322ff5c 53 00000007 22 5c 1b e4 c3a4 27 | xxd -r -p | amqp_show
  FieldTable
    "\"\xff\\": LongString "\"\\\u001b\xe4\xc3\xa4'"
  ! offset 5: the key "\"\xff\\" isn't UTF-8
  = malformed
  [1]

decimals
  $ echo 410000003644000000013a44020000013a44020000000544010000000544030000013a440200000000440000000000440cffffffff440200000136 | xxd -r -p | amqp_show
  FieldArray
    DecimalValue 314
    DecimalValue 3.14
    DecimalValue 0.05
    DecimalValue 0.5
    DecimalValue 0.314
    DecimalValue 0.00
    DecimalValue 0
    DecimalValue 0.004294967295
    DecimalValue 3.10
  = a value of 59 bytes

integers
  $ xxd -r -p <<'END' | amqp_show
  > 41 0000003c 6280 627f 42ff 738000 737fff 75ffff 4980000000 497fffffff 69ffffffff 6c8000000000000000
  > 6c7fffffffffffffff 55fffe 4cfffffffffffffffe
  > END
  FieldArray
    ShortShortInt -128
    ShortShortInt 127
    ShortShortUInt 255
    ShortInt -32768
    ShortInt 32767
    ShortUInt 65535
    LongInt -2147483648
    LongInt 2147483647
    LongUInt 4294967295
    LongLongInt -9223372036854775808
    LongLongInt 9223372036854775807
    ShortInt -2
    LongLongInt -2
  = a value of 65 bytes

floats
  $ xxd -r -p <<'END' | amqp_show
  > 4100000063663fc00000667fc0000066ff812345667f80000066ff8000006680000000663dcccccd6655ad700066358637bd643ff80000
  > 0000000064fff8000000000001647ff0000000000000643fb999999999999a644341c37937e08000643e80c6f7a0b5ed8d
  > END
  FieldArray
    Float 1.5
    Float NaN
    Float NaN
    Float inf
    Float -inf
    Float -0.0
    Float 0.1
    Float 2.3837068e13
    Float 0.000001
    Double 1.5
    Double NaN
    Double inf
    Double 0.1
    Double 1e16
    Double 1.25e-7
  = a value of 104 bytes

float_layouts
  $ xxd -r -p <<'END' | amqp_show
  > 41 0000007b 665368d4a5 66551184e7 66358637bd 6633d6bf95 6600000009 6649b55206 664c90a4f4 664df1e765 667f7fffff
  > 6600000001 6680000001 667f800001 64430c6bf526340000 644341c37937e08000 643ee4f8b588e368f1 643eb0c6f7a0b5ed8d
  > 64400921fb54442d18 640000000000000001 647fefffffffffffff
  > END
  FieldArray
    Float 1000000000000.0
    Float 1e13
    Float 0.000001
    Float 1e-7
    Float 1.3e-44
    Float 1485376.8
    Float 75835300.0
    Float 507309220.0
    Float 3.4028235e38
    Float 1e-45
    Float -1e-45
    Float NaN
    Double 1000000000000000.0
    Double 1e16
    Double 0.00001
    Double 1e-6
    Double 3.141592653589793
    Double 5e-324
    Double 1.7976931348623157e308
  = a value of 128 bytes

timestamps
  $ xxd -r -p <<'END' | amqp_show
  > 410000003f540000000000000000540000000038bb0c00540000000067748580540000003afff2d3e0540000003afff2d3e15480000000
  > 0000000054ffffffffffffffff
  > END
  FieldArray
    Timestamp 0 (1970-01-01T00:00:00Z)
    Timestamp 951782400 (2000-02-29T00:00:00Z)
    Timestamp 1735689600 (2025-01-01T00:00:00Z)
    Timestamp 253402207200 (9999-12-30T22:00:00Z)
    Timestamp 253402207201
    Timestamp 9223372036854775808
    Timestamp 18446744073709551615
  = a value of 68 bytes

canonical
  $ amqp_show --hex --canonical not_canonical.hex
  not_canonical.hex:
  FieldTable
    "b": Boolean true (the byte isn't canonical, 01 is)
    "a" (the key comes after a greater one): ShortInt 1 (the type tag U isn't canonical, s is)
    "a" (the key comes again): LongLongInt 1 (the type tag L isn't canonical, l is)
    "" (the key comes after a greater one): Void
  * offset 14: the key "a" comes again; readers differ in which value they take
  = a value of 27 bytes

canonical_by_bytes
  $ amqp_show --hex --bytes --canonical not_canonical.hex
  not_canonical.hex:
       0  46                  type tag F, FieldTable
       1  00000016            length 22
       5  01                    key length 1
       6  62                    key "b"
       7  74                    type tag t, Boolean
       8  07                    true (the byte isn't canonical, 01 is)
       9  01                    key length 1
      10  61                    key "a" (the key comes after a greater one)
      11  55                    type tag U, ShortInt
      12  0001                  1 (the type tag U isn't canonical, s is)
      14  01                    key length 1
      15  61                    key "a" (the key comes again)
      16  4c                    type tag L, LongLongInt
      17  0000000000000001      1 (the type tag L isn't canonical, l is)
      25  00                    key length 0
      26                        key "" (the key comes after a greater one)
      26  56                    type tag V, Void
  * offset 14: the key "a" comes again; readers differ in which value they take
  = a value of 27 bytes

canonical_after_a_repeated_key
  $ echo 46 0000000c 0161 56 0163 56 0161 56 0162 56 | xxd -r -p | amqp_show --canonical
  FieldTable
    "a": Void
    "c": Void
    "a" (the key comes again): Void
    "b": Void
  * offset 11: the key "a" comes again; readers differ in which value they take
  = a value of 17 bytes

repeated_keys
  $ echo 460000002a01617300010162460000000d016173000101625601617300020161530000000178005601617300050056 | xxd -r -p | amqp_show
  FieldTable
    "a": ShortInt 1
    "b": FieldTable
      "a": ShortInt 1
      "b": Void
      "a" (the key comes again): ShortInt 2
    "a" (the key comes again): LongString "x"
    "": Void
    "a" (the key comes again): ShortInt 5
    "" (the key comes again): Void
  * offset 25: the key "a" comes again; readers differ in which value they take
  = a value of 47 bytes

repeated_keys_by_bytes
  $ echo 000000070161 5601617401 | xxd -r -p | amqp_show --table --bytes
       0  00000007            length 7
       4  01                    key length 1
       5  61                    key "a"
       6  56                    type tag V, Void
       7  01                    key length 1
       8  61                    key "a" (the key comes again)
       9  74                    type tag t, Boolean
      10  01                    true
  * offset 7: the key "a" comes again; readers differ in which value they take
  = a table of 11 bytes

long_payload_by_bytes
  $ echo 41 0000001b 53 00000009 313233343536373839 78 00000008 0102030405060708 | xxd -r -p | amqp_show --bytes
       0  41                  type tag A, FieldArray
       1  0000001b            length 27
       5  53                    type tag S, LongString
       6  00000009              length 9
      10  3132333435363738..    "123456789"
      19  78                    type tag x, ByteArray
      20  00000008              length 8
      24  0102030405060708      0102030405060708
  = a value of 32 bytes

characters_that_cannot_be_seen
  $ xxd -r -p <<'END' | amqp_show
  > 46 0000003b 0a782de2808b64656174685609782dc2ad6465617468560a782defbbbf6465617468560a782de280a86465617468560a782de385a4646561746856
  > END
  FieldTable
    "x-\u200bdeath": Void
    "x-\u00addeath": Void
    "x-\ufeffdeath": Void
    "x-\u2028death": Void
    "x-\u3164death": Void
  = a value of 64 bytes
