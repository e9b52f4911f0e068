# Runs of json.c, by tests/c/test_examples.py: encodings to JSON and back, and what is rejected.

back
  $ json back <<'END'
  > { "b": 1,
  >   "a": {"$ShortInt": -2} }
  > END
  4600000010016173fffe01626c0000000000000001

back_deepest
  $ json back <<'END'
  > [[[[[[[[[[[[[[[[[[[[[[[[[[[[[[[[]]]]]]]]]]]]]]]]]]]]]]]]]]]]]]]]
  > END
  410000009b41000000964100000091410000008c41000000874100000082410000007d41000000784100000073410000006e41000000694100000064410000005f410000005a41000000554100000050410000004b41000000464100000041410000003c41000000374100000032410000002d41000000284100000023410000001e41000000194100000014410000000f410000000a41000000054100000000

back_equal_keys
  $ echo '{"a":1,"a":null}' | json back
  4600000003016156

back_escapes
  $ json back <<'END'
  > ["\u00e9\n"]
  > END
  41000000085300000003c3a90a

back_no_json
  $ echo '{"a":1' | json back
  not JSON, at 7: unexpected end
  [1]

back_no_utf8
  $ printf '"\xff"\n' | json back
  not UTF-8, at 1
  [1]

back_of_no_value
  $ echo '{"$ShortInt":32768}' | json back
  not the JSON of a value, at 13: expected a number that the type holds
  [1]

back_short_string
  $ echo '[{"$ShortString":"key"}]' | json back
  not the JSON of a value, at 2: expected the name of a type after `$`
  [1]

back_too_deep
  $ json back <<'END'
  > [[[[[[[[[[[[[[[[[[[[[[[[[[[[[[[[[]]]]]]]]]]]]]]]]]]]]]]]]]]]]]]]]]
  > END
  nested too deep, at 32
  [1]

cut
  $ echo 46 0000000a 01 62 | json
  more bytes are needed
  [1]

every_type
  $ json <<'END'
  > 46 000000b7                              # a table, of 183 bytes
  > 04 666c6167 74 07                        # flag: true
  > 02 6938 62 fe                            # i8
  > 02 7538 42 fe                            # u8
  > 03 693136 55 8000                        # i16, with the alternate tag U
  > 03 753136 75 ffff                        # u16
  > 03 693332 49 ffffffff                    # i32
  > 03 753332 69 ffffffff                    # u32
  > 03 693634 4c 8000000000000000            # i64, with the alternate tag L
  > 03 663332 66 3fc00000                    # f32
  > 03 663634 64 c004000000000000            # f64
  > 03 646563 44 02 00003039                 # dec
  > 04 74657874 53 00000003 61 22 ff         # text
  > 03 726177 78 00000002 00 ff              # raw
  > 04 74696d65 54 000000005f5e1000          # time
  > 04 766f6964 56                           # void
  > 04 6c697374 41 0000000d 49 00000007      # list: a number,
  >             41 00000003 74 00 56         #   and an array of false and Void
  > 03 737562 46 00000007 01 78 56           # sub: a table whose key x occurs twice
  >             01 78 62 05
  > 00 46 00000000                           # the empty key: an empty table
  > ff                                       # no part of the value
  > END
  {"flag":true,"i8":{"$ShortShortInt":-2},"u8":{"$ShortShortUInt":254},"i16":{"$ShortInt":-32768},"u16":{"$ShortUInt":65535},"i32":{"$LongInt":-1},"u32":{"$LongUInt":4294967295},"i64":-9223372036854775808,"f32":{"$Float":1.5},"f64":-2.5,"dec":{"$DecimalValue":"12345e-2"},"text":{"$LongString":"6122ff"},"raw":{"$ByteArray":"00ff"},"time":{"$Timestamp":1600000000},"void":null,"list":[{"$LongInt":7},[false,null]],"sub":{"x":null,"x":{"$ShortShortInt":5}},"":{}}

unknown_tag_inside
  $ echo '41 00000001 7a   # in the body is 7a, which is no type tag' | json
  unknown type tag
  [1]

name_of_a_type
  $ json <<'END'
  > 46 0000000d                  # a table, of 13 bytes
  > 09 2453686f7274496e74 73 0005 # its only key is $ShortInt
  > END
  {"$$ShortInt":{"$ShortInt":5}}

unknown_tag
  $ echo 7a | json
  unknown type tag
  [1]
