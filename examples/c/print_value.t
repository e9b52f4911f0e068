# Runs of print_value.c, by tests/c/test_examples.py: values of every type, and what is rejected.

cut
  $ echo '41 00000003 74   # one of the three bytes of the body has come' | print_value
  2 more bytes are needed
  [1]

deep
  $ print_value <<'END'
  > # arrays of one array each, 32 deep
  > 41 0000009b
  > 41 00000096
  > 41 00000091
  > 41 0000008c
  > 41 00000087
  > 41 00000082
  > 41 0000007d
  > 41 00000078
  > 41 00000073
  > 41 0000006e
  > 41 00000069
  > 41 00000064
  > 41 0000005f
  > 41 0000005a
  > 41 00000055
  > 41 00000050
  > 41 0000004b
  > 41 00000046
  > 41 00000041
  > 41 0000003c
  > 41 00000037
  > 41 00000032
  > 41 0000002d
  > 41 00000028
  > 41 00000023
  > 41 0000001e
  > 41 00000019
  > 41 00000014
  > 41 0000000f
  > 41 0000000a
  > 41 00000005
  > 41 00000000
  > END
  160 bytes
  FieldArray
    FieldArray
      FieldArray
        FieldArray
          FieldArray
            FieldArray
              FieldArray
                FieldArray
                  FieldArray
                    FieldArray
                      FieldArray
                        FieldArray
                          FieldArray
                            FieldArray
                              FieldArray
                                FieldArray
                                  FieldArray
                                    FieldArray
                                      FieldArray
                                        FieldArray
                                          FieldArray
                                            FieldArray
                                              FieldArray
                                                FieldArray
                                                  FieldArray
                                                    FieldArray
                                                      FieldArray
                                                        FieldArray
                                                          FieldArray
                                                            FieldArray
                                                              FieldArray
                                                                FieldArray

every_type
  $ print_value <<'END'
  > 46 000000b7                              # a table, of 183 bytes
  > 04 666c6167 74 07                        # flag: true
  > 02 6938 62 fe                            # i8
  > 02 7538 42 fe                            # u8
  > 03 693136 55 8000                        # i16, with the alternate tag U
  > 03 753136 75 ffff                        # u16
  > 03 693332 49 ffffffff                    # i32
  > 03 753332 69 ffffffff                    # u32
  > 03 693634 4c 8000000000000000            # i64, with the alternate tag L
  > 03 663332 66 3fc00000                    # f32
  > 03 663634 64 c004000000000000            # f64
  > 03 646563 44 02 00003039                 # dec
  > 04 74657874 53 00000003 61 22 ff         # text
  > 03 726177 78 00000002 00 ff              # raw
  > 04 74696d65 54 000000005f5e1000          # time
  > 04 766f6964 56                           # void
  > 04 6c697374 41 0000000d 49 00000007      # list: a number,
  >             41 00000003 74 00 56         #   and an array of false and Void
  > 03 737562 46 00000007 01 78 56           # sub: a table whose key x occurs twice
  >             01 78 62 05
  > 00 46 00000000                           # the empty key: an empty table
  > ff                                       # no part of the value
  > END
  188 bytes
  FieldTable
    "flag": Boolean true
    "i8": ShortShortInt -2
    "u8": ShortShortUInt 254
    "i16": ShortInt -32768
    "u16": ShortUInt 65535
    "i32": LongInt -1
    "u32": LongUInt 4294967295
    "i64": LongLongInt -9223372036854775808
    "f32": Float 1.5
    "f64": Double -2.5
    "dec": DecimalValue 12345e-2
    "text": LongString "a\x22\xff"
    "raw": ByteArray "\x00\xff"
    "time": Timestamp 1600000000
    "void": Void
    "list": FieldArray
      LongInt 7
      FieldArray
        Boolean false
        Void
    "sub": FieldTable
      "x": Void
      "x": ShortShortInt 5
    "": FieldTable

key_not_utf8
  $ echo '46 00000003 01 ff 56   # a key that is not UTF-8' | print_value
  a key is not UTF-8, at 5
  [1]

unknown_tag_inside
  $ echo '41 00000003 74 07 7a   # in the body is 7a, which is no type tag' | print_value
  unknown type tag, at 7
  [1]

number
  $ echo 49 00000007 | print_value
  5 bytes
  LongInt 7

too_deep
  $ print_value <<'END'
  > # arrays of one array each, 33 deep
  > 41 000000a0
  > 41 0000009b
  > 41 00000096
  > 41 00000091
  > 41 0000008c
  > 41 00000087
  > 41 00000082
  > 41 0000007d
  > 41 00000078
  > 41 00000073
  > 41 0000006e
  > 41 00000069
  > 41 00000064
  > 41 0000005f
  > 41 0000005a
  > 41 00000055
  > 41 00000050
  > 41 0000004b
  > 41 00000046
  > 41 00000041
  > 41 0000003c
  > 41 00000037
  > 41 00000032
  > 41 0000002d
  > 41 00000028
  > 41 00000023
  > 41 0000001e
  > 41 00000019
  > 41 00000014
  > 41 0000000f
  > 41 0000000a
  > 41 00000005
  > 41 00000000
  > END
  nested too deep, at 160
  [1]

too_large
  $ echo '53 000ffffc   # a string of 1,048,572 bytes, after five of type tag and length: 1,048,577' | print_value
  too large, at 0
  [1]

unknown_tag
  $ echo 7a | print_value
  unknown type tag, at 0
  [1]
