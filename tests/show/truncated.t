# Input that ends inside the value: amqp_show shows all that is there, and how many bytes are missing.

truncated_number
  $ echo 4600000009 0161 490000 | xxd -r -p | amqp_show
  FieldTable
    "a": LongInt 0000 (2 of 4 bytes)
  ! offset 10: the input ends inside the LongInt
  = truncated; more bytes needed: 4
  [1]

truncated_string
  $ echo 4600000028 0161 4600000009 0162 5300000009 6162 | xxd -r -p | amqp_show
  FieldTable
    "a": FieldTable
      "b": LongString "ab" (2 of 9 bytes)
  ! offset 21: the input ends inside the LongString
  = truncated; more bytes needed: 24
  [1]

truncated_key
  $ echo 460000000c 0162 56 05 6162 | xxd -r -p | amqp_show
  FieldTable
    "b": Void
    "\u0005ab" (not decoded)
  ! offset 11: the input ends inside the FieldTable
  = truncated; more bytes needed: 6
  [1]

truncated_after_key
  $ echo 460000000c 0162 56 0161 | xxd -r -p | amqp_show
  FieldTable
    "b": Void
    "a"
  ! offset 10: the input ends inside the FieldTable
  = truncated; more bytes needed: 7
  [1]

truncated_length
  $ echo 4600 | xxd -r -p | amqp_show
  FieldTable
  "\u0000" (not decoded)
  ! offset 2: the input ends inside the FieldTable
  = truncated; more bytes needed: 3
  [1]

truncated_decimal
  $ echo 4402 | xxd -r -p | amqp_show
  DecimalValue 02 (1 of 5 bytes)
  ! offset 2: the input ends inside the DecimalValue
  = truncated; more bytes needed: 4
  [1]

truncated_and_malformed
  $ echo 4100000014 56 4100000001 7a 56 | xxd -r -p | amqp_show
  FieldArray
    Void
    FieldArray
      "zV" (not decoded)
  ! offset 13: the input ends inside the FieldArray
  = truncated; more bytes needed: 12
  [1]

truncated_after_a_cut_table
  $ echo 41 00000014 41 00000005 46 00000009 56 | xxd -r -p | amqp_show
  FieldArray
    FieldArray
      FieldTable
    Void
  ! offset 16: the input ends inside the FieldArray
  = truncated; more bytes needed: 9
  [1]

truncated_json
  $ amqp_show --hex --json truncated.hex
  2> amqp_show: "truncated.hex": offset 21: the input ends inside the LongInt, in "x-max-length"
  [1]

truncated_long
  $ xxd -r -p <<'END' | amqp_show
  > 5300000100 3030303030303030303030303030303030303030303030303030303030303030303030303030303030303030303030303030303030303030303030303030303030
  > END
  LongString "0000000000000000000000000000000000000000000000000000000000000000".. (65 of 256 bytes)
  ! offset 70: the input ends inside the LongString
  = truncated; more bytes needed: 191
  [1]

truncated_after_64_bytes
  $ xxd -r -p <<'END' | amqp_show
  > 53 00000041
  > 30303030303030303030303030303030303030303030303030303030303030303030303030303030303030303030303030303030303030303030303030303030
  > END
  LongString "0000000000000000000000000000000000000000000000000000000000000000" (64 of 65 bytes)
  ! offset 69: the input ends inside the LongString
  = truncated; more bytes needed: 1
  [1]

truncated_byte_array
  $ echo 78 00000003 4142 | xxd -r -p | amqp_show
  ByteArray 4142 (2 of 3 bytes)
  ! offset 7: the input ends inside the ByteArray
  = truncated; more bytes needed: 1
  [1]

empty
  $ printf '' | amqp_show
  ! offset 0: a value is expected; the input ends here
  = truncated; more bytes needed: 1
  [1]

empty_hexadecimal
  $ printf '' | amqp_show --hex --bytes
  ! offset 0: a value is expected; the input ends here
  = truncated; more bytes needed: 1
  [1]
