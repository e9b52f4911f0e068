# What amqp_show prints of values that something inside them makes malformed: each failure, with all that is read.

unknown_tag
  $ amqp_show --hex unknown_id.hex
  unknown_id.hex:
  FieldArray
    Boolean true
    "z\u0000" (not decoded)
  ! offset 7: a type tag is expected; 7a is none
  = malformed
  [1]

unknown_first_tag
  $ echo 7a0102 | xxd -r -p | amqp_show
  "z" (not decoded)
  ! offset 0: a type tag is expected; 7a is none
  = malformed
  [1]

endless
  $ amqp_show /dev/zero
  /dev/zero:
  "\u0000" (not decoded)
  ! offset 0: a type tag is expected; 00 is none
  = malformed
  [1]

number_past_array
  $ echo 41 00000002 49 00 000001 | xxd -r -p | amqp_show
  FieldArray
    LongInt 00 (1 of 4 bytes)
  ! offset 5: the LongInt of 5 bytes goes past the end of its container
  = malformed
  [1]

number_past_array_by_bytes
  $ echo 41 00000002 49 00 000001 | xxd -r -p | amqp_show --bytes
       0  41                  type tag A, FieldArray
       1  00000002            length 2
       5  49                    type tag I, LongInt
       6  00                    00 (1 of 4 bytes)
  ! offset 5: the LongInt of 5 bytes goes past the end of its container
  = malformed
  [1]

number_past_array_in_an_array
  $ echo 41 0000000a 41 00000002 4900 565656 | xxd -r -p | amqp_show
  FieldArray
    FieldArray
      LongInt
      "\u0000VVV" (not decoded)
  ! offset 10: the LongInt of 5 bytes goes past the end of its container
  = malformed
  [1]

string_past_array
  $ echo 41 00000008 53 00000008 616263 64656667 | xxd -r -p | amqp_show
  FieldArray
    LongString "abc" (3 of 8 bytes)
  ! offset 5: the LongString of 13 bytes goes past the end of its container
  = malformed
  [1]

array_past_array
  $ echo 41 0000000d 41 00000009 7401 56 53 00000001 61 | xxd -r -p | amqp_show
  FieldArray
    FieldArray
      Boolean true
      Void
      LongString
  ! offset 5: the FieldArray of 14 bytes goes past the end of its container
  = malformed
  [1]

length_past_array
  $ echo 41 00000004 53 0000 56 | xxd -r -p | amqp_show --bytes
       0  41                  type tag A, FieldArray
       1  00000004            length 4
       5  53                    type tag S, LongString
       6  000056                "\u0000\u0000V" (not decoded)
  ! offset 5: the LongString of 5 bytes goes past the end of its container
  = malformed
  [1]

length_past_array_in_a_table
  $ echo 46 00000017 06c3bcc384cebb 41 00000003 460000 026771697c71433b | xxd -r -p | amqp_show
  FieldTable
    "üÄλ": FieldArray
      FieldTable
      "\u0000\u0000\u0002gqi|qC;" (not decoded)
  ! offset 17: the FieldTable of 5 bytes goes past the end of its container
  = malformed
  [1]

length_past_table_in_a_table
  $ echo 46 00000010 0161 46 00000005 0162 410000 0163 7401 | xxd -r -p | amqp_show
  FieldTable
    "a": FieldTable
      "b": FieldArray
      "\u0000\u0000\u0001ct\u0001" (not decoded)
  ! offset 14: the FieldArray of 5 bytes goes past the end of its container
  = malformed
  [1]

length_past_array_by_bytes
  $ echo 41 0000000c 41 00000003 530000 7401 7400 | xxd -r -p | amqp_show --bytes
       0  41                  type tag A, FieldArray
       1  0000000c            length 12
       5  41                    type tag A, FieldArray
       6  00000003              length 3
      10  53                      type tag S, LongString
      11  000074017400            "\u0000\u0000t\u0001t\u0000" (not decoded)
  ! offset 10: the LongString of 5 bytes goes past the end of its container
  = malformed
  [1]

length_past_array_of_json
  $ echo 0000000c 0161 41 00000002 7800 0162 56 | amqp_show --hex --table --json
  2> amqp_show: "-": offset 11: the ByteArray of 5 bytes goes past the end of its container, in "a"[0]
  [1]

no_value_after_key
  $ echo 41 00000008 46 00000002 0161 56 | xxd -r -p | amqp_show
  FieldArray
    FieldTable
      "a"
      "V" (not decoded)
  ! offset 12: a value is expected; its table ends here
  = malformed
  [1]

key_past_table
  $ amqp_show --hex key_past_body.hex
  key_past_body.hex:
  FieldTable
    "\u0005ab" (not decoded)
  ! offset 5: the key of 5 bytes goes past the end of its table
  = malformed
  [1]

key_past_inner_table
  $ echo 46 0000000c 0161 46 00000002 0462 0163 56 | xxd -r -p | amqp_show
  FieldTable
    "a": FieldTable
      "\u0004b\u0001cV" (not decoded)
  ! offset 12: the key of 4 bytes goes past the end of its table
  = malformed
  [1]

key_of_one_byte
  $ echo 46 00000001 01 | xxd -r -p | amqp_show
  FieldTable
    "\u0001" (not decoded)
  ! offset 5: the key of 1 byte goes past the end of its table
  = malformed
  [1]

key_not_utf8
  $ amqp_show --hex key_not_utf8.hex
  key_not_utf8.hex:
  FieldTable
    "ok": Void
    "\xff\xfe": Void
  ! offset 9: the key "\xff\xfe" isn't UTF-8
  = malformed
  [1]

json_of_malformed
  $ amqp_show --hex --json unknown_id.hex key_not_utf8.hex queue_arguments.hex
  {"file":"queue_arguments.hex","value":{"x-max-length":{"$LongInt":10000},"x-message-ttl":{"$LongUInt":60000},"x-queue-type":"quorum"}}
  2> amqp_show: "unknown_id.hex": offset 7: a type tag is expected; 7a is none, in [1]
  2> amqp_show: "key_not_utf8.hex": offset 9: the key "\xff\xfe" isn't UTF-8
  [1]
