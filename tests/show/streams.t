# `amqp_show --stream`: values one after another.

stream
  $ echo 7401 4600000007 01617401 016256 | xxd -r -p | amqp_show --stream
  Boolean true
  = at 0: a value of 2 bytes
  FieldTable
    "a": Boolean true
    "b": Void
  = at 2: a value of 12 bytes

stream_empty
  $ printf '' | amqp_show --stream

stream_json
  $ printf '56 6c 00000000000000 ff 74 01' | amqp_show --stream --json --hex queue_arguments.hex -
  {"file":"queue_arguments.hex","value":{"x-max-length":{"$LongInt":10000},"x-message-ttl":{"$LongUInt":60000},"x-queue-type":"quorum"}}
  {"file":"-","value":null}
  {"file":"-","value":255}
  {"file":"-","value":true}

stream_malformed
  $ echo 7401 4100000005 7401490000 7401 | xxd -r -p | amqp_show --stream
  Boolean true
  = at 0: a value of 2 bytes
  FieldArray
    Boolean true
    LongInt 0000 (2 of 4 bytes)
  ! offset 9: the LongInt of 5 bytes goes past the end of its container
  = at 2: malformed
  [1]

stream_malformed_json
  $ echo 7401 4100000005 7401490000 7401 | xxd -r -p | amqp_show --stream --json
  true
  2> amqp_show: "-": offset 9: the LongInt of 5 bytes goes past the end of its container, in [1]
  [1]

stream_truncated
  $ echo 7401 5300000004 6f6e | xxd -r -p | amqp_show --stream
  Boolean true
  = at 0: a value of 2 bytes
  LongString "on" (2 of 4 bytes)
  ! offset 9: the input ends inside the LongString
  = at 2: truncated; more bytes needed: 2
  [1]

stream_repeated
  $ echo 56 460000000c01615601625601615601625656 | xxd -r -p | amqp_show --stream
  Void
  = at 0: a value of 1 byte
  FieldTable
    "a": Void
    "b": Void
    "a" (the key comes again): Void
    "b" (the key comes again): Void
  * offset 12: the key "a" comes again; readers differ in which value they take
  = at 1: a value of 17 bytes
  Void
  = at 18: a value of 1 byte

stream_by_bytes
  $ echo 56 4600000003 016156 | xxd -r -p | amqp_show --stream --bytes
       0  56                  type tag V, Void
  = at 0: a value of 1 byte
       1  46                  type tag F, FieldTable
       2  00000003            length 3
       6  01                    key length 1
       7  61                    key "a"
       8  56                    type tag V, Void
  = at 1: a value of 8 bytes

stream_of_json
  $ echo '{}' | amqp_show --stream
  "{" (not decoded)
  ! offset 0: a type tag is expected; 7b is none
  = at 0: malformed
  [1]

no_type_tag_stream_json
  $ echo 00000007 0161 7401 0162 56 | xxd -r -p | amqp_show --stream --json
  2> amqp_show: "-": offset 0: a type tag is expected; 00 is none
  2> amqp_show: "-": the input seems to be tables without their type tags; --table reads them
  [1]

stream_of_lines
  $ printf '7401\n4600000003016156\n56\n' | amqp_show --hex --stream --json
  true
  {"a":null}
  null

stream_of_lines_cut
  $ printf '460000000401617401\n46000000040161\n460000000401627401\n' | amqp_show --hex --stream --json
  {"a":true}
  2> amqp_show: "-": line 2 ends inside a value, while other lines are whole values: --lines reads each by itself
  [2]

stream_of_lines_cut_at_first
  $ printf '46000000040161\n460000000401627401\n' | amqp_show --hex --stream --json
  2> amqp_show: "-": line 1 ends inside a value, while other lines are whole values: --lines reads each by itself
  [2]

stream_of_wrapped_lines
  $ printf '4600000003016156\n4600000008016173\n0001016256740156\n56\n' | amqp_show --hex --stream --json
  {"a":null}
  {"a":{"$ShortInt":1},"b":null}
  true
  null
  null

stream_of_tables
  $ echo 00000003 0161 56 00000000 00000004 0162 7401 | xxd -r -p | amqp_show --table --stream
  FieldTable
    "a": Void
  = at 0: a table of 7 bytes
  FieldTable
  = at 7: a table of 4 bytes
  FieldTable
    "b": Boolean true
  = at 11: a table of 8 bytes

stream_of_tables_malformed
  $ echo 00000000 00000003 0161 7a 00000000 | xxd -r -p | amqp_show --table --stream --json
  {}
  2> amqp_show: "-": offset 10: a type tag is expected; 7a is none, in "a"
  [1]

stream_of_tables_cut
  $ echo 00000003 0161 56 0000 | xxd -r -p | amqp_show --table --stream --check rabbitmq
  = at 0: RabbitMQ 4.0 accepts it
  ! offset 9: the input ends inside the FieldTable
  = at 7: RabbitMQ 4.0 closes the connection; warnings weren't looked for
  [4]

stream_of_tables_on_lines
  $ printf '00000003016156\n000000030161\n0000000301617a\n' | amqp_show --table --stream --hex --json
  {"a":null}
  2> amqp_show: "-": line 2 ends inside a value, while other lines are whole values: --lines reads each by itself
  [2]

stream_of_a_wrapped_value_whose_last_line_is_a_value
  $ printf '460000001a01615300000010717171717171717171717171717171710162\n56\n' | amqp_show --hex --stream --json
  {"a":"qqqqqqqqqqqqqqqq","b":null}
