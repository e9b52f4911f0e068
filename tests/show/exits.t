# How amqp_show ends: --strict, several failures, --skip, and input that is something else.

warnings
  $ echo 46000000080161 56 00 56 0161 56 | xxd -r -p | amqp_show --check rabbitmq --strict
  * offset 10: the key "a" comes again; the broker delivers the first and routes by the last
  * offset 8: the key "" is empty; some clients break on it
  = RabbitMQ 4.0 accepts it, except as the warnings say
  [5]

warning_of_a_tree
  $ echo 4600000006 0161 56 0161 56 | xxd -r -p | amqp_show --strict
  FieldTable
    "a": Void
    "a" (the key comes again): Void
  * offset 8: the key "a" comes again; readers differ in which value they take
  = a value of 11 bytes
  [5]

warning_of_json
  $ echo 56 4600000006 0161 56 0161 56 56 | xxd -r -p | amqp_show --strict --stream --json
  null
  {"a":null,"a":null}
  null
  2> amqp_show: "-": offset 9: the key "a" comes again; JSON parsers differ in which value they take
  [5]

warning_of_encoded_json
  $ echo '{"a":1,"a":null}' | amqp_show --strict --encode
  4600000003016156
  2> amqp_show: "-": the key "a" comes again at byte 7; only its last value is written
  [5]

more_bytes_are_a_warning
  $ echo 56 56 | xxd -r -p | amqp_show --strict
  Void
  = a value of 1 byte
  2> amqp_show: "-": more bytes follow, from offset 1; --stream shows values one after another
  [5]

strict_without_warnings
  $ echo 56 | xxd -r -p | amqp_show --strict
  Void
  = a value of 1 byte

worst_of_lines
  $ printf '4100000005 4100000000\n6440\n7401\n' | amqp_show --lines --check rabbitmq --depth 1
  ! line 1, offset 5: containers nest deeper than --depth 1 allows, in [0]
  = line 1: RabbitMQ 4.0 isn't checked beyond the limits
  ! line 2, offset 2: the input ends inside the Double
  = line 2: RabbitMQ 4.0 closes the connection; warnings weren't looked for
  = line 3: RabbitMQ 4.0 accepts it
  [4]

skip
  $ echo 0000 7401 56 | xxd -r -p | amqp_show --skip 2 --bytes
       2  74                  type tag t, Boolean
       3  01                  true
  = a value of 2 bytes
  2> amqp_show: "-": more bytes follow, from offset 4; --stream shows values one after another

skip_in_a_stream
  $ printf '00 0000000000 00000003 0161 7a' | amqp_show --skip 2 --hex --stream --table
  FieldTable
  = at 2: a table of 4 bytes
  FieldTable
    "a"
    "z" (not decoded)
  ! offset 12: a type tag is expected; 7a is none
  = at 6: malformed
  [1]

skip_too_many
  $ echo 7401 | xxd -r -p | amqp_show --skip 3
  2> amqp_show: "-": the input ends within the 3 bytes that --skip passes over
  [2]

capture
  $ echo d4c3b2a1 02000400 | xxd -r -p | amqp_show --check rabbitmq
  2> amqp_show: "-": a capture of packets: copy the bytes of the table in Wireshark as a hex stream, for --hex
  [2]

capture_of_wireshark
  $ echo 0a0d0d0a 1c000000 | xxd -r -p | amqp_show --table
  2> amqp_show: "-": a capture of packets: copy the bytes of the table in Wireshark as a hex stream, for --hex
  [2]
