# `amqp_show --lines`: a value in hexadecimal on each line.

lines
  $ amqp_show --lines <<'END'
  > # two values
  > 7401
  >
  > 46:00:00:00:03 0161 56 # the second
  > END
  Boolean true
  = line 2: a value of 2 bytes
  FieldTable
    "a": Void
  = line 4: a value of 8 bytes

lines_of_tables_with_errors
  $ amqp_show --lines --table <<'END'
  > 00000003016156
  > 000000030161
  > 0000000301617a
  > 0000000001
  > 00000000
  > END
  FieldTable
    "a": Void
  = line 1: a table of 7 bytes
  FieldTable
    "a"
  ! line 2, offset 6: the input ends inside the FieldTable
  = line 2: truncated; more bytes needed: 1
  FieldTable
    "a"
    "z" (not decoded)
  ! line 3, offset 6: a type tag is expected; 7a is none
  = line 3: malformed
  FieldTable
  = line 4: a table of 4 bytes
  FieldTable
  = line 5: a table of 4 bytes
  2> amqp_show: "-": line 4: more bytes follow the value
  [1]

lines_json
  $ amqp_show --lines --table --json <<'END'
  > 00000003016156
  > 0000000301617a
  > 00 0
  > 00000006016156016156
  > 46 00000000
  > END
  {"a":null}
  {"a":null,"a":null}
  2> amqp_show: "-": line 2, offset 6: a type tag is expected; 7a is none, in "a"
  2> amqp_show: "-": line 3, column 5: a byte of two hexadecimal digits is expected
  2> amqp_show: "-": line 4, offset 7: the key "a" comes again; JSON parsers differ in which value they take
  2> amqp_show: "-": line 5: the input seems to have a type tag; without --table it is read
  [2]

lines_check
  $ amqp_show --lines --check rabbitmq-3.10 <<'END'
  > 4600000003016156
  > 460000000401615500
  > 460000000401616100
  > 46000000070161560161 7401
  > END
  = line 1: RabbitMQ 3.10 accepts it
  ! line 2, offset 7: RabbitMQ doesn't know the type tag U (ShortInt), in "a"
  = line 2: RabbitMQ 3.10 closes the connection; warnings weren't looked for
  ! line 3, offset 7: a type tag is expected; 61 is none, in "a"
  = line 3: RabbitMQ 3.10 closes the connection; warnings weren't looked for
  * line 4, offset 8: the key "a" comes again; the broker delivers both and routes by the first
  = line 4: RabbitMQ 3.10 accepts it, except as the warnings say
  [4]

lines_of_tables_without_table
  $ printf '00000003016156\n4600000000' | amqp_show --lines
  FieldTable
    "a": Void
  = line 1: a table of 7 bytes
  FieldTable
  = line 2: a value of 5 bytes
  2> amqp_show: "-": line 1: read as a table without its type tag, as with --table

lines_by_bytes
  $ printf '4100000000\n' | amqp_show --lines --hex --bytes
       0  41                  type tag A, FieldArray
       1  00000000            length 0
  = line 1: a value of 5 bytes

lines_of_a_dump
  $ printf '0000  74 01\n' | amqp_show --lines
  2> amqp_show: "-": a dump of tshark: `cut -c 7-53 FILE | amqp_show --hex` reads its bytes, of which a packet's headers are the first
  [2]

lines_with_stream
  $ amqp_show --lines --stream
  2> error: the argument '--lines' cannot be used with '--stream'
  2>
  2> Usage: amqp_show --lines [FILE]...
  2>
  2> For more information, try '--help'.
  [2]

lines_that_are_empty
  $ printf '' | amqp_show --lines

lines_in_half_a_byte
  $ printf '7401\n740' | amqp_show --lines --json
  true
  2> amqp_show: "-": line 2, column 4: a byte of two hexadecimal digits is expected
  [2]

lines_check_more_bytes
  $ printf '0000000301615600\n0000000301615600\n00000003016156\n' | amqp_show --lines --table --check rabbitmq
  = line 3: RabbitMQ 4.0 accepts it
  2> amqp_show: "-": line 1: more bytes follow the value
  2> amqp_show: "-": line 2: more bytes follow the value
  [1]
