# `amqp_show --json` and `--plain`: values as JSON.

json
  $ amqp_show --hex --json client_properties.hex x_death.hex queue_arguments.hex each_type.hex not_canonical.hex
  {"file":"client_properties.hex","value":{"capabilities":{"basic.nack":true,"publisher_confirms":true},"platform":"Rust","product":"lapin","version":"2.3.1"}}
  {"file":"x_death.hex","value":[{"count":2,"queue":"orders","reason":"expired","routing-keys":["new"],"time":{"$Timestamp":1700000000}}]}
  {"file":"queue_arguments.hex","value":{"x-max-length":{"$LongInt":10000},"x-message-ttl":{"$LongUInt":60000},"x-queue-type":"quorum"}}
  {"file":"each_type.hex","value":[false,{"$ShortShortInt":-1},{"$ShortShortUInt":255},{"$ShortInt":-2},{"$ShortUInt":65534},{"$LongInt":-3},{"$LongUInt":4294967293},-4,{"$Float":1.5},-0.25,{"$DecimalValue":"31415e-2"},"say \"hi\"\n",{"$ByteArray":"009bff"},[],{},{"$Timestamp":1},null]}
  {"file":"not_canonical.hex","value":{"b":true,"a":{"$ShortInt":1},"a":1,"":null}}
  2> amqp_show: "not_canonical.hex": offset 14: the key "a" comes again; JSON parsers differ in which value they take

json_follow
  $ echo 56 7401 | xxd -r -p | amqp_show --json
  null
  2> amqp_show: "-": more bytes follow, from offset 1; --stream shows values one after another

json_empty
  $ printf '' | amqp_show --json
  2> amqp_show: "-": offset 0: a value is expected; the input ends here
  [1]

json_texts
  $ xxd -r -p <<'END' | amqp_show --json
  > 410000003d 5300000002c3a9 530000000268ff 530000000a1b5b316d7fc285e280ae 5300000004f09f9880
  > 46000000120853686f7274496e746c0000000000000005
  > END
  ["é",{"$LongString":"68ff"},"\u001b[1m\u007f\u0085\u202e","😀",{"ShortInt":5}]

json_without_encode
  $ echo '{"a":1}' | amqp_show --json
  2> amqp_show: "-": the input seems to be JSON; --encode reads it
  [2]

json_stream_repeated
  $ echo 56 4600000006 016156 016156 | xxd -r -p | amqp_show --stream --json
  null
  {"a":null,"a":null}
  2> amqp_show: "-": offset 9: the key "a" comes again; JSON parsers differ in which value they take

json_without_encode_for_a_table
  $ printf ' {"a":1}' | amqp_show --table --check rabbitmq
  2> amqp_show: "-": the input seems to be JSON; --encode reads it
  [2]

plain_files
  $ amqp_show --hex --plain queue_arguments.hex truncated.hex $'name\x1b[31m.hex'
  {"file":"queue_arguments.hex","value":{"x-max-length":10000,"x-message-ttl":60000,"x-queue-type":"quorum"}}
  {"file":"name\u001b[31m.hex","value":{"x-max-length":10000,"x-message-ttl":60000,"x-queue-type":"quorum"}}
  2> amqp_show: "truncated.hex": offset 21: the input ends inside the LongInt, in "x-max-length"
  [1]

plain
  $ amqp_show --hex --plain each_type.hex
  [false,-1,255,-2,65534,-3,4294967293,-4,1.5,-0.25,314.15,"say \"hi\"\n","009bff",[],{},"1970-01-01T00:00:01Z",null]

plain_integers
  $ echo 410000001f 6c7fffffffffffffff 4c8000000000000000 6280 558000 758000 6980000000 | xxd -r -p | amqp_show --plain
  [9223372036854775807,-9223372036854775808,-128,-32768,32768,2147483648]

plain_floats
  $ xxd -r -p <<'END' | amqp_show --plain
  > 410000004e
  > 643fb999999999999a 647e37e43c8800759c 640000000000000001 648000000000000000 64444b1ae4d6e2ef50 647ff8000000000000 64fff0000000000000
  > 663dcccccd 667f7fc99e 667f800000
  > END
  [0.1,1e300,5e-324,-0.0,1e21,null,null,0.1,3.4e38,null]

plain_decimals
  $ echo 4100000018 44000000013a 44020000013a 44050000013a 4414ffffffff | xxd -r -p | amqp_show --plain
  [314,3.14,0.00314,0.00000000004294967295]

plain_dates
  $ echo 4100000024 54000000006b0eb6c0 540000003afff2d3e0 540000003afff2d3e1 54ffffffffffffffff | xxd -r -p | amqp_show --plain
  ["2026-12-01T12:00:00Z","9999-12-30T22:00:00Z","253402207201","18446744073709551615"]

plain_strings
  $ echo 410000001f 5300000002c3a9 530000000268ff 7800000003616263 53000000041b5b7f22 | xxd -r -p | amqp_show --plain
  ["é","68ff","616263","\u001b[\u007f\""]

plain_keys
  $ echo 4600000020 092453686f7274496e7449fffffffb 007401 03242461 4600000005 016b7300ff | xxd -r -p | amqp_show --plain
  {"$ShortInt":-5,"":true,"$$a":{"k":255}}

plain_repeated
  $ echo 56 4600000006 016156 016156 | xxd -r -p | amqp_show --stream --plain
  null
  {"a":null,"a":null}
  2> amqp_show: "-": offset 9: the key "a" comes again; JSON parsers differ in which value they take

plain_truncated
  $ echo 0000000501615300 | amqp_show --hex --table --plain
  2> amqp_show: "-": offset 8: the input ends inside the LongString, in "a"
  [1]

plain_canonical
  $ amqp_show --plain --canonical
  2> error: the argument '--plain' cannot be used with '--canonical'
  2>
  2> Usage: amqp_show --plain [FILE]...
  2>
  2> For more information, try '--help'.
  [2]
