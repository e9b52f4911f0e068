# The limits of amqp_show, `--max-bytes` and `--depth`, and values beyond them.

depth
  $ echo 4100000006 56 4100000000 | xxd -r -p | amqp_show --depth 1
  FieldArray
    Void
    "A\u0000\u0000\u0000\u0000" (not decoded)
  ! offset 6: containers nest deeper than --depth 1 allows
  = beyond the limits
  [3]

depth_0
  $ echo 4100000000 | xxd -r -p | amqp_show --depth 0
  "A\u0000\u0000\u0000\u0000" (not decoded)
  ! offset 0: containers nest deeper than --depth 0 allows
  = beyond the limits
  [3]

depth_1001
  $ echo 7401 | xxd -r -p | amqp_show --depth 1001
  2> error: invalid value '1001' for '--depth <N>': 1001 is not in 0..=1000
  2>
  2> For more information, try '--help'.
  [2]

depth_json
  $ echo 4100000005 4100000000 | xxd -r -p | amqp_show --json --depth 1
  2> amqp_show: "-": offset 5: containers nest deeper than --depth 1 allows, in [0]
  [3]

max_bytes
  $ echo 7401 | xxd -r -p | amqp_show --max-bytes 1
  ! offset 0: the value has 2 bytes, more than --max-bytes 1 allows
  = beyond the limits
  [3]

max_bytes_that_suffice
  $ echo 7401 | xxd -r -p | amqp_show --max-bytes 2
  Boolean true
  = a value of 2 bytes

max_bytes_default
  $ echo 53000ffffc | xxd -r -p | amqp_show
  ! offset 0: the value has 1048577 bytes, more than --max-bytes 1048576 allows
  = beyond the limits
  [3]

max_bytes_json
  $ echo 53ffffffff | xxd -r -p | amqp_show --json
  2> amqp_show: "-": offset 0: the value has 4294967300 bytes, more than --max-bytes 1048576 allows
  [3]

max_bytes_stream
  $ echo 56 7401 | xxd -r -p | amqp_show --stream --max-bytes 1
  Void
  = at 0: a value of 1 byte
  ! offset 1: the value has 2 bytes, more than --max-bytes 1 allows
  = at 1: beyond the limits
  [3]
