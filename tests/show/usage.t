# The command line of amqp_show: its help, its version, and arguments that it rejects.

help
  $ amqp_show --help
  Shows AMQP 0-9-1 field tables, and at which byte one is malformed

  Usage: amqp_show [OPTIONS] [FILE]...

  Arguments:
    [FILE]...  Files; - or none is the standard input

  Options:
        --hex            Read hexadecimal text instead of bytes
        --table          Read, or encode, a table without its type tag
        --stream         Read values one after another, as they come
        --lines          Read hexadecimal, or JSON to encode, on each line
        --tree           Show a tree of values and types (the default)
        --bytes          Show each part with its offset and its bytes
        --json           Show JSON, on a line for each value
        --plain          Show JSON with plain numbers and dates, for jq
        --encode         Read JSON, and write its encoding in hexadecimal
        --raw            With --encode: write the bytes themselves
        --canonical      Mark what isn't canonical, in a tree or parts
        --strict         Have warnings, also that more bytes follow, be a failure
        --check <PEER>   Show why a peer closes the connection, or else warnings [possible values: rabbitmq, rabbitmq-3.10, rabbitmq-4.0, rabbitmq-4.3]
        --max-bytes <N>  Reject values of more than N bytes [default: 1048576]
        --depth <N>      Reject containers that nest more than N deep, at most 1000 [default: 32]
        --skip <N>       Pass over the first N bytes of the input
        --color <WHEN>   Use colours, by default on a terminal [default: auto] [possible values: auto, always, never]
    -h, --help           Print help
    -V, --version        Print version

  Examples:
    A table from a log. Most have no type tag (46, an F) there: add --table.
      echo 460000000701617401016256 | amqp_show --hex
      echo 0000000701617401016256 | amqp_show --hex --table
    Where it is malformed or cut, and each part up to there with its offset:
      echo 4600000007016174010162 | amqp_show --hex --bytes
    How many values a file has, one after another:
      amqp_show --stream --json values.bin | wc -l
    The tables, one on each line, for which RabbitMQ closes the connection:
      amqp_show --lines --table --check rabbitmq tables.txt | grep '^=.*closes'
    JSON to bytes for a test:
      echo '{"a":true,"b":{"$LongInt":5}}' | amqp_show --encode

  JSON: an integer is a LongLongInt, another number a Double, a string a LongString, null a Void.
  Other types are named:
    {"$LongInt":5}, also ShortShortInt, ShortShortUInt, ShortInt, ShortUInt, LongUInt, Timestamp
    {"$Float":2.5}; NaN and others by their bits, {"$Double":"7ff8000000000000"}
    {"$ByteArray":"00ff"}, its digits, also LongString; {"$DecimalValue":"314e-2"}, 3.14
  --json keeps the order of a table's pairs. --encode sorts them, and of equal keys writes the
  last. A key that begins with $ is written with one more.

  --check rabbitmq is rabbitmq-4.0, the newest version that this program's tests run. 4.3 was
  tested by hand, and does the same; 3.11 to 3.13, 4.1 and 4.2 weren't tested.

  A line that begins with ! shows the first error and its offset, one with * a warning,
  since readers differ on what is there, and one with = the result.

  Exit status: 0 if each value was read, also if nobody reads the output any more; 1 if a value or
  JSON was rejected or is truncated; 2 after a mistake in the arguments or the input, or if a file
  can't be read or the output written; 3 if a value is beyond the limits; 4 if RabbitMQ closes the
  connection; 5 if --strict is given and there are warnings. Of several it is the first of 2, 1, 4,
  3 and 5.

version
  $ amqp_show --version
  amqp_show 0.1.0

check_other
  $ amqp_show --check other
  2> error: invalid value 'other' for '--check <PEER>'
  2>   [possible values: rabbitmq, rabbitmq-3.10, rabbitmq-4.0, rabbitmq-4.3]
  2>
  2> For more information, try '--help'.
  [2]

two_forms
  $ amqp_show --tree --json
  2> error: the argument '--tree' cannot be used with '--json'
  2>
  2> Usage: amqp_show --tree [FILE]...
  2>
  2> For more information, try '--help'.
  [2]

raw_without_encode
  $ amqp_show --raw
  2> error: the following required arguments were not provided:
  2>   --encode
  2>
  2> Usage: amqp_show --encode --raw [FILE]...
  2>
  2> For more information, try '--help'.
  [2]

usage_escape
  $ amqp_show $'--he\x1b[31mx'
  2> error: unexpected argument '--he\u001b[31mx' found
  2>
  2>   tip: to pass '--he\u001b[31mx' as a value, use '-- --he\u001b[31mx'
  2>
  2> Usage: amqp_show [OPTIONS] [FILE]...
  2>
  2> For more information, try '--help'.
  [2]

dropped
  $ amqp_show --keep-going
  2> error: unexpected argument '--keep-going' found
  2>
  2>   tip: to pass '--keep-going' as a value, use '-- --keep-going'
  2>
  2> Usage: amqp_show [OPTIONS] [FILE]...
  2>
  2> For more information, try '--help'.
  [2]
