# amqp_show when standard output is a terminal (colours, and what isn't written to it), a full device or a closed pipe.

tree_on_terminal
  $ echo 460000000a 0161 56 0161 56 0162 4900 | xxd -r -p | amqp_show >/dev/tty
  FieldTable
    \x1b[36m"a"\x1b[0m: Void (esc)
    \x1b[36m"a"\x1b[0m\x1b[33m (the key comes again)\x1b[0m: Void (esc)
    \x1b[36m"b"\x1b[0m: LongInt \x1b[31m00 (1 of 4 bytes)\x1b[0m (esc)
  \x1b[33m* offset 8: the key "a" comes again; readers differ in which value they take\x1b[0m (esc)
  \x1b[31m! offset 13: the LongInt of 5 bytes goes past the end of its container\x1b[0m (esc)
  = malformed
  [1]

bytes_on_terminal
  $ echo 4600000006 0161 7407 0162 | xxd -r -p | amqp_show --bytes --canonical >/dev/tty
       0  46                  type tag F, FieldTable
       1  00000006            length 6
       5  01                    key length 1
       6  61                    key \x1b[36m"a"\x1b[0m (esc)
       7  74                    type tag t, Boolean
       8  07                    true\x1b[33m (the byte isn't canonical, 01 is)\x1b[0m (esc)
       9  01                    key length 1
      10  62                    key \x1b[36m"b"\x1b[0m (esc)
  \x1b[31m! offset 11: a value is expected; its table ends here\x1b[0m (esc)
  = malformed
  [1]

check_on_terminal
  $ echo 4600000004 01ff 7407 | xxd -r -p | amqp_show --check rabbitmq >/dev/tty
  \x1b[33m* offset 5: the key "\\xff" isn't UTF-8; most clients can't read it\x1b[0m (esc)
  = RabbitMQ 4.0 accepts it, except as the warnings say

no_color
  $ echo 4600000004 01ff 7407 | xxd -r -p | NO_COLOR=0 amqp_show >/dev/tty
  FieldTable
    "\xff": Boolean true
  ! offset 5: the key "\xff" isn't UTF-8
  = malformed
  [1]

no_color_empty
  $ echo 4600000004 01ff 7407 | xxd -r -p | NO_COLOR= amqp_show >/dev/tty
  FieldTable
    \x1b[36m"\\xff"\x1b[0m: Boolean true (esc)
  \x1b[31m! offset 5: the key "\\xff" isn't UTF-8\x1b[0m (esc)
  = malformed
  [1]

json_on_terminal
  $ echo 530000000a1b5b316d7fc285e280ae | xxd -r -p | amqp_show --json >/dev/tty
  "\u001b[1m\u007f\u0085\u202e"

encode_on_terminal
  $ echo true | amqp_show --encode >/dev/tty
  7401

raw_on_terminal
  $ echo true | amqp_show --encode --raw >/dev/tty
  2> amqp_show: --raw doesn't write to a terminal, which would obey the bytes; redirect the output
  [2]

help_on_terminal
  $ amqp_show --hex=1 >/dev/tty
  2> error: unexpected value '1' for '--hex' found; no more were expected
  2>
  2> Usage: amqp_show --hex [FILE]...
  2>
  2> For more information, try '--help'.
  [2]

full
  $ echo 7401 | xxd -r -p | amqp_show >/dev/full
  2> amqp_show: the output can't be written: No space left on device (os error 28)
  [2]

full_json
  $ echo 7401 | xxd -r -p | amqp_show --stream --json >/dev/full
  2> amqp_show: the output can't be written: No space left on device (os error 28)
  [2]

full_encode
  $ printf 'true' | amqp_show --encode --raw >/dev/full
  2> amqp_show: the output can't be written: No space left on device (os error 28)
  [2]

full_help
  $ amqp_show --help >/dev/full
  2> amqp_show: the output can't be written: No space left on device (os error 28)
  [2]

closed
  $ echo 7401 | xxd -r -p | amqp_show --stream --json | true

closed_encode
  $ printf 'true' | amqp_show --encode --raw | true

dumb_terminal
  $ echo 4600000003016156 | xxd -r -p | TERM=dumb amqp_show >/dev/tty
  FieldTable
    "a": Void
  = a value of 8 bytes

colours_always
  $ echo 4600000003016156 | xxd -r -p | NO_COLOR=1 amqp_show --color=always
  FieldTable
    \x1b[36m"a"\x1b[0m: Void (esc)
  = a value of 8 bytes

colours_never
  $ echo 4600000003016156 | xxd -r -p | amqp_show --color=never >/dev/tty
  FieldTable
    "a": Void
  = a value of 8 bytes

colours_otherwise
  $ amqp_show --color=yes
  2> error: invalid value 'yes' for '--color <WHEN>'
  2>   [possible values: auto, always, never]
  2>
  2> For more information, try '--help'.
  [2]
