# Runs of check_headers.c, by tests/c/test_examples.py: headers that it accepts, warns of or rejects.

accepted
  $ echo '00000006 01 61 56 01 62 56   # a: Void, b: Void' | check_headers
  no warnings

cut
  $ echo '0000000c 02 c328 74 01 01 61 49   # not all bytes are there' | check_headers
  not accepted: more bytes are needed, at 0
  [1]

cut_after_the_key
  $ echo '0000000a 01 61 56 01 62 53 00000009   # a: Void, and b: a string that goes past the end' | check_headers
  not accepted: a value is missing or truncated, at 9
  [1]

infinite
  $ echo '00000007 01 61 66 7f800000   # a: an infinity' | check_headers
  not accepted: a float is infinite or NaN, at 6
  [1]

keys
  $ check_headers <<'END'
  > 0000000d
  > 01 61 56        # a: Void
  > 02 c328 74 01   # a key that is not UTF-8: true
  > 00 56           # the empty key: Void
  > 01 61 56        # a again
  > END
  a repeated key, at 14
  a key that is not UTF-8, at 7
  an empty key, at 12
  [1]

streams
  $ check_headers streams <<'END'
  > 00000018
  > 01 61 44 02 0000013a                       # a: a decimal
  > 01 62 41 00000009 46 00000004 01 63 74 01  # b: an array of a table
  > END
  a decimal, which a stream does not take, at 6
  a container, which a stream drops, at 14
  [1]

streams_not_asked_for
  $ echo '00000018 01 61 44 02 0000013a 01 62 41 00000009 46 00000004 01 63 74 01' | check_headers
  no warnings

unknown_tag
  $ echo '00000005 01 61 55 0007   # RabbitMQ does not know the tag U' | check_headers
  not accepted: unknown type tag, at 6
  [1]
