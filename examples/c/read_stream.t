# Runs of read_stream.c, by tests/c/test_examples.py: streams of whole, cut and too large tables.

cut
  $ printf '\0\0\0\x05\x01a' | read_stream
  the input ends inside a table
  [1]

nothing
  $ printf '' | read_stream

too_large
  $ printf '\x00\x10\x00\x00' | read_stream
  too large, at byte 0 of the table
  [1]

two_tables
  $ printf '\0\0\0\x06\x01aV\x01bV\0\0\0\0' | read_stream
  a table of 2 entries, 10 bytes
  a table of 0 entries, 4 bytes

unknown_tag
  $ printf '\0\0\0\x03\x01a?' | read_stream
  unknown type tag, at byte 6 of the table
  [1]
