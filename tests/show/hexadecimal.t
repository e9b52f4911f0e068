# `amqp_show --hex`: input in hexadecimal, what is wrong with it, and dumps that it doesn't read.

hexadecimal_forms
  $ amqp_show --hex <<'END'
  > # a table, as people write one
  > 46 00:00,00 \x17 # its length
  > 0x0161 0X49 00000005, 0162
  > \x41\x00\x00\x00\x060x53 00000001	78 016356
  > END
  FieldTable
    "a": LongInt 5
    "b": FieldArray
      LongString "x"
    "c": Void
  = a value of 28 bytes

hexadecimal_in_upper_case
  $ printf '7800000003ABCDEF\r\n' | amqp_show --hex
  ByteArray abcdef
  = a value of 8 bytes

not_hexadecimal
  $ echo 74 0g | amqp_show --hex
  2> amqp_show: "-": line 1, column 5: a byte of two hexadecimal digits is expected
  [2]

not_hexadecimal_on_another_line
  $ printf '7\n401' | amqp_show --hex --json
  2> amqp_show: "-": line 1, column 2: a byte of two hexadecimal digits is expected
  [2]

prefix_in_prefix
  $ echo 0x0x74 0x01 | amqp_show --hex
  2> amqp_show: "-": line 1, column 4: a byte of two hexadecimal digits is expected
  [2]

space_after_prefix
  $ echo 0x74 0x 01 | amqp_show --hex
  2> amqp_show: "-": line 1, column 8: a byte of two hexadecimal digits is expected
  [2]

single_digits
  $ echo 7 4 0 1 | amqp_show --hex
  2> amqp_show: "-": line 1, column 2: a byte of two hexadecimal digits is expected
  [2]

backslash
  $ echo '\74' | amqp_show --hex
  2> amqp_show: "-": line 1, column 2: a byte of two hexadecimal digits is expected
  [2]

half_a_byte
  $ printf '7401 0' | amqp_show --hex
  Boolean true
  = a value of 2 bytes
  2> amqp_show: "-": the text ends inside a byte of two hexadecimal digits
  [2]

after_a_value
  $ echo 7401 zz | amqp_show --hex
  Boolean true
  = a value of 2 bytes
  2> amqp_show: "-": line 1, column 6: a byte of two hexadecimal digits is expected
  [2]

in_a_stream
  $ echo 74 01 zz | amqp_show --stream --hex
  Boolean true
  = at 0: a value of 2 bytes
  2> amqp_show: "-": line 1, column 7: a byte of two hexadecimal digits is expected
  [2]

dump_of_xxd
  $ echo '00000000: 7401                                     t.' | amqp_show --hex
  2> amqp_show: "-": a dump of xxd: `xxd -r FILE | amqp_show` reads it
  [2]

dump_of_hexdump
  $ echo '00000000  74 01                                             |t.|' | amqp_show --hex
  2> amqp_show: "-": a dump of hexdump -C: `cut -c 11-58 FILE | amqp_show --hex` reads it
  [2]

dump_of_xxd_b
  $ echo '00000000: 01110100 00000001                                      t.' | amqp_show --hex
  2> amqp_show: "-": a dump of xxd -b, in binary: `xxd FILE` makes one that `xxd -r` reads, and `xxd -p FILE` one that --hex reads
  [2]

dump_of_tcpdump
  $ amqp_show --hex <<'END'
  > 12:00:00.000000 IP 127.0.0.1.50000 > 127.0.0.1.5672: Flags [P.], length 2
  > 	0x0000:  7401                                     t.
  > END
  2> amqp_show: "-": a dump of tcpdump: `grep '^.0x' FILE | cut -c 11-49 | amqp_show --hex` reads its bytes, of which a packet's headers are the first
  [2]

dump_of_wireshark
  $ echo '0000   74 01                                             t.' | amqp_show --hex
  2> amqp_show: "-": a dump of Wireshark: copy the bytes of the table as a hex stream, which --hex reads
  [2]

without_hex
  $ echo 46 00000003 0161 56 | amqp_show
  2> amqp_show: "-": the input seems to be hexadecimal; --hex reads it
  [2]

half_of_hexadecimal
  $ echo 343600 | xxd -r -p | amqp_show
  "4" (not decoded)
  ! offset 0: a type tag is expected; 34 is none
  = malformed
  [1]

hexadecimal_that_is_a_value
  $ echo 6231 | xxd -r -p | amqp_show
  ShortShortInt 49
  = a value of 2 bytes

unfinished_hexadecimal
  $ echo 343630 | xxd -r -p | amqp_show
  2> amqp_show: "-": the input seems to be hexadecimal; --hex reads it
  [2]

unfinished_line_of_hexadecimal
  $ printf '00000003016\n' | amqp_show --table
  2> amqp_show: "-": the input seems to be hexadecimal; --hex reads it
  [2]

line_of_a_log
  $ echo 12:34 headers=460000 | amqp_show --hex
  2> amqp_show: "-": line 1, column 7: a byte of two hexadecimal digits is expected
  [2]

dump_of_od
  $ amqp_show --hex --table <<'END'
  > 000000 00 00 00 15 01 61 53 00 00 00 09 61 62 63 64 65
  > 000010 66 67 68 69 01 62 56
  > 000017
  > END
  2> amqp_show: "-": a dump of od: `cut -sd ' ' -f 2- FILE | amqp_show --hex` reads it
  [2]

dump_of_od_in_octal
  $ printf '0000000 74 01\n0000002\n' | amqp_show --hex
  2> amqp_show: "-": a dump of od: `cut -sd ' ' -f 2- FILE | amqp_show --hex` reads it
  [2]

dump_of_words
  $ printf '000000 0000 1500\n000004\n' | amqp_show --hex
  2> amqp_show: "-": a dump of two-byte words, whose bytes od and hexdump swap: `od -An -v -tx1 FILE` makes one that --hex reads
  [2]

words_without_offsets
  $ printf '0000 0003\n0161 56\n' | amqp_show --hex --table
  FieldTable
    "a": Void
  = a table of 7 bytes

dump_of_tshark
  $ amqp_show --hex --table <<'END'
  > 0000  00 00 00 15 01 61 53 00 00 00 09 61 62 63 64 65
  > 0010  66 67 68 69 01 62 56
  > END
  2> amqp_show: "-": a dump of tshark: `cut -c 7-53 FILE | amqp_show --hex` reads its bytes, of which a packet's headers are the first
  [2]

lines_of_tables
  $ printf '00000003016156\n000000030162ff\n' | amqp_show --hex --table --check rabbitmq
  2> amqp_show: "-": line 1 is a whole value, and another line follows: --lines reads a value from each
  [2]

lines_after_a_comment
  $ printf '# two values\n\n7401\n# the second\n7400\n' | amqp_show --hex
  2> amqp_show: "-": line 3 is a whole value, and another line follows: --lines reads a value from each
  [2]

lines_of_which_the_first_is_cut
  $ printf '46000000040161\n460000000401627401\n' | amqp_show --hex
  2> amqp_show: "-": line 1 ends inside a value, while other lines are whole values: --lines reads each by itself
  [2]

wrapped_value_whose_last_line_is_a_value
  $ printf '460000001a01615300000010717171717171717171717171717171710162\n56\n' | amqp_show --hex --json
  {"a":"qqqqqqqqqqqqqqqq","b":null}

text_of_a_log
  $ echo 'INFO consumer headers=0000000701617401016256' | amqp_show --check rabbitmq
  2> amqp_show: "-": the input seems to be text, not bytes; --hex reads hexadecimal
  [2]

text_of_other_letters
  $ echo 'body=0102' | amqp_show
  2> amqp_show: "-": the input seems to be text, not bytes; --hex reads hexadecimal
  [2]

dump_of_od_without_equal_lines
  $ printf '000000 00 00 00 00 00 00 00 00 00 00 00 00 00 00 00 00\n000010 01 01 01 01 01 01 01 01 01 01 01 01 01 01 01 01\n*\n000040\n' | amqp_show --hex
  2> amqp_show: "-": a dump in which * stands for lines that are left out: dump it again with -v
  [2]

dump_of_hexdump_without_equal_lines
  $ printf '00000000  00 00 00 00 00 00 00 00  00 00 00 00 00 00 00 00  |................|\n*\n00000020\n' | amqp_show --hex
  2> amqp_show: "-": a dump in which * stands for lines that are left out: dump it again with -v
  [2]
