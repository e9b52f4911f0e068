# Tables without their type tag, which `amqp_show --table` reads, and what is said of them without `--table`.

table
  $ echo 00000007 0161 7401 0162 56 | xxd -r -p | amqp_show --table
  FieldTable
    "a": Boolean true
    "b": Void
  = a table of 11 bytes

table_by_bytes
  $ echo 00000007 0161 7401 0162 56 | xxd -r -p | amqp_show --table --bytes
       0  00000007            length 7
       4  01                    key length 1
       5  61                    key "a"
       6  74                    type tag t, Boolean
       7  01                    true
       8  01                    key length 1
       9  62                    key "b"
      10  56                    type tag V, Void
  = a table of 11 bytes

table_follow
  $ echo 00000000 0000 | xxd -r -p | amqp_show --table
  FieldTable
  = a table of 4 bytes
  2> amqp_show: "-": more bytes follow, from offset 4

table_json
  $ echo 00000007 04566f6964 7401 5656 | amqp_show --table --hex --json
  {"Void":true}
  2> amqp_show: "-": more bytes follow, from offset 11

table_malformed
  $ echo 00000004 0161 7a00 | xxd -r -p | amqp_show --table --bytes
       0  00000004            length 4
       4  01                    key length 1
       5  61                    key "a"
       6  7a00                  "z\u0000" (not decoded)
  ! offset 6: a type tag is expected; 7a is none
  = malformed
  [1]

table_truncated
  $ echo 00000009 0161 4900 | xxd -r -p | amqp_show --table
  FieldTable
    "a": LongInt 00 (1 of 4 bytes)
  ! offset 8: the input ends inside the LongInt
  = truncated; more bytes needed: 5
  [1]

table_empty
  $ printf '' | amqp_show --table
  FieldTable
  ! offset 0: the input ends inside the FieldTable
  = truncated; more bytes needed: 4
  [1]

table_too_large
  $ echo 00000007 0161 7401 0162 56 | xxd -r -p | amqp_show --table --max-bytes 11
  ! offset 0: the table with its type tag has 12 bytes, more than --max-bytes 11 allows
  = beyond the limits
  [3]

table_at_limit
  $ echo 00000007 0161 7401 0162 56 | xxd -r -p | amqp_show --table --max-bytes 12
  FieldTable
    "a": Boolean true
    "b": Void
  = a table of 11 bytes

no_type_tag
  $ echo 00000007 0161 7401 0162 56 | xxd -r -p | amqp_show
  FieldTable
    "a": Boolean true
    "b": Void
  = a table of 11 bytes
  2> amqp_show: "-": read as a table without its type tag, as with --table

no_type_tag_json
  $ echo 00000007 0161 7401 0162 56 | xxd -r -p | amqp_show --json
  {"a":true,"b":null}
  2> amqp_show: "-": read as a table without its type tag, as with --table

no_type_tag_of_more_than_255_bytes
  $ xxd -r -p <<'END' | amqp_show
  > 00000103 0161 53 000000fc
  > 303030303030303030303030303030303030303030303030303030303030303030303030303030303030303030303030303030303030303030303030303030303030303030303030303030303030303030303030303030303030303030303030303030303030303030303030303030303030303030303030303030303030
  > 303030303030303030303030303030303030303030303030303030303030303030303030303030303030303030303030303030303030303030303030303030303030303030303030303030303030303030303030303030303030303030303030303030303030303030303030303030303030303030303030303030303030
  > END
  FieldTable
    "a": LongString "000000000000000000000000000000000000000000000000000000000000000000000000000000000000000000000000000000000000000000000000000000000000000000000000000000000000000000000000000000000000000000000000000000000000000000000000000000000000000000000000000000000000"
  = a table of 263 bytes
  2> amqp_show: "-": read as a table without its type tag, as with --table

no_type_tag_and_more
  $ echo 00000007 0161 7401 0162 56 56 | xxd -r -p | amqp_show
  FieldTable
    "a": Boolean true
    "b": Void
  = a table of 11 bytes
  2> amqp_show: "-": read as a table without its type tag, as with --table
  2> amqp_show: "-": more bytes follow, from offset 11

no_type_tag_stream
  $ echo 00000007 0161 7401 0162 56 | xxd -r -p | amqp_show --stream
  "\u0000" (not decoded)
  ! offset 0: a type tag is expected; 00 is none
  = at 0: malformed
  2> amqp_show: "-": the input seems to be tables without their type tags; --table reads them
  [1]

type_tag_with_table
  $ echo 46 00000007 0161 7401 0162 56 | xxd -r -p | amqp_show --table
  2> amqp_show: "-": the input seems to have a type tag; without --table it is read
  [2]

no_type_tag_key_not_utf8
  $ echo 00000003 01ff 56 | xxd -r -p | amqp_show
  FieldTable
    "\xff": Void
  ! offset 4: the key "\xff" isn't UTF-8
  = malformed
  2> amqp_show: "-": read as a table without its type tag, as with --table
  [1]

no_type_tag_malformed
  $ echo 00000003 0461 56 | xxd -r -p | amqp_show --bytes
       0  00000003            length 3
       4  046156                "\u0004aV" (not decoded)
  ! offset 4: the key of 4 bytes goes past the end of its table
  = malformed
  2> amqp_show: "-": read as a table without its type tag, as with --table
  [1]

no_type_tag_cut_after_the_length
  $ echo 00000003 | xxd -r -p | amqp_show
  FieldTable
  ! offset 4: the input ends inside the FieldTable
  = truncated; more bytes needed: 3
  2> amqp_show: "-": read as a table without its type tag, as with --table
  [1]

no_type_tag_cut_in_the_key
  $ echo 00000010 0461 62 | xxd -r -p | amqp_show --json
  2> amqp_show: "-": read as a table without its type tag, as with --table
  2> amqp_show: "-": offset 7: the input ends inside the FieldTable
  [1]

no_type_tag_cut_in_the_value
  $ echo 00000010 0161 4900 | xxd -r -p | amqp_show
  FieldTable
    "a": LongInt 00 (1 of 4 bytes)
  ! offset 8: the input ends inside the LongInt
  = truncated; more bytes needed: 12
  2> amqp_show: "-": read as a table without its type tag, as with --table
  [1]

no_type_tag_empty
  $ echo 00000000 | xxd -r -p | amqp_show
  FieldTable
  = a table of 4 bytes
  2> amqp_show: "-": read as a table without its type tag, as with --table

no_type_tag_and_no_table
  $ echo 00000000 0056 | xxd -r -p | amqp_show
  "\u0000" (not decoded)
  ! offset 0: a type tag is expected; 00 is none
  = malformed
  [1]

body
  $ echo 0161 56 0162 7401 | xxd -r -p | amqp_show
  FieldTable
    "a": Void
    "b": Boolean true
  = a table's body of 7 bytes
  2> amqp_show: "-": read as a table's body, without its type tag and length

body_by_bytes
  $ echo 0361 6263 56 | amqp_show --hex --table --bytes
       0  03                    key length 3
       1  616263                key "abc"
       4  56                    type tag V, Void
  = a table's body of 5 bytes
  2> amqp_show: "-": read as a table's body, without its type tag and length

body_checked
  $ echo 0361 6263 56 0161 5500 01 | amqp_show --hex --check rabbitmq
  ! offset 7: RabbitMQ doesn't know the type tag U (ShortInt), in "a"
  = RabbitMQ 4.0 closes the connection; warnings weren't looked for
  2> amqp_show: "-": read as a table's body, without its type tag and length
  [4]

body_on_a_line
  $ printf '00000000\n03616263740001615601\n036162637400016156\n' | amqp_show --lines --table --json
  {}
  {"abc":false,"a":null}
  2> amqp_show: "-": line 2, offset 0: the table with its type tag has 56713832 bytes, more than --max-bytes 1048576 allows
  2> amqp_show: "-": line 3: read as a table's body, without its type tag and length
  [3]

no_body
  $ echo 0161 56 0162 7401 01 | xxd -r -p | amqp_show
  "\u0001" (not decoded)
  ! offset 0: a type tag is expected; 01 is none
  = malformed
  [1]
