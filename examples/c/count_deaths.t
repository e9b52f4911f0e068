# Runs of count_deaths.c, by tests/c/test_examples.py: one death, two, and a truncated key.

once
  $ count_deaths <<'END'
  > 00000026                                         # headers, of 38 bytes
  > 03 6a6f62 56                                     # job: Void
  > 07 782d6465617468 41 00000014                    # x-death: an array of 20 bytes
  >    46 0000000f                                   #   a table of 15 bytes
  >       05 636f756e74 6c 0000000000000003          #     count: 3
  > END
  3

truncated_key
  $ count_deaths <<'END'
  > 00000027                                         # headers, of 39 bytes
  > 07 782d6465617468 41 00000014                    # x-death: an array of 20 bytes
  >    46 0000000f                                   #   a table of 15 bytes
  >       05 636f756e74 6c 0000000000000003          #     count: 3
  > 03 6a6f62 56                                     # job: Void
  > 56                                               # a key of 86 bytes, of which none is there
  > END
  -1

twice
  $ count_deaths <<'END'
  > 0000003e                                         # headers, of 62 bytes
  > 07 782d6465617468 41 0000002e                    # x-death: an array of 46 bytes
  >    46 00000028                                   #   a table of 40 bytes
  >       05 636f756e74 6c 0000000000000001          #     count: 1
  >       05 7175657565 53 00000003 6a6f62           #     queue: job
  >       05 636f756e74 41 00000000                  #     count again: an empty array
  >    56                                            #   Void
  > 01 61 56                                         # a: Void
  > END
  1
