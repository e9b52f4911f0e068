# Files that amqp_show is given by name, and those that can't be read.

files
  $ amqp_show --hex queue_arguments.hex missing.hex no_id.hex
  queue_arguments.hex:
  FieldTable
    "x-max-length": LongInt 10000
    "x-message-ttl": LongUInt 60000
    "x-queue-type": LongString "quorum"
  = a value of 66 bytes
  no_id.hex:
  "z" (not decoded)
  ! offset 0: a type tag is expected; 7a is none
  = malformed
  2> amqp_show: "missing.hex": can't be read: No such file or directory (os error 2)
  [2]

files_json
  $ amqp_show --hex --json missing.hex queue_arguments.hex
  {"file":"queue_arguments.hex","value":{"x-max-length":{"$LongInt":10000},"x-message-ttl":{"$LongUInt":60000},"x-queue-type":"quorum"}}
  2> amqp_show: "missing.hex": can't be read: No such file or directory (os error 2)
  [2]

file_folder_stream
  $ amqp_show --stream folder
  folder:
  2> amqp_show: "folder": can't be read: Is a directory (os error 21)
  [2]

file_missing_to_encode
  $ amqp_show --encode missing.json
  2> amqp_show: "missing.json": can't be read: No such file or directory (os error 2)
  [2]

file_name_escape
  $ amqp_show --hex $'name\x1b[31m.hex'
  name\u001b[31m.hex:
  FieldTable
    "x-max-length": LongInt 10000
    "x-message-ttl": LongUInt 60000
    "x-queue-type": LongString "quorum"
  = a value of 66 bytes

file_name_escape_missing
  $ amqp_show $'no\x1b[31m\xc2\x9b2J\xe2\x80\xae.bin'
  2> amqp_show: "no\u001b[31m\u009b2J\u202e.bin": can't be read: No such file or directory (os error 2)
  [2]
