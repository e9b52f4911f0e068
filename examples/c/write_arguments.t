# Runs of write_arguments.c, by tests/c/test_examples.py: buffers that are large enough and too small.

complete
  $ echo '# nothing is read' | write_arguments
  000000580c782d6d61782d6c656e67746849000027100c782d71756575652d74797065530000000671756f72756d066c696d6974734600000010036c6f7773fffb06737472696374740105686f737473410000000753000000016156

exact_buffer
  $ echo '# nothing is read' | write_arguments 92
  000000580c782d6d61782d6c656e67746849000027100c782d71756575652d74797065530000000671756f72756d066c696d6974734600000010036c6f7773fffb06737472696374740105686f737473410000000753000000016156

no_buffer
  $ echo '# nothing is read' | write_arguments 0
  buffer too small: 92 bytes are needed
  [1]

small_buffer
  $ echo '# nothing is read' | write_arguments 91
  buffer too small: 92 bytes are needed
  [1]
