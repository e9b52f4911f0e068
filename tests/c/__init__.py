"""Tests of the C API (include/amqp_values.h) from C, C++ and by ctypes, and of what is installed of it."""
