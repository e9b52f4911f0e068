"""Tests of programs with failing allocations, reads and writes, and with large input."""
