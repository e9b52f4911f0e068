"""Tests that crates can be copied into another repository, and that calls which must not compile are refused there."""
