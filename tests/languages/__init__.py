"""Tests that languages agree: Rattle, C, Rust and Python on the example that pages have, Python and C on repeated keys."""
