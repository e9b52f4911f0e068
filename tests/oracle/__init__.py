"""Tests that the Rust crate `amq-protocol-types` and this library answer the same requests alike (README.md)."""
