"""Tests of bindings/rust: the crates amqp-values-sys and amqp-values, and the drop-in for `amq-protocol-types`."""
