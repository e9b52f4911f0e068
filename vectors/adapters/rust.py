"""`decode` for run.py, by the crate amq-protocol-types. RUST_ADAPTER is the path of the program, built from rust.rs."""

from adapters.program import decoder

decode = decoder("RUST_ADAPTER")
