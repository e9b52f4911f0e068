//! The calls of `libamqp_values.a`, as `include/amqp_values.h` declares and describes them.
//!
//! bindgen makes the declarations. C's `char` is `u8` here, since each text has a length. The crate `amqp-values` is safe Rust
//! over it. `build.rs` assembles the library with `cc` and `ar`, unless the variable `AMQP_VALUES_LIB_DIR` names the folder of one.
//!
//! What the caller must ensure, besides a stack that suffices:
//! - Pointers are not NULL, except where NULL is mentioned, and except for data of length 0 and
//!   buffers of capacity 0.
//! - Structs are aligned, as the compiler does by default.
//! - What a call writes to does not overlap anything else that is passed to it.
//! - No length of what a pointer is passed to exceeds PTRDIFF_MAX. (Numbers in an entry, a cursor or
//!   a container may.)
//!
//! The comments are those of the header.
#![no_std]

#[allow(non_camel_case_types)]
mod bindings;
pub use bindings::*;

/// The types of C.
#[allow(non_camel_case_types)]
mod c {
    pub use core::ffi::c_void;
    pub type c_char = u8;
    pub type c_uchar = u8;
    pub type c_int = i32;
    pub type c_uint = u32;
}

#[test]
fn the_library_has_the_version_of_the_declarations() {
    // SAFETY: the call has no precondition
    assert_eq!(unsafe { amqpv_version() }, AMQPV_VERSION_NUMBER);
}

#[test]
fn a_problem_may_be_null() {
    let bytes = [0, 0, 0, 3, 1];
    let input = amqpv_input { bytes: bytes.as_ptr(), length: 5, max_bytes: 9, max_depth: 1, flags: AMQPV_UNTAGGED };
    let mut entry = amqpv_entry::default();
    // SAFETY: the bytes can be read, and `entry` is borrowed alone
    assert_eq!(unsafe { amqpv_read(&input, &mut entry, core::ptr::null_mut()) }, AMQPV_MORE);
}
