//! AMQP 0-9-1 field tables: checked within limits, read in place, and built in a buffer.
//!
//! All work is done by the calls of `libamqp_values.a`, which are proved. Reading copies and allocates nothing, and no input makes
//! a function panic, or recurse deeper than [`Limits::depth`]. With the feature `std` values are converted from and to JSON, and
//! [`rabbitmq`] has warnings: these calls allocate.
//!
//! ```
//! use amqp_values::{read_table, EqualKeys, Error, Limits, PathStep::*, TableBuilder, ValueRef, WriteError};
//!
//! /// The count of the first death, if the headers have one.
//! fn deaths(headers: &[u8]) -> Result<Option<i64>, Error> {
//!     let (headers, _) = read_table(headers, Limits::DEFAULT)?;
//!     let path = [Key("x-death"), Index(0), Key("count")];
//!     Ok(headers.get_path(&path, EqualKeys::First).and_then(ValueRef::as_int))
//! }
//!
//! fn headers(buffer: &mut [u8]) -> Result<&[u8], WriteError> {
//!     let mut headers = TableBuilder::new(buffer);
//!     headers.put_array("x-death", |deaths| deaths.push_table(|death| death.put("count", 3_i64)))?;
//!     headers.finish()
//! }
//!
//! assert_eq!(deaths(headers(&mut [0; 64]).unwrap()), Ok(Some(3)));
//! ```
#![no_std]
#![deny(unsafe_code)]
#![warn(missing_docs, clippy::undocumented_unsafe_blocks)]

#[cfg(feature = "std")]
extern crate std;

mod build;
mod calls;
mod debug;
mod error;
mod iter;
#[cfg(feature = "std")]
mod json;
mod limits;
mod path;
pub mod rabbitmq;
mod read;
mod value;

pub use build::{ArrayBuilder, TableBuilder};
pub use error::{Error, JsonReason, Problem, ProblemKind, WriteError};
pub use iter::{ArrayValues, TablePairs};
#[cfg(feature = "std")]
pub use json::{from_json, table_from_json, table_to_json, to_json};
pub use limits::{Limits, Measure};
pub use path::{EqualKeys, PathStep};
pub use read::{check, check_table, read, read_table};
pub use value::{ArrayRef, DecimalValue, TableRef, ValueRef};
