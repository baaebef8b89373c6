#![cfg_attr(feature = "machine", doc = include_str!("../README.md"))]
#![cfg_attr(not(feature = "machine"), doc = "Captures of PlayStation's GPU, written and read without the machine.")]
#![deny(missing_docs, unsafe_op_in_unsafe_fn)]
#![cfg_attr(not(feature = "machine"), forbid(unsafe_code))]

pub mod capture;
pub mod conformance;
#[cfg(feature = "machine")]
mod machine;

#[cfg(feature = "machine")]
pub use machine::*;
