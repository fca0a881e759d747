//! The seven calls of a group, for C and whatever calls C: bindings/c/muoswyld_group.h is made of this crate's sources and comments.
//!
//! All `unsafe` of the interface is here. Each exported function does its work within [`guard::guard`], so that no panic goes to the caller, and
//! looks at its pointers before it uses them.

#![allow(non_camel_case_types)] // types have the names that C gives them
#![allow(clippy::missing_safety_doc)] // the rules of all pointers stand at the head of the header (cbindgen.toml)
#![deny(unsafe_op_in_unsafe_fn)]
#![deny(clippy::undocumented_unsafe_blocks)]
#![warn(missing_docs)]

mod arrival;
mod config;
mod guard;
mod info;
mod machine;
mod member;
mod service;
mod state;
mod status;
#[cfg(test)]
mod tests;
mod types;
