//! The worksheet's rules in plain Rust, the library's calls, and inputs to try on both.

#![deny(unsafe_code)]

pub mod diamond;
pub mod generate;
#[allow(unsafe_code)]
pub mod library;
pub mod open;
pub mod point;
pub mod rules;
