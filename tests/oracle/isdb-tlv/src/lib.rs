//! The Rust's files, as `run` copies them here.
#![allow(dead_code)]
pub mod ip;
pub mod mmtp;
pub mod si;
pub mod tlv;
