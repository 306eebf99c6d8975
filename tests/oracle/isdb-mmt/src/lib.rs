//! The Rust's files, as `run` copies them here.
#![allow(dead_code, unused_variables)]
pub mod decoder;
pub mod desc;
pub mod message;
pub mod mpu;
pub mod table;
