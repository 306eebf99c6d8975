//! A decoder for feeds of ISDB-S3 (4K satellite), whose functions are proved to do what their contracts say.
//!
//! A [`Session`] takes TLV packets. [`Session::push`] hands out the media units that a packet completes, [`Session::push_all`] those of many
//! packets that lie one behind the other; counts and service tables are kept in the session and read by its other functions, which change
//! nothing.
//!
//! The work is done by `libisdb_host.a`, which is proved. This crate lends it memory and turns its numbers into values; that is not
//! proved.
#![warn(missing_docs)]

mod limits;
mod pushes;
mod readings;
mod record;
mod refused;
mod session;
mod sys;
pub mod tables;

pub use limits::{Lengths, Limits};
pub use pushes::{Halt, Pushes};
pub use readings::{Asset, CarriedAsset, Control, Counters, Held, Key, Media};
pub use record::{MfuHeader, Record, Records};
pub use refused::Refused;
pub use session::Session;
