//! Compares two implementations of the Sim0MQ message rules on generated input.
//!
//! [`peer`] is an implementation written from the rules alone, [`c_peer`] another one, in C;
//! [`generate`] makes the inputs and [`driver`] puts the same questions to two
//! [`subject::Subject`]s and compares every answer and every lent buffer; the same for two
//! [`subject::Parts`], which are what is built on messages: recordings, commands, sums, senders
//! and the deck ledger.

#![deny(unsafe_code)]
#![warn(missing_docs)]

#[allow(unsafe_code)]
pub mod c_peer;
pub mod driver;
pub mod generate;
pub mod peer;
pub mod plain;
#[cfg(feature = "product")]
pub mod product;
pub mod random;
pub mod samples;
pub mod subject;
pub mod tally;
