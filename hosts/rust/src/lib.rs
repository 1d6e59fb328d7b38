//! A host in Rust: it runs a member, the program `simplex_node_cli`, as a process (docs/NODE.md), with a ledger of accounts as its
//! application, over TCP on 127.0.0.1. The configuration, the lines between members and the client port are those of `hosts/python`, so a
//! cluster can mix both.
//!
//! - [`process`] moves lines between the host and its member; [`effect`] has their grammar.
//! - [`peers`] moves [`frame`]s between members, through the bounded queues of [`queue`].
//! - [`ledger`] is the application: [`block`]s of transfers, which [`store`] keeps in one file.
//! - [`member`] is the loop over all of them; [`cluster`] starts several members on one machine and measures them.

pub mod block;
pub mod client;
pub mod cluster;
pub mod config;
pub mod digest;
pub mod effect;
pub mod error;
pub mod frame;
pub mod hex;
pub mod json;
pub mod ledger;
pub mod member;
pub mod peers;
pub mod process;
pub mod queue;
pub mod store;
#[cfg(test)]
#[allow(clippy::expect_used)]
mod testing;
