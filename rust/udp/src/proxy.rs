//! The example discovery proxy (RFC 8766): ordinary unicast DNS for two delegated domains, answered from what is said on the link. Which names and records pass,
//! and how they are mapped, the library says; the messages, the sockets and the waiting are here.

mod clients;
mod message;
mod options;
mod pending;
mod run;
mod zones;

pub use options::{Options, HELP};
pub use run::run;
