//! The example responder.

mod control;
mod options;
mod rename;
mod report;
mod run;
mod session;

pub use options::{Options, HELP};
pub use run::run;
