//! Who held which name, from recordings of several devices: a table, an answer to one question, and a page with a picture. The states are those of the proved
//! player; nothing here reads a claim by itself.

mod moments;
mod options;
mod page;
mod read;
mod run;
mod spans;

pub use options::{Options, HELP};
pub use run::run;
