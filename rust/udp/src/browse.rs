//! The example browser.

mod caches;
mod lapse;
mod options;
mod run;
mod schedule;
mod show;
mod view;
mod wants;

pub use options::{Options, HELP};
pub use run::run;
pub use view::is_denied;
