//! A recording: a line that says how a responder was started, then the trace of what happened to it (docs/TRACE.md). The player takes one as it is.

pub mod file;
pub mod start;

pub use file::Recording;
pub use start::Start;
