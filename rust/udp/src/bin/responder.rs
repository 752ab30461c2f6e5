//! The example responder's command; `responder --help` tells more.

use udp::respond::{run, Options, HELP};

fn main() -> std::process::ExitCode {
    udp::command::main(HELP, Options::read, run)
}
