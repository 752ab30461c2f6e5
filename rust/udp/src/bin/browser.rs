//! The example browser's command; `browser --help` tells more.

use udp::browse::{run, Options, HELP};

fn main() -> std::process::ExitCode {
    udp::command::main(HELP, Options::read, run)
}
