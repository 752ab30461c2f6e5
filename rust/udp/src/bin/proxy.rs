//! The example discovery proxy's command; `proxy --help` tells more.

use udp::proxy::{run, Options, HELP};

fn main() -> std::process::ExitCode {
    udp::command::main(HELP, Options::read, run)
}
