//! Who held which name; `timeline --help` tells more.

use udp::timeline::{run, Options, HELP};

fn main() -> std::process::ExitCode {
    udp::command::main(HELP, Options::read, run)
}
