//! What each program's `main` does: options, help, stop on signals, errors on standard error, and the status that it ends with (docs/PROGRAMS.md).

use std::error::Error;
use std::fmt;
use std::process::ExitCode;

use crate::link::LinkError;
use crate::stop;

/// An error of the system: a socket, an interface, a file.
const FAILED: u8 = 1;
/// The command line can't be read, or the library refuses what it says: another start would end the same.
const MISUSED: u8 = 2;
/// A run met no error, but not its aim either: the names are lost, or too few instances were found.
const UNMET: u8 = 3;
/// Port 5353 is taken by a program that doesn't share it.
const PORT_TAKEN: u8 = 4;

/// How a run that met no error ended.
#[derive(Clone, Copy, Debug, PartialEq, Eq)]
pub enum End {
    Stopped,
    Unmet,
}

/// What the command line says can't be done.
#[derive(Debug)]
pub struct Misuse(pub String);

impl fmt::Display for Misuse {
    fn fmt(&self, f: &mut fmt::Formatter) -> fmt::Result {
        f.write_str(&self.0)
    }
}

impl Error for Misuse {}

pub fn main<Options>(
    help: &str,
    read: fn(Vec<String>) -> Result<Option<Options>, String>,
    run: fn(&Options) -> Result<End, Box<dyn Error>>,
) -> ExitCode {
    let ended = match read(std::env::args().skip(1).collect()) {
        Ok(Some(options)) => {
            stop::listen();
            run(&options)
        }
        Ok(None) => {
            print!("{}", crate::arguments::named(help));
            Ok(End::Stopped)
        }
        Err(error) => Err(Misuse(error).into()),
    };
    match ended {
        Ok(End::Stopped) => ExitCode::SUCCESS,
        Ok(End::Unmet) => ExitCode::from(UNMET),
        Err(error) => {
            eprintln!("{error}");
            ExitCode::from(status(error.as_ref()))
        }
    }
}

fn status(error: &(dyn Error + 'static)) -> u8 {
    if error.is::<Misuse>() {
        return MISUSED;
    }
    match error.downcast_ref::<LinkError>() {
        Some(error) if error.is_port_taken() => PORT_TAKEN,
        _ => FAILED,
    }
}
