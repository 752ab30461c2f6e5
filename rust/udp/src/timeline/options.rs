//! The timeline's command line.

use crate::arguments::{unknown, Arguments};

pub const HELP: &str = "\
timeline: tells from recordings (responder --trace) which device held which name, and when

usage: timeline [options] DEVICE=FILE[@DISTANCE] ..

  DEVICE=FILE[@DISTANCE]  a recording of a device; DISTANCE is added to its clock, in milliseconds, so that all are on one clock: the number behind 'begun on .. at'
                          that the responder prints, for the wall clock, or that behind 'anew on .. at' less the milliseconds before it. Several recordings of one device, in the
                          order in which they began, are its restarts
  --name NAME             only this name, such as 'booth._voice._tcp.local'
  --at TIME               only who held at this time of the common clock, in milliseconds
  --page FILE             also write a page with a picture
  --help                  this text

It prints a line for each time that a name was held: the name, the device, from when, to when, and how long; 'end' is the end of a recording. Where two devices held
one name at once a line says so. A recording whose end is torn off, as by a power cut, is used up to there, and a line on standard error says what was left out.
It ends with status 0, 1 on an error, 2 when the command line is wrong, and 3 where nobody held what --name and --at ask for.
";

#[derive(Clone, Debug, PartialEq, Eq)]
pub struct Source {
    pub device: String,
    pub file: String,
    pub distance: u64,
}

#[derive(Clone, Debug, Default, PartialEq, Eq)]
pub struct Options {
    pub sources: Vec<Source>,
    pub name: Option<String>,
    pub at: Option<u64>,
    pub page: Option<String>,
}

impl Options {
    /// Reads a command line; nothing where help is asked for.
    pub fn read(arguments: Vec<String>) -> Result<Option<Options>, String> {
        let mut arguments = Arguments::new(arguments);
        let mut options = Options::default();
        while let Some(option) = arguments.next_option() {
            match option.as_str() {
                "--help" | "-h" => return Ok(None),
                "--name" => options.name = Some(arguments.text(&option)?),
                "--at" => options.at = Some(arguments.value(&option)?),
                "--page" => options.page = Some(arguments.text(&option)?),
                _ if option.starts_with("--") => return Err(unknown(&option)),
                _ => options.sources.push(source(&option)?),
            }
        }
        if options.sources.is_empty() {
            return Err("no recording is named; --help tells more".into());
        }
        Ok(Some(options))
    }
}

fn source(text: &str) -> Result<Source, String> {
    let wrong =
        || format!("'{text}' is no recording; it is such as 'dock=dock.trace@1794778443425'");
    let (device, rest) = text.split_once('=').ok_or_else(wrong)?;
    let (file, distance) = match rest.rsplit_once('@') {
        Some((file, number)) => (file, number.parse().map_err(|_| wrong())?),
        None => (rest, 0),
    };
    if device.is_empty() || file.is_empty() {
        return Err(wrong());
    }
    Ok(Source {
        device: device.into(),
        file: file.into(),
        distance,
    })
}

#[cfg(test)]
mod tests {
    use super::*;

    fn read(line: &str) -> Result<Option<Options>, String> {
        Options::read(line.split_whitespace().map(str::to_string).collect())
    }

    #[test]
    fn a_command_line() {
        let options = read("one=a/b.trace@5 two=c --name x.local --at 7 --page p.html");
        let options = options.unwrap().unwrap();
        let sources: Vec<_> = options
            .sources
            .iter()
            .map(|s| (&*s.device, &*s.file, s.distance))
            .collect();
        assert_eq!(sources, [("one", "a/b.trace", 5), ("two", "c", 0)]);
        assert_eq!(
            (options.name.as_deref(), options.at),
            (Some("x.local"), Some(7))
        );
    }

    #[test]
    fn what_is_wrong_is_said() {
        assert_eq!(read("--help"), Ok(None));
        assert!(read("").unwrap_err().starts_with("no recording"));
        for bad in ["a", "=a", "a=", "a=b@x", "--dog"] {
            assert!(read(bad).is_err(), "{bad}");
        }
    }
}
