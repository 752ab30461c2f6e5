//! The browser's command line.

use crate::arguments::{unknown, Arguments};
use crate::places::Places;
use crate::{name, strings};

pub const HELP: &str = "\
browser: finds the instances of a service by Multicast DNS and shows name, address, port and TXT pairs of each

usage: browser --service TYPE [options]

  --service TYPE       the service, such as '_voice._tcp'
  --interface WHICH    the interface to use, by its name or by an IPv4 address of it; else the one that multicasts leave by
  --all-interfaces     each interface that is up and multicast; a line then begins with its name
  --ipv4-only          speak IPv4 alone
  --ipv6-only          speak IPv6 alone
  --factory STRING     a TXT string of the factory, such as 'volume=5', looked up where an instance has no such key; may be given several times
  --names              show names alone, each as soon as it is heard of, and ask for nothing else
  --entries NUMBER     how many records of each type there is room for, 1 to 512; else 512
  --count NUMBER       stop when this many instances are shown
  --seconds NUMBER     stop after this many seconds; else on Ctrl-C
  --verbose            also tell of each packet that the library refuses
  --help               this text

An instance is shown when its host, port, TXT and an address are known, again when they change, when it says goodbye, and a second later, when it is gone.
Where there is no room for a record it is turned away, and that is told: more instances than --entries are not shown.
It keeps looking: it asks after 1, 2, 4 seconds and so on up to an hour, and again where a record is about to lapse, and tells what it knows already.
When its interface is down all instances there are gone; when it is up again, or has other addresses, it begins to ask anew.
It ends with a status: 0 when stopped, 1 on an error of the system, 2 when the command line is wrong, 3 when it showed fewer than --count, 4 when port 5353 is
taken by a program that does not share it.
";

#[derive(Clone, Debug, Default, PartialEq, Eq)]
pub struct Options {
    /// The labels of the service.
    pub service: String,
    pub protocol: String,
    pub places: Places,
    pub factory: Vec<u8>,
    /// Whether names alone are shown.
    pub names: bool,
    /// How many entries each cache has, where it is said.
    pub entries: Option<usize>,
    pub count: Option<usize>,
    pub seconds: Option<u64>,
    pub verbose: bool,
}

impl Options {
    /// Reads a command line; nothing where help is asked for.
    pub fn read(arguments: Vec<String>) -> Result<Option<Options>, String> {
        let mut arguments = Arguments::new(arguments);
        let mut options = Options::default();
        let mut factory = Vec::new();
        while let Some(option) = arguments.next_option() {
            if options.places.take(&option, &mut arguments)? {
                continue;
            }
            match option.as_str() {
                "--help" | "-h" => return Ok(None),
                "--service" => options.take_service(&arguments.text(&option)?)?,
                "--factory" => factory.push(arguments.text(&option)?),
                "--names" => options.names = true,
                "--entries" => options.entries = Some(entries(arguments.value(&option)?)?),
                "--count" => options.count = Some(arguments.value(&option)?),
                "--seconds" => options.seconds = Some(arguments.value(&option)?),
                "--verbose" => options.verbose = true,
                _ => return Err(unknown(&option)),
            }
        }
        if options.service.is_empty() {
            return Err("--service is missing; --help tells more".into());
        }
        options.factory = strings::encode(&factory).ok_or("a TXT string is over 255 bytes")?;
        Ok(Some(options))
    }

    fn take_service(&mut self, text: &str) -> Result<(), String> {
        let wrong = format!("--service can't be '{text}'; it is such as '_voice._tcp'");
        let (service, protocol) = name::service(text).ok_or(wrong)?;
        (self.service, self.protocol) = (service.into(), protocol.into());
        Ok(())
    }
}

fn entries(number: usize) -> Result<usize, String> {
    if number == 0 || number > kurgashel::MOST_ENTRIES {
        return Err(format!(
            "--entries can't be {number}; it is 1 to {}",
            kurgashel::MOST_ENTRIES
        ));
    }
    Ok(number)
}

#[cfg(test)]
mod tests {
    use super::*;

    fn read(line: &str) -> Result<Option<Options>, String> {
        Options::read(line.split_whitespace().map(str::to_string).collect())
    }

    #[test]
    fn a_command_line() {
        let line = "--service _voice._tcp --interface 127.0.0.1 --factory a=1 --count 2";
        let options = read(line).unwrap().unwrap();
        assert_eq!((&*options.service, &*options.protocol), ("_voice", "_tcp"));
        let which = crate::link::Which::At([127, 0, 0, 1].into());
        assert_eq!(options.places.which, Some(which));
        assert_eq!(options.factory, b"\x03a=1");
        assert_eq!((options.count, options.seconds), (Some(2), None));
        assert_eq!((options.entries, options.names), (None, false));
    }

    #[test]
    fn sizes_of_the_cache() {
        for (number, is_taken) in [("0", false), ("1", true), ("512", true), ("513", false)] {
            let read = read(&format!("--service _voice._tcp --entries {number}"));
            assert_eq!(read.is_ok(), is_taken, "{number}");
        }
    }

    #[test]
    fn what_is_wrong_is_said() {
        assert_eq!(read("--help --dog"), Ok(None));
        assert!(read("").unwrap_err().starts_with("--service is missing"));
        assert!(read("--service _voice").unwrap_err().contains("such as"));
        assert!(read("--interface a/b").unwrap_err().contains("can't be"));
    }
}
