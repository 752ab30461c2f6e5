//! The responder's command line.

use std::net::{Ipv4Addr, Ipv6Addr};

use super::rename::{label, Kind};
use crate::arguments::{unknown, Arguments};
use crate::link::Place;
use crate::places::Places;
use crate::recording::Start;
use crate::{name, strings};

pub const HELP: &str = "\
responder: claims an instance name and a host name by Multicast DNS and answers for them

usage: responder --instance LABEL --service TYPE --host LABEL --port NUMBER [options]

  --instance LABEL     the instance's label, such as 'booth': 1..63 bytes, no control characters
  --service TYPE       the service, such as '_voice._tcp'
  --host LABEL         the host's label, such as 'dock' for dock.local
  --port NUMBER        the port that the service listens on (in SRV)
  --txt STRING         a TXT string, such as 'room=3'; may be given several times
  --address IPV4       the host's address (in A); else the interface's
  --address6 IPV6      the host's IPv6 address (in AAAA); else the interface's, if it has one
  --interface WHICH    the interface to use, by its name, or by an IPv4 address of it, which no other responder on this machine uses; else the one that
                       multicasts leave by
  --all-interfaces     each interface that is up and multicast, with a responder of its own
  --ipv4-only          speak IPv4 alone, and tell no IPv6 address but --address6
  --ipv6-only          speak IPv6 alone
  --rename             where a name is lost, take another: 'booth (2)' for an instance, 'dock-2' for a host, and so on
  --draw NUMBER        wait this many milliseconds (0..250) before the first probe; else a random time
  --at MILLISECONDS    begin at this time of the wall clock (since 1970), so that several begin together
  --seconds NUMBER     stop after this many seconds; else on Ctrl-C or SIGTERM
  --control            take lines from standard input: 'port NUMBER' changes the port, 'txt STRING ..' all TXT strings, such as
                       txt room=4 \"note=third floor\"
  --trace FILE         record what happens, for 'player' and 'timeline'; where FILE is there already, FILE.2 and so on
  --verbose            also tell of each packet that the library refuses, and of unicast answers that can't be sent
  --help               this text

It prints one line for each change of a claim: waiting, probing, deferred, held or lost. Without --rename a lost name is lost for good: start again with another.
When it stops, it says goodbye for the names that it holds, so that others forget them within a second.
A changed port or TXT is announced at once where the name is held; else it is claimed anew with it. There may be one change every six seconds.
When its interface is down it waits; when it is up again, or has other addresses, it claims its names anew.
Once a name is held, plain DNS clients are answered too, such as 'dig -p 5353 @ADDRESS dock.local A', if they are in a subnet of the interface.
It hears what is sent to 224.0.0.251, to ff02::fb and to its own addresses, port 5353, also beside programs such as Avahi that are bound to all addresses.
Where NOTIFY_SOCKET is set it tells a supervisor READY=1, STATUS= and STOPPING=1, and WATCHDOG=1 at half of WATCHDOG_USEC.
It ends with a status: 0 when stopped, 1 on an error of the system, 2 when the command line is wrong or the library refuses its names or data, 3 when both names
are lost, 4 when port 5353 is taken by a program that does not share it.
";

#[derive(Clone, Debug, Default, PartialEq, Eq)]
pub struct Options {
    pub instance: String,
    pub service: String,
    pub protocol: String,
    pub host: String,
    pub port: u16,
    pub txt: Vec<u8>,
    pub address: Option<Ipv4Addr>,
    pub address6: Option<Ipv6Addr>,
    pub places: Places,
    pub rename: bool,
    pub draw: Option<u64>,
    pub at: Option<u64>,
    pub seconds: Option<u64>,
    pub control: bool,
    pub trace: Option<String>,
    pub verbose: bool,
}

impl Options {
    /// Reads a command line; nothing where help is asked for.
    pub fn read(arguments: Vec<String>) -> Result<Option<Options>, String> {
        let mut arguments = Arguments::new(arguments);
        let mut options = Options::default();
        let mut txt = Vec::new();
        let mut port = None;
        while let Some(option) = arguments.next_option() {
            if options.places.take(&option, &mut arguments)? {
                continue;
            }
            match option.as_str() {
                "--help" | "-h" => return Ok(None),
                "--instance" => options.instance = arguments.text(&option)?,
                "--service" => options.take_service(&arguments.text(&option)?)?,
                "--host" => options.host = arguments.text(&option)?,
                "--port" => port = Some(arguments.value(&option)?),
                "--txt" => txt.push(arguments.text(&option)?),
                "--address" => options.address = Some(arguments.value(&option)?),
                "--address6" => options.address6 = Some(arguments.value(&option)?),
                "--rename" => options.rename = true,
                "--draw" => options.draw = Some(arguments.value(&option)?),
                "--at" => options.at = Some(arguments.value(&option)?),
                "--seconds" => options.seconds = Some(arguments.value(&option)?),
                "--control" => options.control = true,
                "--trace" => options.trace = Some(arguments.text(&option)?),
                "--verbose" => options.verbose = true,
                _ => return Err(unknown(&option)),
            }
        }
        options.txt = strings::encode(&txt).ok_or("a TXT string is over 255 bytes")?;
        options.port = port.ok_or("--port is missing")?;
        options.check_given()?;
        Ok(Some(options))
    }

    fn take_service(&mut self, text: &str) -> Result<(), String> {
        let wrong = format!("--service can't be '{text}'; it is such as '_voice._tcp'");
        let (service, protocol) = name::service(text).ok_or(wrong)?;
        self.service = service.to_string();
        self.protocol = protocol.to_string();
        Ok(())
    }

    fn check_given(&self) -> Result<(), String> {
        for (option, value) in [
            ("--instance", &self.instance),
            ("--service", &self.service),
            ("--host", &self.host),
        ] {
            if value.is_empty() {
                return Err(format!("{option} is missing; --help tells more"));
            }
        }
        Ok(())
    }

    /// The labels of the instance and of the host at the tries of these numbers.
    pub fn labels(&self, tries: [u32; 2]) -> [String; 2] {
        let [instance, host] = tries;
        [
            label(&self.instance, Kind::Instance, instance),
            label(&self.host, Kind::Host, host),
        ]
    }

    /// How the library is started at a place, at the tries of these numbers; nothing where there is no address for the A, which a host always has.
    pub fn start(&self, place: &Place, tries: [u32; 2], now: u64, draw: u64) -> Option<Start> {
        let [instance, host] = self.labels(tries);
        Some(Start {
            now,
            draw,
            instance: instance.into(),
            service: self.service.clone().into(),
            protocol: self.protocol.clone().into(),
            host: host.into(),
            domain: b"local".to_vec(),
            port: self.port,
            txt: self.txt.clone(),
            a: self.address.or(place.a)?.octets(),
            aaaa: self.address6.or(place.aaaa).map(|address| address.octets()),
        })
    }
}

#[cfg(test)]
mod tests {
    use super::*;

    const LEAST: &str = "--instance booth --service _voice._tcp --host dock --port 4000";

    fn read(line: &str) -> Result<Option<Options>, String> {
        Options::read(line.split_whitespace().map(str::to_string).collect())
    }

    #[test]
    fn the_least_command_line() {
        let options = read(LEAST).unwrap().unwrap();
        assert_eq!(options.instance, "booth");
        assert_eq!((&*options.service, &*options.protocol), ("_voice", "_tcp"));
        assert_eq!((&*options.host, options.port), ("dock", 4000));
        assert_eq!(options.txt, [0]);
        assert_eq!((options.address, options.address6), (None, None));
    }

    #[test]
    fn addresses_and_txt() {
        let line = format!("{LEAST} --txt a=1 --txt b --address 10.0.0.8 --address6 fe80::1");
        let options = read(&line).unwrap().unwrap();
        assert_eq!(options.txt, b"\x03a=1\x01b");
        assert_eq!(options.address, Some(Ipv4Addr::new(10, 0, 0, 8)));
        assert_eq!(options.address6.unwrap().octets()[..2], [0xfe, 0x80]);
    }

    #[test]
    fn what_is_wrong_is_said() {
        assert_eq!(read("--help"), Ok(None));
        assert_eq!(read(""), Err("--port is missing".into()));
        assert!(read("--port 1").unwrap_err().starts_with("--instance"));
        assert!(read("--dog").unwrap_err().contains("no option '--dog'"));
        assert!(read("--service voice").unwrap_err().contains("_voice._tcp"));
        assert!(read("--port 65536").unwrap_err().contains("can't be"));
        let long = format!("{LEAST} --txt {}", "x".repeat(256));
        assert!(read(&long).unwrap_err().contains("255"));
    }
}
