//! The discovery proxy's command line.

use std::net::{Ipv4Addr, SocketAddrV4};

use crate::arguments::{unknown, Arguments};
use crate::name;

pub const HELP: &str = "\
proxy: answers unicast DNS for two delegated domains with what is said on a link by Multicast DNS (a discovery proxy, RFC 8766)

usage: proxy --listen ADDRESS --rich DOMAIN --host-domain DOMAIN --server NAME [options]

  --listen ADDRESS      the IPv4 address that clients ask, by UDP and by TCP, such as 192.0.2.1, or 192.0.2.1:5300 for another port than 53
  --rich DOMAIN         the domain of services, such as 'Building 1.example.com'; any text may stand in its labels, '\\.' is a dot in a label
  --host-domain DOMAIN  the domain of host names, of letters, digits and hyphens, such as 'building-1.example.com'
  --server NAME         the name of this server as the parent domain's NS record has it, outside both domains; may be given several times, others after it
  --mailbox NAME        the mailbox of who looks after it, in SOA's form, such as 'hostmaster.example.com'; else 'hostmaster' in the first server's domain
  --interface ADDRESS   the link to ask, by this machine's IPv4 address there; else the one that multicasts leave by
  --link-local          also pass addresses that no router passes on (169.254/16, fe80::/10)
  --entries NUMBER      how many records the cache has room for, 1 to 512; else 512
  --seconds NUMBER      stop after this many seconds; else on Ctrl-C or SIGTERM
  --verbose             also tell of each query
  --help                this text

A name under either domain is asked for on the link with 'local' in the domain's place. What the cache knows is answered at once; else the link is asked, and the
answer is sent when it comes, or after six seconds without one. Records come back with services under the one domain and hosts under the other, and with a TTL of
at most ten seconds. It ends with status 0 when stopped, 1 on an error, 2 when the command line is wrong and 4 when port 5353 is taken by a program that does not
share it.
";

const DNS_PORT: u16 = 53;

#[derive(Clone, Debug, PartialEq, Eq)]
pub struct Options {
    pub listen: SocketAddrV4,
    pub rich: Vec<u8>,
    pub host_domain: Vec<u8>,
    pub servers: Vec<Vec<u8>>,
    pub mailbox: Vec<u8>,
    pub interface: Option<Ipv4Addr>,
    pub link_local: bool,
    pub entries: usize,
    pub seconds: Option<u64>,
    pub verbose: bool,
}

impl Options {
    /// Reads a command line; nothing where help is asked for.
    pub fn read(arguments: Vec<String>) -> Result<Option<Options>, String> {
        let mut arguments = Arguments::new(arguments);
        let (mut listen, mut rich, mut host_domain, mut mailbox) = (None, None, None, None);
        let mut options = Options {
            listen: SocketAddrV4::new(Ipv4Addr::UNSPECIFIED, DNS_PORT),
            rich: Vec::new(),
            host_domain: Vec::new(),
            servers: Vec::new(),
            mailbox: Vec::new(),
            interface: None,
            link_local: false,
            entries: kurgashel::MOST_ENTRIES,
            seconds: None,
            verbose: false,
        };
        while let Some(option) = arguments.next_option() {
            match option.as_str() {
                "--help" | "-h" => return Ok(None),
                "--listen" => listen = Some(socket_address(&option, &arguments.text(&option)?)?),
                "--rich" => rich = Some(domain(&option, &arguments.text(&option)?)?),
                "--host-domain" => host_domain = Some(domain(&option, &arguments.text(&option)?)?),
                "--server" => {
                    let server = domain(&option, &arguments.text(&option)?)?;
                    options.servers.push(server);
                }
                "--mailbox" => mailbox = Some(domain(&option, &arguments.text(&option)?)?),
                "--interface" => options.interface = Some(arguments.value(&option)?),
                "--link-local" => options.link_local = true,
                "--entries" => options.entries = arguments.value(&option)?,
                "--seconds" => options.seconds = Some(arguments.value(&option)?),
                "--verbose" => options.verbose = true,
                _ => return Err(unknown(&option)),
            }
        }
        options.listen = listen.ok_or(missing("--listen"))?;
        options.rich = rich.ok_or(missing("--rich"))?;
        options.host_domain = host_domain.ok_or(missing("--host-domain"))?;
        let server = options.servers.first().ok_or(missing("--server"))?;
        options.mailbox = mailbox.unwrap_or_else(|| hostmaster(server));
        Ok(Some(options))
    }
}

fn missing(option: &str) -> String {
    format!("{option} is missing; --help tells more")
}

fn socket_address(option: &str, text: &str) -> Result<SocketAddrV4, String> {
    let alone = text.parse().map(|ip| SocketAddrV4::new(ip, DNS_PORT));
    alone
        .or_else(|_| text.parse())
        .map_err(|_| format!("{option} can't be '{text}'"))
}

fn domain(option: &str, text: &str) -> Result<Vec<u8>, String> {
    name::read(text).ok_or(format!("{option} can't be '{text}'"))
}

/// 'hostmaster' in the domain of a server.
fn hostmaster(server: &[u8]) -> Vec<u8> {
    let mut labels = name::labels(server);
    if let Some(first) = labels.first_mut() {
        *first = b"hostmaster";
    }
    name::from_labels(&labels)
}

#[cfg(test)]
mod tests {
    use super::*;

    fn read(words: &[&str]) -> Result<Option<Options>, String> {
        Options::read(words.iter().map(|word| word.to_string()).collect())
    }

    const WHOLE: [&str; 8] = [
        "--listen",
        "192.0.2.1:5300",
        "--rich",
        "Building 1.example",
        "--host-domain",
        "b1.example",
        "--server",
        "ns.example",
    ];

    #[test]
    fn a_command_line() {
        let options = read(&WHOLE).unwrap().unwrap();
        assert_eq!(
            options.listen,
            SocketAddrV4::new([192, 0, 2, 1].into(), 5300)
        );
        assert_eq!(options.rich, b"\x0aBuilding 1\x07example\0");
        assert_eq!(options.servers, [b"\x02ns\x07example\0"]);
        assert_eq!(options.mailbox, b"\x0ahostmaster\x07example\0");
        assert_eq!(options.entries, 512);
        let mut alone = WHOLE;
        alone[1] = "192.0.2.1";
        assert_eq!(read(&alone).unwrap().unwrap().listen.port(), 53);
    }

    #[test]
    fn what_is_wrong_is_said() {
        assert_eq!(read(&["--help"]), Ok(None));
        for at in [0, 2, 4, 6] {
            let mut words = WHOLE.to_vec();
            words.drain(at..at + 2);
            let said = format!("{} is missing; --help tells more", WHOLE[at]);
            assert_eq!(read(&words), Err(said));
        }
        assert_eq!(
            read(&["--rich", "a..b"]),
            Err("--rich can't be 'a..b'".into())
        );
        assert!(read(&["--listen", "x"]).unwrap_err().contains("can't be"));
    }
}
