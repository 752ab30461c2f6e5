//! Command lines: options with a value each, and help.

use std::path::Path;
use std::str::FromStr;

/// The arguments that are left.
pub struct Arguments {
    rest: std::vec::IntoIter<String>,
}

impl Arguments {
    pub fn new(arguments: Vec<String>) -> Arguments {
        Arguments {
            rest: arguments.into_iter(),
        }
    }

    pub fn next_option(&mut self) -> Option<String> {
        self.rest.next()
    }

    pub fn text(&mut self, option: &str) -> Result<String, String> {
        self.rest.next().ok_or(format!("{option} needs a value"))
    }

    /// A number or an address.
    pub fn value<T: FromStr>(&mut self, option: &str) -> Result<T, String> {
        let text = self.text(option)?;
        let wrong = format!("{option} can't be '{text}'");
        text.parse().map_err(|_| wrong)
    }
}

pub fn unknown(option: &str) -> String {
    format!("there is no option '{option}'; --help lists them")
}

/// A help, by the name that the program was called by: it is 'kurgashel-responder' where the responder is installed.
pub fn named(help: &str) -> String {
    let path = std::env::args_os().next().unwrap_or_default();
    let file = Path::new(&path).file_name().unwrap_or_default();
    with_name(help, &file.to_string_lossy())
}

/// A help, which begins with the program's name and a colon, with another name in the place of that: there, and in the line of its usage.
fn with_name(help: &str, name: &str) -> String {
    let Some((own, rest)) = help.split_once(':').filter(|_| !name.is_empty()) else {
        return help.to_string();
    };
    let usage = |name| format!("\nusage: {name} ");
    format!("{name}:{}", rest.replacen(&usage(own), &usage(name), 1))
}

#[cfg(test)]
mod tests {
    use super::*;

    fn of(words: &[&str]) -> Arguments {
        Arguments::new(words.iter().map(|word| word.to_string()).collect())
    }

    #[test]
    fn values() {
        let mut arguments = of(&["--port", "4000", "x"]);
        let option = arguments.next_option().unwrap();
        assert_eq!(arguments.value::<u16>(&option), Ok(4000));
        assert_eq!(
            arguments.value::<u16>("--port"),
            Err("--port can't be 'x'".into())
        );
        assert_eq!(arguments.text("--txt"), Err("--txt needs a value".into()));
    }

    #[test]
    fn a_help_by_another_name() {
        let help = "proxy: for a proxy\n\nusage: proxy --proxy\n\n  --proxy  a proxy\n";
        let other = help.replace("proxy: ", "x-proxy: ");
        let other = other.replace("usage: proxy", "usage: x-proxy");
        assert_eq!(with_name(help, "x-proxy"), other);
        assert_eq!(with_name(help, "proxy"), help);
        assert_eq!(with_name(help, ""), help);
    }
}
