//! The options by which a program is told where to work.

use crate::arguments::Arguments;
use crate::link::{self, Choice, Families, Interface, LinkError, Which};

#[derive(Clone, Debug, Default, PartialEq, Eq)]
pub struct Places {
    /// The interfaces; else the one that multicasts leave by.
    pub which: Option<Which>,
    pub families: Families,
}

impl Places {
    /// Takes an option, if it is one of these.
    pub fn take(&mut self, option: &str, arguments: &mut Arguments) -> Result<bool, String> {
        match option {
            "--interface" => {
                let text = arguments.text(option)?;
                let wrong =
                    format!("--interface can't be '{text}'; it is a name or an IPv4 address");
                self.choose(Which::read(&text).ok_or(wrong)?)?;
            }
            "--all-interfaces" => self.choose(Which::All)?,
            "--ipv4-only" => self.speak(Families::Ipv4)?,
            "--ipv6-only" => self.speak(Families::Ipv6)?,
            _ => return Ok(false),
        }
        Ok(true)
    }

    fn choose(&mut self, which: Which) -> Result<(), String> {
        match self.which.replace(which) {
            None => Ok(()),
            Some(_) => {
                Err("--interface and --all-interfaces are given once, and one of them".into())
            }
        }
    }

    fn speak(&mut self, families: Families) -> Result<(), String> {
        match std::mem::replace(&mut self.families, families) {
            Families::Both => Ok(()),
            _ => Err("--ipv4-only and --ipv6-only are given once, and one of them".into()),
        }
    }

    /// What is chosen; the interface that multicasts leave by is followed by its name.
    pub fn choice(&self) -> Result<Choice, LinkError> {
        let which = match &self.which {
            Some(which) => which.clone(),
            None => default_interface()?,
        };
        let families = self.families;
        Ok(Choice { which, families })
    }
}

fn default_interface() -> Result<Which, LinkError> {
    let address = link::default_interface()?;
    let found = Interface::of(address).ok().flatten();
    Ok(found.map_or(Which::At(address), |found| Which::Named(found.name)))
}

#[cfg(test)]
mod tests {
    use super::*;

    fn read(line: &str) -> Result<Places, String> {
        let mut arguments = Arguments::new(line.split_whitespace().map(str::to_string).collect());
        let mut places = Places::default();
        while let Some(option) = arguments.next_option() {
            assert!(places.take(&option, &mut arguments)?);
        }
        Ok(places)
    }

    #[test]
    fn where_a_program_works() {
        let named = read("--interface wire --ipv6-only").unwrap();
        assert_eq!(named.which, Some(Which::Named("wire".into())));
        assert_eq!(named.families, Families::Ipv6);
        assert_eq!(read("--all-interfaces").unwrap().which, Some(Which::All));
        assert_eq!(read("").unwrap(), Places::default());
        for bad in [
            "--interface fe80::1",
            "--interface a --all-interfaces",
            "--ipv4-only --ipv6-only",
            "--interface",
        ] {
            assert!(read(bad).is_err(), "{bad}");
        }
    }
}
