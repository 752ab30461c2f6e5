//! The command line.

use crate::link::Asked;
use crate::premises::{Limits, DEMANDED};

pub const USAGE: &str =
    "usage: linksim [--console PATH] [--lists N | --seconds T] [--seed S] [--delay MS] [--unicast MS] [--late MS] [--joined PERCENT]
               [--alone PERCENT] [--asked all|demands|contention]
  --delay and --unicast (of packets by unicast) above 100, and --late above 50, break the premises of demand 3 on purpose";

#[derive(Debug, PartialEq, Eq)]
pub struct Options {
    pub console: String,
    pub lists: u64,
    pub seconds: Option<u64>,
    /// Of the first list; each next has the next seed.
    pub seed: u64,
    pub limits: Limits,
    /// In percent: how many lists are of groups that ran apart and are joined.
    pub joined: u64,
    /// In percent: how many are left alone: nobody is cut, stopped or updated, and strangers send no responses of their own.
    pub alone: u64,
    pub asked: Asked,
}

impl Options {
    pub fn read(mut words: impl Iterator<Item = String>) -> Result<Options, String> {
        let mut options = Options {
            console: "target/bin/console".to_string(),
            lists: 1000,
            seconds: None,
            seed: 1,
            limits: DEMANDED,
            joined: 25,
            alone: 35,
            asked: Asked::All,
        };
        while let Some(word) = words.next() {
            let value = words.next().ok_or(format!("{word} needs a value"))?;
            let number = || {
                let number = value.parse::<u64>();
                number.map_err(|_| format!("{word} needs a number, not {value}"))
            };
            match word.as_str() {
                "--console" => options.console = value,
                "--lists" => options.lists = number()?,
                "--seconds" => options.seconds = Some(number()?),
                "--seed" => options.seed = number()?,
                "--delay" => options.limits.delay = number()?,
                "--unicast" => options.limits.unicast = number()?,
                "--joined" => options.joined = number()?,
                "--alone" => options.alone = number()?,
                "--asked" => {
                    options.asked = match value.as_str() {
                        "all" => Asked::All,
                        "demands" => Asked::Demands,
                        "contention" => Asked::Contention,
                        _ => {
                            return Err(format!(
                                "{word} needs all, demands or contention, not {value}"
                            ))
                        }
                    }
                }
                "--late" => options.limits.late = number()?,
                _ => return Err(format!("{word} is no option")),
            }
        }
        Ok(options)
    }
}

#[cfg(test)]
mod tests {
    use super::*;

    fn read(line: &str) -> Result<Options, String> {
        Options::read(line.split_whitespace().map(str::to_string))
    }

    #[test]
    fn options() {
        let options = read("--delay 600 --seed 7 --unicast 7").unwrap();
        let limits = options.limits;
        assert_eq!((limits.delay, limits.unicast, limits.late), (600, 7, 50));
        assert_eq!((options.seed, options.seconds), (7, None));
        assert_eq!(read("--asked contention").unwrap().asked, Asked::Contention);
        assert!(read("--asked nothing").is_err());
        assert!(read("--late").is_err());
        assert!(read("--late soon").is_err());
        assert!(read("--early 3").is_err());
    }
}
