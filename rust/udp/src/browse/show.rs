//! Instances on the screen.

use kurgashel::{txt_lookup, Name, Pair};

use super::view::Instance;
use crate::{name, refusal, strings};

/// The instances shown last.
#[derive(Default)]
pub struct Screen {
    shown: Vec<Instance>,
}

impl Screen {
    pub fn count(&self) -> usize {
        self.shown.len()
    }

    /// The lines for what is new, changed, leaving or gone.
    pub fn changes(&mut self, instances: &[Instance], factory: &[u8]) -> Vec<String> {
        let mut lines = self.drop_gone(instances);
        let complete = instances.iter().filter(|instance| instance.is_complete());
        lines.extend(self.shown_anew(complete, factory));
        lines
    }

    /// The same where names alone are shown.
    pub fn changed_names(&mut self, names: &[Instance]) -> Vec<String> {
        let mut lines = self.drop_gone(names);
        lines.extend(self.shown_anew(names.iter(), b""));
        lines
    }

    fn shown_anew<'a>(
        &mut self,
        instances: impl Iterator<Item = &'a Instance>,
        factory: &[u8],
    ) -> Vec<String> {
        let mut lines = Vec::new();
        for instance in instances {
            let same = |shown: &&mut Instance| shown.name.eq_ignore_ascii_case(&instance.name);
            match self.shown.iter_mut().find(same) {
                Some(shown) if shown == instance => continue,
                Some(shown) => {
                    let left = instance.is_leaving && !shown.is_leaving;
                    *shown = instance.clone();
                    if left {
                        lines.push(format!("leaving   {}", label(instance)));
                    } else {
                        lines.extend(block("changed", instance, factory));
                    }
                }
                None => {
                    self.shown.push(instance.clone());
                    lines.extend(block("found", instance, factory));
                }
            }
        }
        lines
    }

    fn drop_gone(&mut self, instances: &[Instance]) -> Vec<String> {
        let mut lines = Vec::new();
        self.shown.retain(|shown| {
            let same = |instance: &Instance| instance.name.eq_ignore_ascii_case(&shown.name);
            let stays = instances.iter().any(same);
            if !stays {
                lines.push(format!("gone      {}", label(shown)));
            }
            stays
        });
        lines
    }
}

/// The instance's own label.
fn label(instance: &Instance) -> String {
    let name = Name::read(&instance.name, 0);
    name.map_or(String::new(), |name| name::shown(name.first_label()))
}

fn block(what: &str, instance: &Instance, factory: &[u8]) -> Vec<String> {
    let mut lines = vec![format!("{what:8}  {}", label(instance))];
    if let Some(server) = &instance.server {
        lines.push(format!("  host     {}", name::text(&server.host)));
        lines.push(format!("  port     {}", server.port));
    }
    for address in &instance.addresses {
        lines.push(format!("  address  {address}"));
    }
    if instance.no_ipv6 {
        lines.push("  address  no IPv6".to_string());
    }
    let txt = instance.txt.as_deref().unwrap_or_default();
    lines.extend(
        pairs(txt, factory)
            .iter()
            .map(|pair| format!("  txt      {pair}")),
    );
    lines
}

/// The TXT pairs: each key as the library reads it, the instance's first, then those that only the factory has.
fn pairs(txt: &[u8], factory: &[u8]) -> Vec<String> {
    let mut keys = strings::keys(txt);
    for key in strings::keys(factory) {
        if !keys.iter().any(|known| known.eq_ignore_ascii_case(key)) {
            keys.push(key);
        }
    }
    keys.iter().map(|key| pair(key, txt, factory)).collect()
}

fn pair(key: &[u8], txt: &[u8], factory: &[u8]) -> String {
    let shown = name::shown(key);
    match txt_lookup(key, txt, factory) {
        Ok(Pair::Absent) => format!("{shown} absent"),
        Ok(Pair::Present) => shown,
        Ok(Pair::Empty) => format!("{shown}="),
        Ok(Pair::Value(value)) => {
            // the value is a part of the TXT that held it
            let received = txt.as_ptr_range().contains(&value.as_ptr());
            let source = if received { "" } else { " (factory)" };
            format!("{shown}={}{source}", name::shown(value))
        }
        Err(refused) => format!("{shown} can't be asked for: {}", refusal::text(refused)),
    }
}

/// What an instance still lacks; nothing where it is complete.
pub fn lacking(instance: &Instance) -> Option<String> {
    let mut lacks = Vec::new();
    if instance.server.is_none() {
        lacks.push("SRV");
    }
    if instance.txt.is_none() {
        lacks.push("TXT");
    }
    if instance.addresses.is_empty() {
        lacks.push("address");
    }
    let lacks_some = !lacks.is_empty();
    lacks_some.then(|| {
        format!(
            "incomplete  {}: no {} was heard",
            label(instance),
            lacks.join(", no ")
        )
    })
}

#[cfg(test)]
mod tests {
    use super::super::view::tests::{host_name, instance_name};
    use super::super::view::Server;
    use super::*;

    fn instance() -> Instance {
        Instance {
            name: instance_name(),
            server: Some(Server {
                host: host_name(),
                port: 4000,
            }),
            txt: Some(b"\x06room=3\x07PassReq\x02e=\x06ROOM=4".to_vec()),
            addresses: vec![[10, 0, 0, 7].into()],
            no_ipv6: false,
            is_leaving: false,
        }
    }

    #[test]
    fn found_changed_and_gone() {
        let mut screen = Screen::default();
        let found = screen.changes(&[instance()], b"\x08volume=5\x06room=9");
        let expected = [
            "found     booth",
            "  host     dock.local",
            "  port     4000",
            "  address  10.0.0.7",
            "  txt      room=3",
            "  txt      PassReq",
            "  txt      e=",
            "  txt      volume=5 (factory)",
        ];
        assert_eq!(found, expected);
        assert!(screen.changes(&[instance()], b"").is_empty());
        let mut other = instance();
        other.addresses.push([10, 0, 0, 8].into());
        assert_eq!(screen.changes(&[other.clone()], b"")[0], "changed   booth");
        other.is_leaving = true;
        assert_eq!(screen.changes(&[other.clone()], b""), ["leaving   booth"]);
        assert!(screen.changes(&[other], b"").is_empty());
        assert_eq!(screen.changes(&[], b""), ["gone      booth"]);
        assert_eq!(screen.count(), 0);
    }

    #[test]
    fn an_incomplete_instance_is_not_shown() {
        let mut bare = instance();
        bare.server = None;
        bare.addresses = vec![];
        assert!(Screen::default().changes(&[bare.clone()], b"").is_empty());
        let lacks = "incomplete  booth: no SRV, no address was heard";
        assert_eq!(lacking(&bare), Some(lacks.into()));
        assert_eq!(lacking(&instance()), None);
    }

    #[test]
    fn names_alone() {
        let mut bare = instance();
        (bare.server, bare.txt, bare.addresses) = (None, None, vec![]);
        let mut screen = Screen::default();
        let found = screen.changed_names(std::slice::from_ref(&bare));
        assert_eq!(found, ["found     booth"]);
        assert_eq!(screen.count(), 1);
        bare.is_leaving = true;
        assert_eq!(screen.changed_names(&[bare]), ["leaving   booth"]);
        assert_eq!(screen.changed_names(&[]), ["gone      booth"]);
    }

    #[test]
    fn a_key_that_can_not_be_asked_for() {
        let shown = pairs(b"\x04a\x01=b", b"");
        assert!(shown[0].starts_with("a\\001 can't be asked for: refusal 9"));
    }
}
