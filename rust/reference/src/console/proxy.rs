//! The lines `proxy`, `question`, `answer` and `cached`.

use super::{at_most, hex, Console, Fields, Trouble};
use crate::name::Name;
use crate::proxy::{Asked, Given, Proxy};
use crate::refusal::Refusal;

impl Fields<'_> {
    /// "TYPE and CLASS over 65,535 [...] are `bad line`"
    fn two_bytes(&mut self) -> Result<u16, Trouble> {
        u16::try_from(self.number()?).map_err(|_| Trouble::BadLine)
    }
}

/// `record OWNER TYPE CLASS TTL RDATA`, or `left`
fn shown(record: Option<Given>) -> String {
    let Some(record) = record else {
        return "left".to_string();
    };
    let (owner, rdata) = (hex(&record.owner), hex(&record.rdata));
    let (rtype, class, ttl) = (record.rtype, record.class, record.ttl);
    format!("record {owner} {rtype} {class} {ttl} {rdata}")
}

impl Console {
    /// Before the first there is none, and every call is refused with 7.
    fn set_up_proxy(&self) -> Result<&Proxy, Refusal> {
        self.proxy.as_ref().ok_or(Refusal::Setup)
    }

    /// The domains, rich text first.
    pub fn proxy_domains(&self) -> Option<[&[u8]; 2]> {
        self.proxy.as_ref().map(Proxy::domains)
    }

    pub(super) fn proxy(&mut self, mut fields: Fields) -> Result<String, Trouble> {
        let rich = fields.bytes()?;
        let ldh = fields.bytes()?;
        fields.end()?;
        self.proxy = Some(Proxy::new(&rich, &ldh)?);
        Ok("proxied".to_string())
    }

    pub(super) fn question(&self, mut fields: Fields) -> Result<String, Trouble> {
        let name = fields.bytes()?;
        let rtype = fields.two_bytes()?;
        fields.end()?;
        let name = Name::from_wire(&name)?;
        Ok(match self.set_up_proxy()?.question(&name, rtype)? {
            Asked::Ask(name) => format!("ask {}", hex(&name)),
            Asked::Negative => "negative".to_string(),
        })
    }

    pub(super) fn proxied_answer(&self, mut fields: Fields) -> Result<String, Trouble> {
        let given = Given {
            owner: fields.bytes()?,
            rtype: fields.two_bytes()?,
            class: fields.two_bytes()?,
            ttl: u32::try_from(fields.number()?).map_err(|_| Trouble::BadLine)?,
            rdata: fields.bytes()?,
        };
        fields.end()?;
        Ok(shown(self.set_up_proxy()?.answer(&given)?))
    }

    pub(super) fn proxied_entry(&self, mut fields: Fields) -> Result<String, Trouble> {
        let now = fields.number()?;
        let slot = fields.number()?;
        fields.end()?;
        // "K at or past N is `bad line`"
        let last = self.cache.entries().len().checked_sub(1);
        let slot = at_most(slot, last.ok_or(Trouble::BadLine)?)?;
        self.cache.check_time(now)?;
        self.cache.check_sizes()?;
        let proxy = self.set_up_proxy()?;
        Ok(shown(proxy.cached(&self.cache, now, slot)?))
    }
}
