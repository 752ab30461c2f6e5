//! A browser: who offers a service, as a cache has heard it, and the queries that keep the cache up to date.

use crate::cache::{Cache, Entry};
use crate::responder::Ticked;
use crate::Refusal;

#[repr(C)]
#[derive(Clone, Copy)]
struct Numbers {
    service: [u8; 16],
    protocol: [u8; 4],
    domain: [u8; 5],
    service_length: u64,
    draw: u64,
    refresh: u64,
    series: u64,
    count: u64,
    query: u64,
    owed: u64,
    last: u64,
}

#[repr(C)]
struct BegunNumbers {
    refusal: u8,
    browser: Numbers,
}

#[repr(C)]
struct AskedNumbers {
    refusal: u8,
    more: bool,
    length: usize,
    browser: Numbers,
}

#[repr(C)]
struct ListedNumbers {
    refusal: u8,
    found: bool,
    slot: usize,
}

#[repr(C)]
struct DueNumbers {
    refusal: u8,
    time: u64,
}

extern "C" {
    #[allow(clippy::too_many_arguments)]
    fn kurgashel_browse_start(
        service: *const u8,
        service_bytes: usize,
        protocol: *const u8,
        protocol_bytes: usize,
        domain: *const u8,
        domain_bytes: usize,
        now: u64,
        draw: u64,
        refresh: u64,
    ) -> BegunNumbers;
    #[allow(clippy::too_many_arguments)]
    fn kurgashel_browse_tick(
        table: *const Entry,
        entries: usize,
        store: *const u8,
        store_bytes: usize,
        browser: Numbers,
        now: u64,
        out: *mut u8,
        out_bytes: usize,
    ) -> AskedNumbers;
    #[allow(clippy::too_many_arguments)]
    fn kurgashel_browse_list(
        table: *const Entry,
        entries: usize,
        store: *const u8,
        store_bytes: usize,
        browser: Numbers,
        now: u64,
        from: usize,
    ) -> ListedNumbers;
    fn kurgashel_browse_due(
        table: *const Entry,
        entries: usize,
        store: *const u8,
        store_bytes: usize,
        browser: Numbers,
        now: u64,
    ) -> DueNumbers;
}

/// The random numbers that a browser starts with ([`Refusal::Draw`]).
#[derive(Clone, Copy, Debug, PartialEq, Eq)]
pub struct BrowserDraws {
    /// 20 to 120: how many milliseconds the first query waits.
    pub first: u64,
    /// 0 to 20: how many thousandths of a TTL its queries for records about to lapse are late.
    pub refresh: u64,
}

/// A browser for one service. It can be copied; the cache that it reads is handed to each call.
#[derive(Clone, Copy)]
pub struct Browser {
    numbers: Numbers,
}

/// An instance of the service.
#[derive(Clone, Copy, Debug, PartialEq, Eq)]
pub struct Listed<'a> {
    /// The slot of its PTR record in the cache.
    pub slot: usize,
    /// Its name, uncompressed, in wire form, spelled as it was heard.
    pub target: &'a [u8],
    /// When that record expires.
    pub expiry: u64,
}

/// The instances of a service at a time, each once, in the order of their slots.
pub struct Instances<'a> {
    browser: Browser,
    cache: &'a Cache,
    now: u64,
    next: Option<usize>,
}

impl Browser {
    /// Begins a browser for a service such as `_voice` over `_tcp`, in the domain `local`.
    pub fn start(
        service: &str,
        protocol: &str,
        now: u64,
        draws: BrowserDraws,
    ) -> Result<Browser, Refusal> {
        let domain = "local";
        // SAFETY: each pointer and count are those of one string; nothing is written.
        let begun = unsafe {
            kurgashel_browse_start(
                service.as_ptr(),
                service.len(),
                protocol.as_ptr(),
                protocol.len(),
                domain.as_ptr(),
                domain.len(),
                now,
                draws.first,
                draws.refresh,
            )
        };
        Refusal::check(begun.refusal).map(|()| Browser {
            numbers: begun.browser,
        })
    }

    /// Sends what is due, at most one packet, which is written to `out` and goes to all. Tick again at once where more is due.
    pub fn tick(&mut self, cache: &Cache, now: u64, out: &mut [u8]) -> Result<Ticked, Refusal> {
        let (table, store) = cache.lent();
        // SAFETY: each pointer and count are those of one slice; the last alone is written, and it is borrowed for this call alone.
        let asked = unsafe {
            kurgashel_browse_tick(
                table.as_ptr(),
                table.len(),
                store.as_ptr(),
                store.len(),
                self.numbers,
                now,
                out.as_mut_ptr(),
                out.len(),
            )
        };
        Refusal::check(asked.refusal)?;
        self.numbers = asked.browser;
        Ok(Ticked {
            length: asked.length,
            more: asked.more,
        })
    }

    /// When the next step is due, with the cache as it is: before that time a tick sends nothing. A message that the cache takes may bring it forward.
    pub fn due(&self, cache: &Cache, now: u64) -> Result<u64, Refusal> {
        let (table, store) = cache.lent();
        // SAFETY: each pointer and count are those of one slice; nothing is written.
        let due = unsafe {
            kurgashel_browse_due(
                table.as_ptr(),
                table.len(),
                store.as_ptr(),
                store.len(),
                self.numbers,
                now,
            )
        };
        Refusal::check(due.refusal).map(|()| due.time)
    }

    /// The instances of the service that the cache knows at a time.
    pub fn instances<'a>(&self, cache: &'a Cache, now: u64) -> Result<Instances<'a>, Refusal> {
        let next = self.list(cache, now, 0)?;
        Ok(Instances {
            browser: *self,
            cache,
            now,
            next,
        })
    }

    /// The lowest listed slot from a slot on.
    fn list(&self, cache: &Cache, now: u64, from: usize) -> Result<Option<usize>, Refusal> {
        let (table, store) = cache.lent();
        // SAFETY: each pointer and count are those of one slice; nothing is written.
        let listed = unsafe {
            kurgashel_browse_list(
                table.as_ptr(),
                table.len(),
                store.as_ptr(),
                store.len(),
                self.numbers,
                now,
                from,
            )
        };
        Refusal::check(listed.refusal).map(|()| listed.found.then_some(listed.slot))
    }
}

impl<'a> Iterator for Instances<'a> {
    type Item = Listed<'a>;

    fn next(&mut self) -> Option<Listed<'a>> {
        let slot = self.next?;
        // the first call was not refused, and nothing has changed since
        self.next = self
            .browser
            .list(self.cache, self.now, slot + 1)
            .expect("as the first");
        Some(Listed {
            slot,
            target: self.cache.rdata(slot),
            expiry: self.cache.lent().0[slot].expiry,
        })
    }
}
