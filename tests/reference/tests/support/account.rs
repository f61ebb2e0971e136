//! Request N1 held against a network: for each site the amounts of its item reports, all that is
//! unreported there and what it has forgotten make up its arrivals, in mid-delivery too.

use reference::message::{Message, ITEM_REPORT};
use reference::settings::Settings;
use reference::site::{counter_at, Counter, Departure, SiteRecord};

use super::TestNetwork;

/// What the item reports (kind 1) since a fresh start amount to, for each site that they name.
#[derive(Clone)]
pub struct Account {
    reported: Vec<u64>,
}

impl Account {
    pub fn start(settings: &Settings) -> Account {
        Account { reported: vec![0; settings.sites as usize] }
    }

    /// Messages that went out. Those of other kinds report no item.
    pub fn add(&mut self, messages: &[Message]) {
        for report in messages.iter().filter(|message| message.kind == ITEM_REPORT) {
            self.reported[report.site as usize] += report.b;
        }
    }

    /// The same with some messages more.
    pub fn with(&self, messages: &[Message]) -> Account {
        let mut account = self.clone();
        account.add(messages);
        account
    }

    /// The equation, at every site.
    pub fn check(&self, network: &TestNetwork) {
        for (site, &reported) in (0..).zip(&self.reported) {
            let record = &network.sites.records[site as usize];
            let held = all_unreported(&counters_of(record, network.memory_of(site)));
            assert_eq!(
                reported + held + record.dropped,
                record.arrivals,
                "site {site}: {reported} reported, {held} held, {record:?}"
            );
        }
    }
}

/// A site's counters in use, as far as its memory reaches.
pub fn counters_of(record: &SiteRecord, memory: &[u32]) -> Vec<Counter> {
    (0..record.used).map_while(|place| counter_at(memory, place as usize)).collect()
}

pub fn all_unreported(counters: &[Counter]) -> u64 {
    counters.iter().map(Counter::unreported).sum()
}

/// What lost its counter in an arrival, seen in the counters before and after it alone: the item
/// of a counter in use is another one afterwards.
pub fn departure_between(before: &[Counter], after: &[Counter]) -> Option<Departure> {
    let mut replaced = before.iter().zip(after).filter(|(old, new)| old.item != new.item);
    let left = replaced.next().map(|(old, _)| *old);
    assert!(replaced.next().is_none(), "one item leaves at most");
    left.map(|counter| Departure { item: counter.item, unreported: counter.unreported() })
}

/// Request N1 for one accepted draw, whatever the memory was: what was unreported or forgotten
/// before it, and the draw itself, is reported, unreported or forgotten after it.
pub fn check_draw(
    before: (&SiteRecord, &[Counter]),
    after: (&SiteRecord, &[Counter]),
    departure: Option<Departure>,
    sent: &[Message],
) {
    let (old, old_counters) = before;
    let (new, new_counters) = after;
    assert_eq!(departure, departure_between(old_counters, new_counters));
    let went = departure.map_or(0, |departure| departure.unreported);
    assert_eq!(new.dropped, old.dropped + went);
    let reports = sent.iter().filter(|message| message.kind == ITEM_REPORT);
    let reported: u64 = reports.map(|message| message.b).sum();
    assert_eq!(
        all_unreported(new_counters) + reported + new.dropped,
        all_unreported(old_counters) + 1 + old.dropped
    );
}
