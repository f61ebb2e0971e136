//! Sites and coordinator written out plainly, with loops over sites where the
//! messages of document 01 go back and forth, to hold the others against.

use reference::message::{Arrival, Message};
use reference::settings::Settings;
use reference::site::{Counter, Departure};

use super::message;

/// A site with Space-Saving as document 01's paragraph on the deck has it.
#[derive(Clone, Debug)]
pub struct PlainSite {
    pub site: u32,
    pub counters: Vec<Counter>,
    pub capacity: usize,
    pub pending: u64,
    /// What lost its counter here, in order: request N1's replacements.
    pub departures: Vec<Departure>,
}

impl PlainSite {
    /// A site of which these counters are in use, and which forgot nothing yet.
    pub fn of(site: u32, counters: Vec<Counter>, capacity: usize, pending: u64) -> PlainSite {
        PlainSite { site, counters, capacity, pending, departures: Vec::new() }
    }

    /// What went with all that left: request N1's forgotten draws.
    pub fn dropped(&self) -> u64 {
        self.departures.iter().map(|departure| departure.unreported).sum()
    }

    /// The reports that follow an item of this value.
    pub fn observe(&mut self, item: u32, value: u32, threshold: u64) -> Vec<Message> {
        let place = self.count(item);
        let counter = &mut self.counters[place];
        let unreported = u64::from(counter.count - counter.overestimate - counter.reported);
        let mut sent = Vec::new();
        if unreported >= threshold {
            sent.push(message(1, self.site, u64::from(item), unreported));
            counter.reported += unreported as u32;
        }
        self.pending += 1;
        if self.pending >= threshold {
            let value = if threshold == 1 { u64::from(value) } else { 0 };
            sent.push(message(2, self.site, self.pending, value));
            self.pending = 0;
        }
        sent
    }

    fn count(&mut self, item: u32) -> usize {
        if let Some(place) = self.counters.iter().position(|counter| counter.item == item) {
            self.counters[place].count += 1;
            return place;
        }
        if self.counters.len() < self.capacity {
            self.counters.push(Counter { item, count: 1, overestimate: 0, reported: 0 });
            return self.counters.len() - 1;
        }
        let key = |place: &usize| (self.counters[*place].count, self.counters[*place].item, *place);
        let place = (0..self.capacity).min_by_key(key).expect("there is a counter");
        let Counter { item: left, count, overestimate, reported } = self.counters[place];
        let unreported = u64::from(count - overestimate - reported);
        self.departures.push(Departure { item: left, unreported });
        self.counters[place] = Counter { item, count: count + 1, overestimate: count, reported: 0 };
        place
    }
}

/// A network from its fresh start on. It keeps all values that were drawn.
pub struct PlainNetwork {
    settings: Settings,
    pub sites: Vec<PlainSite>,
    drawn: Vec<(u32, u32)>,
    pub estimates: Vec<u64>,
    pub total: u64,
    pub base: u64,
    pub threshold: u64,
    pub signals: u64,
    pub quantile: u64,
}

impl PlainNetwork {
    pub fn start(settings: Settings) -> PlainNetwork {
        let capacity = settings.capacity as usize;
        let site = |site| PlainSite::of(site, Vec::new(), capacity, 0);
        PlainNetwork {
            settings,
            sites: (0..settings.sites).map(site).collect(),
            drawn: Vec::new(),
            estimates: vec![0; settings.universe as usize],
            total: 0,
            base: 0,
            threshold: 1,
            signals: 0,
            quantile: 0,
        }
    }

    /// All messages that follow an arrival. A touch is passed over.
    pub fn take(&mut self, arrival: Arrival) -> Vec<Message> {
        if !arrival.is_draw() {
            return Vec::new();
        }
        self.drawn.push((arrival.site, arrival.value));
        let site = &mut self.sites[arrival.site as usize];
        let mut sent = site.observe(arrival.item, arrival.value, self.threshold);
        for report in sent.clone() {
            if report.kind == 1 {
                self.estimates[report.a as usize] += report.b;
            } else {
                self.total += report.a;
                self.signals += 1;
            }
        }
        if self.signals == u64::from(self.settings.sites) {
            self.close(&mut sent);
        }
        sent
    }

    /// The items that the list rule lists, in rising order.
    pub fn listed(&self) -> impl Iterator<Item = usize> + '_ {
        let asked = u64::from(2 * self.settings.phi - self.settings.epsilon) * self.total;
        let is_listed =
            move |&(_, &number): &(usize, &u64)| self.total >= 1 && 2000 * number >= asked;
        self.estimates.iter().enumerate().filter(is_listed).map(|(item, _)| item)
    }

    fn close(&mut self, sent: &mut Vec<Message>) {
        for site in &mut self.sites {
            sent.push(message(3, site.site, 0, 0));
            sent.push(message(4, site.site, site.pending, 0));
            self.total += site.pending;
            site.pending = 0;
        }
        self.base = self.total;
        let (epsilon, sites) = (u64::from(self.settings.epsilon), u64::from(self.settings.sites));
        self.threshold = (epsilon * self.base / (3000 * sites)).max(1);
        if self.threshold >= 2 {
            self.quantile = self.halve(sent);
        }
        for site in 0..self.settings.sites {
            sent.push(message(7, site, self.threshold, self.base));
        }
        self.signals = 0;
    }

    fn halve(&self, sent: &mut Vec<Message>) -> u64 {
        let (mut low, mut high) = (0, 1023);
        while low != high {
            let middle = (low + high) / 2;
            let mut sum = 0;
            for site in 0..self.settings.sites {
                let below = |draw: &&(u32, u32)| draw.0 == site && draw.1 <= middle;
                let count = self.drawn.iter().filter(below).count() as u64;
                sent.push(message(5, site, u64::from(middle), 0));
                sent.push(message(6, site, u64::from(middle), count));
                sum += count;
            }
            if 1000 * sum >= u64::from(self.settings.rank) * self.base {
                high = middle;
            } else {
                low = middle + 1;
            }
        }
        u64::from(low)
    }
}
