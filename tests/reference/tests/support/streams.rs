//! Streams of arrivals, most of them made to hurt: they look at the network
//! and send what its answers are worst prepared for. In each of them one
//! arrival in ten is a touch.

use reference::message::Arrival;
use reference::site::counter_at;

use super::{arrival, Random, TestNetwork};

/// The kinds of streams.
#[derive(Clone, Copy, Debug)]
pub enum Stream {
    /// Anything anywhere.
    Uniform,
    /// Few items are frequent, and all arrive at site 0.
    OneSite,
    /// Few items are frequent, and the sites take turns.
    RoundRobin,
    /// Ever new items evict each other; every so often item 0 comes, whose
    /// share stays close to phi.
    Flood,
    /// Items are held one short of a report at every site, then released.
    OneShort,
    /// The sites are held one short of a count report, then released, and
    /// values run away from the quantile.
    Hovering,
    /// Item 0 hovers around phi and the values around the rank.
    Borderline,
    /// Item 0 stays listed with as few arrivals as can be: others come wherever the coordinator
    /// does not hear of them, and elsewhere as long as item 0 stays listed.
    BarelyListed,
}

pub const ALL: [Stream; 8] = [
    Stream::Uniform,
    Stream::OneSite,
    Stream::RoundRobin,
    Stream::Flood,
    Stream::OneShort,
    Stream::Hovering,
    Stream::Borderline,
    Stream::BarelyListed,
];

/// A stream with what it remembers.
pub struct Source {
    stream: Stream,
    random: Random,
    /// Draws so far, and those of item 0.
    sent: u64,
    of_item_0: u64,
    /// The item that is held one short, and whether it is being released.
    held: u32,
    releasing: bool,
}

impl Source {
    pub fn new(stream: Stream, seed: u64) -> Source {
        println!("stream {stream:?}");
        let random = Random::new(seed);
        Source { stream, random, sent: 0, of_item_0: 0, held: 0, releasing: false }
    }

    /// The next arrival, given the network that took the others. After a touch
    /// the stream stands where it stood.
    pub fn next(&mut self, network: &TestNetwork) -> Arrival {
        let mut next = match self.stream {
            Stream::Uniform => self.uniform(network),
            Stream::OneSite => Arrival { site: 0, ..self.skewed(network) },
            Stream::RoundRobin => self.skewed(network),
            Stream::Flood => self.flood(network),
            Stream::OneShort => self.one_short(network),
            Stream::Hovering => self.hovering(network),
            Stream::Borderline => self.borderline(network),
            Stream::BarelyListed => self.barely_listed(network),
        };
        next.value = self.random.value_or_touch(next.value);
        if next.is_draw() {
            self.sent += 1;
            self.of_item_0 += u64::from(next.item == 0);
        }
        next
    }

    fn turn(&self, network: &TestNetwork) -> u32 {
        (self.sent % u64::from(network.settings.sites)) as u32
    }

    fn uniform(&mut self, network: &TestNetwork) -> Arrival {
        let settings = &network.settings;
        let (site, item) =
            (self.random.below32(settings.sites), self.random.below32(settings.universe));
        arrival(site, item, self.random.between(1, 1023))
    }

    /// Item i comes about half as often as item i / 2.
    fn skewed(&mut self, network: &TestNetwork) -> Arrival {
        let item_bound = 1 << self.random.below(17);
        let item = self.random.below32(item_bound) % network.settings.universe;
        let value_bound = 1 << self.random.below(11);
        let value = self.random.below32(value_bound).max(1);
        arrival(self.turn(network), item, value)
    }

    fn flood(&mut self, network: &TestNetwork) -> Arrival {
        let short = 1000 * self.of_item_0 < u64::from(network.settings.phi) * self.sent;
        let item =
            if short { 0 } else { (self.sent % u64::from(network.settings.universe)) as u32 };
        arrival(self.turn(network), item, 1 + (self.sent % 1023) as u32)
    }

    /// Sends the held item where it stays one short; when it is so everywhere,
    /// the next item is held. At the end all are released, site by site.
    fn one_short(&mut self, network: &TestNetwork) -> Arrival {
        let settings = &network.settings;
        if self.random.one_in(500) {
            self.releasing = !self.releasing;
        }
        let sites = settings.sites;
        let start = self.turn(network);
        for step in 0..sites {
            let site = (start + step) % sites;
            let short = unreported(network, site, self.held) + 1
                < network.sites.records[site as usize].threshold;
            if short != self.releasing {
                return arrival(site, self.held, 1 + self.held % 1023);
            }
        }
        // Few items only, so that each is held again and again.
        self.held = (self.held + 1) % settings.universe.min(settings.capacity / 2 + 1);
        arrival(start, self.held, 1023 - self.held % 1023)
    }

    fn hovering(&mut self, network: &TestNetwork) -> Arrival {
        if self.random.one_in(200) {
            self.releasing = !self.releasing;
        }
        let settings = &network.settings;
        let short = |site: &u32| {
            let record = &network.sites.records[*site as usize];
            (record.pending + 1 < record.threshold) != self.releasing
        };
        let site = (0..settings.sites).find(short).unwrap_or(self.turn(network));
        let value = match network.quantile() {
            Some(quantile) if quantile >= 512 => 1,
            Some(_) => 1023,
            None => 512,
        };
        // The item that is listed last gets no more; the one after it does.
        let item = network.heavy_hitters().last().map_or(0, |last| last + 1);
        arrival(site, item % settings.universe, value)
    }

    fn borderline(&mut self, network: &TestNetwork) -> Arrival {
        let settings = &network.settings;
        let short = 1000 * self.of_item_0 < u64::from(settings.phi - settings.epsilon) * self.sent;
        let item = if short { 0 } else { 1 + self.random.below32(settings.universe) };
        let low = self.random.below32(1000) < settings.rank;
        let value = if low { 511 - self.random.below32(2) } else { 512 };
        arrival(self.turn(network), item % settings.universe, value)
    }

    fn barely_listed(&mut self, network: &TestNetwork) -> Arrival {
        let settings = &network.settings;
        let (total, threshold) = (network.coordinator.total, network.coordinator.threshold);
        let held = 2000 * network.coordinator_memory[0];
        let needed = u64::from(2 * settings.phi - settings.epsilon);
        let sites = 0..settings.sites;
        let silent = sites.clone().find(|&site| {
            let record = &network.sites.records[site as usize];
            record.pending + 1 < record.threshold
        });
        let is_listed = total >= 1 && held >= needed * total;
        let stays_listed = held >= needed * (total + threshold);
        if is_listed && (stays_listed || silent.is_some()) {
            let item = (1 + self.random.below32(settings.universe)) % settings.universe;
            return arrival(silent.unwrap_or(self.turn(network)), item, 1);
        }
        // Where the site holds back most of item 0, the coordinator hears of it soonest.
        let site = sites.max_by_key(|&site| unreported(network, site, 0)).unwrap_or(0);
        arrival(site, 0, 1)
    }
}

/// What a site holds back of an item.
pub fn unreported(network: &TestNetwork, site: u32, item: u32) -> u64 {
    let used = network.sites.records[site as usize].used as usize;
    let memory = network.memory_of(site);
    let counters = (0..used).filter_map(|place| counter_at(memory, place));
    let found = counters.into_iter().find(|counter| counter.item == item);
    found.map_or(0, |counter| counter.unreported())
}
