//! Streams of draws: uniform, Zipf, and two that replace a counter at nearly every arrival. Values
//! run from 1 to 1023, so that no arrival is a touch.

use reference::message::Arrival;
use reference::settings::MAX_VALUE;

/// How many values a draw may have.
const VALUES: u64 = MAX_VALUE as u64;

#[derive(Clone, Copy, Debug, PartialEq)]
pub enum Stream {
    Uniform,
    /// Item i comes in proportion to 1 / (i + 1); value v in proportion to 1 / v.
    Zipf,
    /// The items in turn, so that with more items than counters each is a new one.
    EverNew,
    /// The same, but item 0 keeps a share p of all arrivals.
    Flood,
}

pub const ALL: [(&str, Stream); 4] = [
    ("uniform", Stream::Uniform),
    ("Zipf", Stream::Zipf),
    ("ever new", Stream::EverNew),
    ("flood", Stream::Flood),
];

/// A stream, with where it stands.
pub struct Source {
    stream: Stream,
    sites: u64,
    phi: u64,
    universe: u64,
    items: Vec<u64>,
    values: Vec<u64>,
    state: u64,
    /// Arrivals so far, and those of item 0.
    pub sent: u64,
    of_item_0: u64,
}

impl Source {
    pub fn new(stream: Stream, settings: [u32; 6], seed: u64) -> Source {
        let [sites, _, phi, _, _, universe] = settings.map(u64::from);
        Source {
            stream,
            sites,
            phi,
            universe,
            items: weights(universe),
            values: weights(VALUES),
            state: seed,
            sent: 0,
            of_item_0: 0,
        }
    }

    /// The next arrivals.
    pub fn take(&mut self, count: usize) -> Vec<Arrival> {
        (0..count).map(|_| self.next()).collect()
    }

    fn next(&mut self) -> Arrival {
        let turn = self.sent % self.sites;
        let in_turn = self.sent / self.sites % self.universe;
        let (site, item, above_1) = match self.stream {
            Stream::Uniform => {
                (self.below(self.sites), self.below(self.universe), self.below(VALUES))
            }
            Stream::Zipf => {
                let site = self.below(self.sites);
                let item = self.below(self.items[self.items.len() - 1]);
                let value = self.below(self.values[self.values.len() - 1]);
                (site, place(&self.items, item), place(&self.values, value))
            }
            Stream::EverNew => (turn, in_turn, self.sent % VALUES),
            Stream::Flood => {
                let short = 1000 * self.of_item_0 < self.phi * self.sent;
                (turn, if short { 0 } else { in_turn }, self.sent % VALUES)
            }
        };
        self.sent += 1;
        self.of_item_0 += u64::from(item == 0);
        Arrival { site: site as u32, item: item as u32, value: 1 + above_1 as u32 }
    }

    /// The generator splitmix64.
    fn below(&mut self, bound: u64) -> u64 {
        self.state = self.state.wrapping_add(0x9e37_79b9_7f4a_7c15);
        let mut mixed = self.state;
        mixed = (mixed ^ (mixed >> 30)).wrapping_mul(0xbf58_476d_1ce4_e5b9);
        mixed = (mixed ^ (mixed >> 27)).wrapping_mul(0x94d0_49bb_1331_11eb);
        (mixed ^ (mixed >> 31)) % bound
    }
}

/// The sums of 2^40 / (i + 1) up to each place.
fn weights(count: u64) -> Vec<u64> {
    let mut sum = 0;
    let add = |place: u64| {
        sum += (1 << 40) / (place + 1);
        sum
    };
    (0..count).map(add).collect()
}

/// The place whose part of the sums holds a number.
fn place(sums: &[u64], number: u64) -> u64 {
    sums.partition_point(|&sum| sum <= number) as u64
}
