//! Request N1, the arrivals that a site has forgotten, from a fresh start, on the proved code and
//! on the separate implementation: the request's instances, an item that leaves twice, and short
//! streams with many replacements. `History` checks the request after every call.

mod both;
mod forge;
mod history;
#[path = "../../reference/tests/support/mod.rs"]
mod support;

use both::Both;
use history::History;
use reference::message::Arrival;
use reference::refusal::ACCEPTED;
use reference::site::{Departure, SiteRecord};
use support::account::counters_of;
use support::streams::{Source, Stream};
use support::{arrival, Random, A};

/// Items of value 3 at site 0 under settings A, one by one with full delivery and in one batch.
fn histories_of(items: &[u32]) -> [History; 2] {
    let mut both = Both::new();
    let mut singles = History::start(&mut both, A, 5_001);
    let mut batched = History::start(&mut both, A, 5_002);
    let arrivals: Vec<Arrival> = items.iter().map(|&item| arrival(0, item, 3)).collect();
    for &next in &arrivals {
        singles.single(&mut both, next);
    }
    batched.batch(&mut both, &arrivals, 4 * 25 * arrivals.len());
    assert_eq!(singles.network.sites.records, batched.network.sites.records);
    [singles, batched]
}

/// What left site 0, in order: each item with what was unreported of it.
fn left(history: &History) -> Vec<(u32, u64)> {
    let pair = |&Departure { item, unreported }: &Departure| (item, unreported);
    history.plain.sites[0].departures.iter().map(pair).collect()
}

/// What is unreported of each item that site 0 counts, by the place of its counter.
fn held(history: &History) -> Vec<(u32, u64)> {
    let record = &history.network.sites.records[0];
    let counters = counters_of(record, history.network.memory_of(0));
    counters.iter().map(|counter| (counter.item, counter.unreported())).collect()
}

/// Document 01's P5: item 0 leaves with nothing unreported, so nothing is forgotten.
#[test]
fn p5_forgets_nothing() {
    for history in histories_of(&[0, 1, 2, 3, 4, 5, 6]) {
        assert_eq!(left(&history), [(0, 0)]);
        assert_eq!(held(&history), [(6, 1), (1, 0), (2, 0), (3, 0), (4, 0), (5, 0)]);
        let record = SiteRecord { arrivals: 7, pending: 1, threshold: 2, used: 6, dropped: 0 };
        assert_eq!(history.network.sites.records[0], record);
    }
}

/// Six arrivals of item 7, after which the threshold is 2, then items 0 to 4 and 5: item 0 leaves
/// with its one arrival unreported.
#[test]
fn an_item_leaves_unreported() {
    for history in histories_of(&[7, 7, 7, 7, 7, 7, 0, 1, 2, 3, 4, 5]) {
        assert_eq!(left(&history), [(0, 1)]);
        assert_eq!(held(&history), [(7, 0), (5, 1), (1, 1), (2, 1), (3, 1), (4, 1)]);
        let record = SiteRecord { arrivals: 12, pending: 2, threshold: 3, used: 6, dropped: 1 };
        assert_eq!(history.network.sites.records[0], record);
    }
}

/// The same, and then item 0 comes back and leaves again: both times count.
#[test]
fn an_item_leaves_twice() {
    for history in histories_of(&[7, 7, 7, 7, 7, 7, 0, 1, 2, 3, 4, 5, 0, 6, 8, 9, 1]) {
        assert_eq!(left(&history), [(0, 1), (1, 1), (2, 1), (3, 1), (4, 1), (0, 1)]);
        assert_eq!(held(&history), [(7, 0), (5, 1), (1, 1), (6, 1), (8, 1), (9, 1)]);
        assert_eq!(history.network.sites.records[0].dropped, 6);
    }
}

/// What the short streams met.
#[derive(Default)]
struct Met {
    departures: usize,
    with_unreported: usize,
    /// Items that left the same site a second time, each with something unreported before.
    again: usize,
}

impl Met {
    fn count(&mut self, departures: &[Departure]) {
        self.departures += departures.len();
        for (place, departure) in departures.iter().enumerate() {
            self.with_unreported += usize::from(departure.unreported > 0);
            let earlier = departures[..place].iter();
            let mut same = earlier.filter(|earlier| earlier.item == departure.item);
            self.again += usize::from(same.any(|earlier| earlier.unreported > 0));
        }
    }
}

/// Six counters, more items than that, single arrivals and small batches in any order.
#[test]
fn short_streams() {
    let mut random = Random::new(5_003);
    let mut both = Both::new();
    let mut met = Met::default();
    for round in 0..400 {
        let sites = random.pick(&[1, 1, 2, 3]);
        let universe = random.pick(&[8, 20, 300]);
        let numbers = [sites, 1000, 1000, random.between(1, 1000), 6, universe];
        let seed = 50_000 + 10 * round;
        let mut history = History::start(&mut both, numbers, seed);
        let stream = random.pick(&[Stream::Uniform, Stream::RoundRobin, Stream::Flood]);
        let mut source = Source::new(stream, seed + 1);
        for _ in 0..60 {
            let next = source.next(&history.network);
            if random.one_in(2) {
                history.single(&mut both, next);
            } else {
                let more = (0..random.below(4)).map(|_| source.next(&history.network));
                let arrivals: Vec<Arrival> = [next].into_iter().chain(more).collect();
                let each = history.network.settings.messages_per_arrival();
                history.batch(&mut both, &arrivals, 4 * each * arrivals.len());
            }
        }
        history.plain.sites.iter().for_each(|site| met.count(&site.departures));
    }
    let Met { departures, with_unreported, again } = met;
    println!("{departures} departures, {with_unreported} with something unreported, {again} again");
    assert!(departures > 10_000 && with_unreported > 5_000 && again > 1_000);
    both.enough(50_000, &[ACCEPTED], 50_000);
}
