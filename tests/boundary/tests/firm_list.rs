//! Request N10: each item that the list call answers has 6000 × (its draws) + 5e × (all draws) ≥
//! 6p × (all draws). The list is asked for after each arrival, on the proved code and on the
//! separate implementation; the request's instances; how much of the leeway is used.

mod both;
mod forge;
mod history;
#[path = "../../reference/tests/support/mod.rs"]
mod support;

use both::Both;
use history::History;
use reference::message::Arrival;
use reference::refusal::ACCEPTED;
use reference::settings::Settings;
use support::firm::LeewayUsed;
use support::streams::{Source, ALL};
use support::truth::Truth;
use support::{arrival, Random, TestNetwork, A};

/// Single arrivals and batches of one, and the list after each.
#[test]
fn after_each_arrival() {
    let mut random = Random::new(3_001);
    let mut both = Both::new();
    let mut tightest = LeewayUsed::none(&Settings::from_numbers(A));
    for round in 0..12 {
        for (kind, &stream) in ALL.iter().enumerate() {
            let epsilon = random.pick(&[60, 100, 250, 400, 700, 1000]);
            let between = random.between(epsilon, 1000);
            let phi = random.pick(&[epsilon, between, 1000]);
            let sites = random.pick(&[1, 1, 2, 3, 5]);
            let universe = random.pick(&[2, 7, 30]);
            let numbers = [sites, epsilon, phi, 500, 6000_u32.div_ceil(epsilon), universe];
            let seed = 40_000 + 100 * round + 10 * kind as u64;
            let mut history = History::start(&mut both, numbers, seed);
            let mut source = Source::new(stream, seed + 1);
            for _ in 0..1500 {
                let next = source.next(&history.network);
                if random.one_in(2) {
                    history.single(&mut both, next);
                } else {
                    history.batch(&mut both, &[next], 4 * (23 * sites as usize + 2));
                }
                history.read(&mut both);
            }
            tightest.or_tighter(&history.truth.leeway_used);
        }
    }
    both.enough(400_000, &[ACCEPTED], 200_000);
    tightest.show("the list after each draw");
    assert!(tightest.fraction() > 0.9);
}

/// Places of a log that is long enough for every batch here.
const LOG_PLACES: usize = 30_000;

/// A network that takes arrivals in batches, and their true counts.
struct Taken {
    both: Both,
    network: TestNetwork,
    truth: Truth,
}

impl Taken {
    fn start(numbers: [u32; 6]) -> Taken {
        let network = TestNetwork::start(numbers);
        let truth = Truth::new(&network.settings);
        Taken { both: Both::new(), network, truth }
    }

    fn take(&mut self, arrivals: &[Arrival]) {
        // Long batches come late, when messages are few.
        let places = LOG_PLACES + self.network.settings.messages_per_arrival();
        let (answer, _) = self.both.run_batch(&mut self.network, arrivals, 4 * places);
        assert_eq!((answer.accepted, answer.refusal), (arrivals.len(), ACCEPTED));
        for next in arrivals {
            self.truth.count(&self.network.settings, next, 0);
        }
        self.truth.messages += answer.written as u64;
    }

    /// So many arrivals of an item at a site.
    fn take_of(&mut self, site: u32, item: u32, times: usize) {
        self.take(&vec![arrival(site, item, 1); times]);
    }

    /// What the list call answers, on the proved code as on the other.
    fn listed(&mut self) -> Vec<u32> {
        self.truth.check(&self.network);
        let listed = self.network.heavy_hitters();
        let TestNetwork { settings, coordinator, coordinator_memory, .. } = &self.network;
        let numbers = both::batch::numbers_of(settings);
        let count = self.both.list(numbers, coordinator, coordinator_memory, listed.len());
        assert_eq!(count, Ok(listed.len()));
        listed
    }
}

/// Settings A, items 0 1 0 1 0 1 1: total 6, both listed; of item 0 6000 × 3 ≥ 1000 × 7.
#[test]
fn seven_arrivals() {
    let mut taken = Taken::start(A);
    taken.take(&[0, 1, 0, 1, 0, 1, 1].map(|item| arrival(0, item, 1)));
    assert_eq!(taken.network.coordinator.total, 6);
    assert_eq!(taken.listed(), [0, 1]);
    assert_eq!((taken.truth.items[0], taken.truth.draws), (3, 7));
}

/// Share 1000 with leeway 400: item 0 is listed with 32 of 44 arrivals, and 4e would not do.
#[test]
fn four_fifths_of_the_leeway() {
    let mut taken = Taken::start([1, 400, 1000, 500, 15, 10]);
    taken.take_of(0, 0, 32);
    taken.take_of(0, 1, 12);
    assert_eq!(taken.listed(), [0]);
    assert!(6000 * 32 + 4 * 400 * 44 < 6 * 1000 * 44);
    assert!(taken.truth.leeway_used.fraction() > 0.8);
}

/// Share 1000 with leeway 2 at two sites: 18,192,662 arrivals, 18,162,365 of a listed item. Rounds
/// of a threshold's arrivals at each site, so that nothing is held back at a close: then the
/// coordinator knows them all, and 18,180 are of another item, as many as the list rule lets pass.
/// After the last close each site takes one less than the threshold.
#[test]
fn nearly_all_of_the_leeway() {
    let mut taken = Taken::start([2, 2, 1000, 500, 3000, 2]);
    let threshold = |base: u64| (2 * base / 6000).max(1);
    let (mut base, mut thresholds) = (0, Vec::new());
    while base < 18_180_544 {
        thresholds.extend([threshold(base); 2]);
        base += 2 * threshold(base);
    }
    assert_eq!((base, threshold(base)), (18_180_544, 6060));
    // Item 1 takes whole turns of a site, the last ones that fit.
    let mut others = 18_180;
    let mut items = vec![0; thresholds.len()];
    for (item, &times) in items.iter_mut().zip(&thresholds).rev() {
        if times <= others {
            *item = 1;
            others -= times;
        }
    }
    assert_eq!(others, 0);
    let mut batch: Vec<Arrival> = Vec::new();
    for (turn, (&times, &item)) in thresholds.iter().zip(&items).enumerate() {
        let length = batch.len() + times as usize;
        batch.resize(length, arrival(turn as u32 % 2, item, 1));
        if length as u64 >= (taken.truth.draws / 4).clamp(1000, 500_000) {
            taken.take(&batch);
            batch.clear();
        }
    }
    taken.take(&batch);
    assert_eq!(taken.network.coordinator.base, base);
    taken.take_of(0, 1, 6059);
    taken.take_of(1, 1, 6058);
    taken.take_of(1, 0, 1);
    assert_eq!(taken.listed(), [0]);
    assert_eq!((taken.truth.items[0], taken.truth.draws), (18_162_365, 18_192_662));
    taken.truth.leeway_used.show("as much as can be");
    assert_eq!((10_000.0 * taken.truth.leeway_used.fraction()) as u64, 9992);
}
