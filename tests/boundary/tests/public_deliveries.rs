//! Arrivals with full delivery by the public calls, on the proved code and on the separate
//! implementation: after every arrival answers, records and memory are the same. In histories from
//! a fresh start every delivery comes to rest, and the batch call leaves the same network and
//! writes the same messages. Networks that never arose are tried as well, damaged ones, and such as
//! are near the coordinator's limit. There a delivery may stop on its way, and at a site that
//! forgets more than it took (`forged_forgotten.rs`), but nowhere else.

mod both;
mod forge;
#[path = "../../reference/tests/support/mod.rs"]
mod support;

use both::Both;
use forge::networks::{damage_network, some_network};
use reference::coordinator::MAX_NUMBER;
use reference::message::{Arrival, Message};
use reference::refusal::*;
use support::account::Account;
use support::streams::{Source, Stream, ALL};
use support::{arrival, Random, TestNetwork};

/// A network that takes its arrivals one by one, and one that takes them in batches.
struct Trial {
    singles: TestNetwork,
    batches: TestNetwork,
    /// Arrivals that the batches are still to take, with their messages.
    waiting: Vec<Arrival>,
    sent: Vec<Message>,
    account: Account,
    /// How many arrivals were accepted, and how many messages followed.
    accepted: usize,
    messages: usize,
}

impl Trial {
    /// Started fresh, with memory some numbers longer than it need be.
    fn start(both: &mut Both, numbers: [u32; 6]) -> Trial {
        println!("settings {numbers:?}");
        let mut singles = TestNetwork::start(numbers);
        singles.site_memory.extend([5, 6, 7]);
        singles.coordinator_memory.extend([8, 9]);
        assert_eq!(both.start_sites(numbers, &mut singles.site_memory), ACCEPTED);
        assert_eq!(both.start_coordinator(numbers, &mut singles.coordinator_memory), ACCEPTED);
        Trial {
            batches: singles.clone(),
            account: Account::start(&singles.settings),
            singles,
            waiting: Vec::new(),
            sent: Vec::new(),
            accepted: 0,
            messages: 0,
        }
    }

    /// Answers what the arrival was refused with.
    fn take(&mut self, both: &mut Both, next: Arrival) -> u8 {
        let delivered = both.deliver_arrival(&mut self.singles, next);
        self.waiting.push(next);
        if delivered.refusal == ACCEPTED {
            assert_eq!(delivered.stopped, ACCEPTED, "{next:?}");
            assert_eq!(self.singles.refusal(), ACCEPTED, "{next:?}");
            self.accepted += 1;
            self.messages += delivered.messages.len();
            self.account.add(&delivered.messages);
            self.sent.extend(delivered.messages);
            self.account.check(&self.singles);
        }
        delivered.refusal
    }

    /// The batch call on the arrivals since the last one, of which only the last may be refused.
    fn compare(&mut self, both: &mut Both, refusal: u8) {
        let arrivals = std::mem::take(&mut self.waiting);
        let log_numbers = 4 * self.batches.settings.messages_per_arrival() * arrivals.len();
        let (answer, written) = both.run_batch(&mut self.batches, &arrivals, log_numbers);
        let refused = usize::from(refusal != ACCEPTED);
        assert_eq!((answer.accepted, answer.refusal), (arrivals.len() - refused, refusal));
        assert_eq!(written, std::mem::take(&mut self.sent));
        // Batches alone count their messages in the network.
        assert_eq!(self.batches.all_messages(), self.messages as u64);
        assert_eq!(self.singles.sites.messages, [0; 32]);
        let mut uncounted = self.batches.clone();
        uncounted.sites.messages = [0; 32];
        assert!(uncounted == self.singles, "{arrivals:?}");
    }
}

/// So many arrivals of a stream from a fresh start, of which one in 40 may be refused.
fn run(both: &mut Both, numbers: [u32; 6], stream: Stream, seed: u64, arrivals: u64) -> Trial {
    let mut random = Random::new(seed);
    let mut source = Source::new(stream, seed + 1);
    let mut trial = Trial::start(both, numbers);
    for _ in 0..arrivals {
        let mut next = source.next(&trial.singles);
        if random.one_in(40) {
            spoil(&mut next, numbers, &mut random);
        }
        let refusal = trial.take(both, next);
        if refusal != ACCEPTED || random.one_in(10) {
            trial.compare(both, refusal);
        }
    }
    trial.compare(both, ACCEPTED);
    trial
}

/// A site, an item or a value that there is none of.
fn spoil(next: &mut Arrival, [sites, .., universe]: [u32; 6], random: &mut Random) {
    match random.below(3) {
        0 => next.site = random.pick(&[sites, sites + 1, 32, u32::MAX]),
        1 => next.item = random.pick(&[universe, u32::MAX]),
        _ => next.value = random.pick(&[1024, u32::MAX]),
    }
}

#[test]
fn histories_agree() {
    let mut both = Both::new();
    let (mut accepted, mut messages, mut thresholds) = (0, 0, 0);
    for sites in 1..=8 {
        let settings = [
            [sites, 1000, 1000, 500, 6, 10],
            [sites, 1000, 1000, 999, 7, 300],
            [sites, 600, 700, 250, 10, 40],
            [sites, 250, 400, 900, 24, 3],
        ];
        for (place, numbers) in settings.into_iter().enumerate() {
            for (kind, &stream) in ALL.iter().enumerate() {
                let seed = 1_000 * u64::from(sites) + 100 * place as u64 + 10 * kind as u64;
                let trial = run(&mut both, numbers, stream, seed, 200);
                accepted += trial.accepted;
                messages += trial.messages;
                thresholds += u64::from(trial.singles.coordinator.threshold > 1);
            }
        }
    }
    println!("{accepted} arrivals accepted, {messages} messages, {thresholds} thresholds above 1");
    assert!(accepted > 40_000 && messages > 200_000 && thresholds > 100);
    both.enough(40_000, &[UNKNOWN_SITE, UNKNOWN_ITEM, UNKNOWN_VALUE], 200);
}

/// Consistent networks that never arose, then damaged ones: whatever is inconsistent, coordinator
/// and all, is met before anything changes.
#[test]
fn forged_networks_agree() {
    let mut random = Random::new(4_001);
    let mut both = Both::new();
    let (mut complete, mut stopped) = (0, 0);
    for round in 0..4_000 {
        let mut network = some_network(&mut random);
        if round % 2 == 1 {
            damage_network(&mut network, &mut random);
        }
        for _ in 0..3 {
            let settings = network.settings;
            let (sites, universe) = (settings.sites.clamp(1, 32), settings.universe.max(1));
            let (site, item) = (random.below32(sites + 1), random.below32(universe));
            let value = random.between(1, 1024);
            let next = arrival(site, item, random.value_or_touch(value));
            let delivered = both.deliver_arrival(&mut network, next);
            complete += u64::from(delivered.refusal == ACCEPTED && delivered.stopped == ACCEPTED);
            stopped += u64::from(delivered.stopped != ACCEPTED);
        }
    }
    println!("{complete} deliveries came to rest, {stopped} were stopped");
    assert!(complete > 2_000 && stopped > 0);
    let met = [SETTING_RANGE, TOO_FEW_COUNTERS, SHORT_MEMORY, UNKNOWN_SITE, SITE_FULL];
    both.enough(12_000, &met, 30);
    both.enough(12_000, &[INCONSISTENT, ACCEPTED], 50);
    assert!(both.wide >= 50);
}

/// A coordinator's memory too short by one number, or empty: 4, before the site changes.
#[test]
fn short_coordinator_memory_is_met_first() {
    let mut both = Both::new();
    for length in [0, 1, 1033] {
        let mut network = TestNetwork::start([1, 1000, 1000, 500, 6, 10]);
        network.coordinator_memory.truncate(length);
        let delivered = both.deliver_arrival(&mut network, arrival(0, 7, 3));
        assert_eq!((delivered.refusal, delivered.messages.len()), (SHORT_MEMORY, 0));
    }
}

/// Settings A, fresh but for the estimate of item 7: with room for one more the arrival costs its
/// five messages; at 100,000,000,000 kind 1 brings it above, and kind 2 meets 11; above it nothing
/// is taken at all.
#[test]
fn an_estimate_at_the_limit() {
    let mut both = Both::new();
    let cases = [
        (MAX_NUMBER - 1, ACCEPTED, ACCEPTED, 5),
        (MAX_NUMBER, ACCEPTED, INCONSISTENT, 2),
        (MAX_NUMBER + 1, INCONSISTENT, ACCEPTED, 0),
    ];
    for (estimate, refusal, stopped, carried) in cases {
        let mut network = TestNetwork::start([1, 1000, 1000, 500, 6, 10]);
        network.coordinator_memory[7] = estimate;
        let delivered = both.deliver_arrival(&mut network, arrival(0, 7, 3));
        assert_eq!((delivered.refusal, delivered.stopped), (refusal, stopped));
        assert_eq!(delivered.messages.len(), carried);
    }
}

/// Consistent networks whose estimates are about as near to the limit as the threshold is large: a
/// delivery stops at kind 2, or kind 1 goes out alone and it comes to rest above the limit.
#[test]
fn estimates_near_the_limit_agree() {
    let mut random = Random::new(4_002);
    let mut both = Both::new();
    let (mut rested, mut stopped, mut above) = (0, 0, 0);
    for _ in 0..4_000 {
        let mut network = some_network(&mut random);
        let (sites, universe) = (network.settings.sites, network.settings.universe);
        let threshold = network.coordinator.threshold;
        let item = random.below32(universe);
        let room = random.pick(&[0, threshold - 1, threshold, threshold + 1]);
        network.coordinator_memory[item as usize] = MAX_NUMBER - room;
        let (site, value) = (random.below32(sites), random.between(1, 1023));
        let next = arrival(site, item, random.value_or_touch(value));
        let delivered = both.deliver_arrival(&mut network, next);
        if delivered.refusal == ACCEPTED {
            rested += u64::from(delivered.stopped == ACCEPTED);
            stopped += u64::from(delivered.stopped == INCONSISTENT);
            let estimate = network.coordinator_memory[item as usize];
            above += u64::from(delivered.stopped == ACCEPTED && estimate > MAX_NUMBER);
        }
    }
    println!("{rested} came to rest, {above} of them above the limit; {stopped} were stopped");
    assert!(rested > 500 && stopped > 100 && above > 10);
}
