//! Request N1 on memory that never arose, on the proved code and on the separate implementation. As
//! much forgotten as was taken passes, and one more is 11 in every call that looks at the site. A
//! call that is accepted may make it more than was taken: then the next one is refused, and if that
//! is a poll in the same delivery, the delivery stops there.

mod both;
mod forge;
#[path = "../../reference/tests/support/mod.rs"]
mod support;

use both::batch::numbers_of;
use both::Both;
use forge::networks::some_network;
use forge::some_site;
use reference::coordinator::{CoordinatorRecord, Phase};
use reference::message::{Arrival, Message, ANNOUNCEMENT, POLL, PROBE};
use reference::refusal::{ACCEPTED, INCONSISTENT};
use reference::settings::threshold_of;
use reference::site::SiteRecord;
use support::account::counters_of;
use support::{arrival, message, Random, TestNetwork};

/// Two sites of six counters after 90 arrivals of 20 items, of which some are forgotten.
fn two_sites() -> TestNetwork {
    let mut network = TestNetwork::start([2, 1000, 1000, 500, 6, 20]);
    for number in 0..90 {
        network.take(&[arrival(number % 2, 7 * number % 20, 1 + number)]);
    }
    let record = network.sites.records[1];
    assert!(record.dropped > 0 && record.threshold > 1 && record.used == 6);
    network
}

/// A site's calls, each on a copy: an arrival of an item that is counted already, so that nothing
/// more is forgotten, and kinds 3, 5 and 7. A refused call changes nothing.
fn calls_of_site(both: &mut Both, network: &TestNetwork, site: u32) -> [u8; 4] {
    let numbers = numbers_of(&network.settings);
    let record = network.sites.records[site as usize];
    let memory = network.memory_of(site);
    let next = arrival(site, memory[0], 5);
    let mut after = (record, memory.to_vec());
    let observed = both.observe(numbers, next, &mut after.0, &mut after.1).refusal;
    assert!(observed == ACCEPTED || after == (record, memory.to_vec()));
    let messages = [
        message(POLL, site, 0, 0),
        message(PROBE, site, 511, 0),
        message(ANNOUNCEMENT, site, record.threshold, 9),
    ];
    let [poll, probe, announcement] = messages.map(|sent| {
        let mut after = record;
        let refusal = both.receive_at_site(numbers, site, sent, &mut after, memory).refusal;
        assert!(refusal == ACCEPTED || after == record);
        refusal
    });
    [observed, poll, probe, announcement]
}

/// The calls on the whole network, each on a copy: batches without and with an arrival at each
/// site, and an arrival with full delivery at each site. Items are counted already.
fn calls_of_network(both: &mut Both, network: &TestNetwork) -> Vec<u8> {
    let next = |site: u32| arrival(site, network.memory_of(site)[0], 5);
    let all: Vec<Arrival> = (0..network.settings.sites).map(next).collect();
    let log_numbers = 4 * network.settings.messages_per_arrival() * all.len();
    let mut refusals = Vec::new();
    for arrivals in [&[], &all[..]] {
        let (answer, _) = both.run_batch(&mut network.clone(), arrivals, log_numbers);
        refusals.push(answer.refusal);
    }
    for next in all {
        let delivered = both.deliver_arrival(&mut network.clone(), next);
        assert_eq!(delivered.stopped, ACCEPTED);
        refusals.push(delivered.refusal);
    }
    refusals
}

/// As much forgotten as was taken is consistent, and one more is not, in every call that looks at
/// the site; the other site's own calls don't know.
#[test]
fn more_forgotten_than_taken() {
    let mut both = Both::new();
    let start = two_sites();
    let arrivals = start.sites.records[1].arrivals;
    let cases = [
        (0, ACCEPTED),
        (arrivals - 1, ACCEPTED),
        (arrivals, ACCEPTED),
        (arrivals + 1, INCONSISTENT),
        (arrivals + 2, INCONSISTENT),
        (u64::MAX, INCONSISTENT),
        // Their lower 32 bits would pass.
        (1 << 32, INCONSISTENT),
        ((1 << 63) + arrivals, INCONSISTENT),
    ];
    for (dropped, refusal) in cases {
        let mut network = start.clone();
        network.sites.records[1].dropped = dropped;
        assert_eq!(calls_of_site(&mut both, &network, 1), [refusal; 4], "{dropped}");
        assert_eq!(calls_of_site(&mut both, &network, 0), [ACCEPTED; 4], "{dropped}");
        assert_eq!(calls_of_network(&mut both, &network), [refusal; 4], "{dropped}");
    }
    // Sites from k on are not looked at.
    let mut network = start;
    network.sites.records[2].dropped = u64::MAX;
    assert_eq!(calls_of_network(&mut both, &network), [ACCEPTED; 4]);
}

/// Sites at threshold 8, all six counters in use, the one of item 0 with the least count and so
/// much unreported. Site `full` has forgotten all it took, and so much is pending there; one signal
/// is missing to a close. The items 6 to 9 are new to all sites.
fn forged(sites: u32, full: u32, unreported: u32, pending: u64) -> TestNetwork {
    let mut network = TestNetwork::start([sites, 1000, 1000, 500, 6, 10]);
    let settings = network.settings;
    let all = u64::from(sites);
    let (arrivals, base) = (31, 24 * all);
    let threshold = threshold_of(&settings, base);
    assert_eq!(threshold, 8);
    let parts = network.site_memory.chunks_exact_mut(settings.site_memory_len());
    for (record, memory) in network.sites.records.iter_mut().zip(parts) {
        *record = SiteRecord { arrivals, pending: 0, threshold, used: 6, dropped: 0 };
        for (item, counter) in memory[..24].chunks_exact_mut(4).enumerate() {
            counter.copy_from_slice(&[item as u32, 11, 2, 9]);
        }
        memory[..4].copy_from_slice(&[0, 10, 2, 8 - unreported]);
        memory[24 + 3] = arrivals as u32;
    }
    network.sites.records[full as usize].pending = pending;
    network.sites.records[full as usize].dropped = arrivals;
    let (total, signals) = (arrivals * all - pending, all - 1);
    let fresh = CoordinatorRecord::FRESH;
    network.coordinator = CoordinatorRecord { total, base, threshold, signals, ..fresh };
    assert_eq!(network.refusal(), ACCEPTED);
    network
}

/// With how much unreported of the item that leaves the site forgets more than it took.
const UNREPORTED: [(u32, u8); 5] =
    [(0, ACCEPTED), (1, ACCEPTED), (2, INCONSISTENT), (5, INCONSISTENT), (7, INCONSISTENT)];

/// A single arrival is accepted, and the next call at the site is 11 where too much went with it.
#[test]
fn too_much_within_an_arrival() {
    let mut both = Both::new();
    for (unreported, refusal) in UNREPORTED {
        let mut network = forged(1, 0, unreported, 0);
        let numbers = numbers_of(&network.settings);
        let TestNetwork { sites, site_memory, .. } = &mut network;
        let record = &mut sites.records[0];
        let outgoing = both.observe(numbers, arrival(0, 9, 3), record, site_memory);
        assert_eq!((outgoing.refusal, outgoing.count), (ACCEPTED, 0));
        assert_eq!((record.arrivals, record.dropped), (32, 31 + u64::from(unreported)));
        assert_eq!(calls_of_site(&mut both, &network, 0), [refusal; 4], "{unreported}");
    }
}

/// A batch tests once, when it starts: all its arrivals are accepted, with a close among them, and
/// the next batch is 11 where too much went.
#[test]
fn too_much_within_a_batch() {
    let mut both = Both::new();
    for (unreported, refusal) in UNREPORTED {
        // The second arrival closes the round.
        let mut network = forged(1, 0, unreported, 6);
        let arrivals = [9, 8, 7].map(|item| arrival(0, item, 3));
        let (answer, written) = both.run_batch(&mut network, &arrivals, 4 * 75);
        assert_eq!((answer.accepted, answer.refusal), (3, ACCEPTED));
        assert_eq!(written.len(), 24);
        let record = network.sites.records[0];
        assert_eq!((record.arrivals, record.dropped), (34, 31 + u64::from(unreported)));
        // Three arrivals came, and items 1 and 2 left with nothing.
        let refusal = if unreported == 2 { ACCEPTED } else { refusal };
        let (answer, _) = both.run_batch(&mut network, &[], 0);
        assert_eq!(answer.refusal, refusal, "{unreported}");
    }
}

/// A delivery that does not come back to the site comes to rest, and the next one is 11 where too
/// much went.
#[test]
fn too_much_within_a_delivery() {
    let mut both = Both::new();
    for (unreported, refusal) in UNREPORTED {
        let mut network = forged(1, 0, unreported, 0);
        let delivered = both.deliver_arrival(&mut network, arrival(0, 9, 3));
        assert_eq!((delivered.refusal, delivered.stopped), (ACCEPTED, ACCEPTED));
        assert_eq!(delivered.messages, []);
        let before = network.clone();
        let delivered = both.deliver_arrival(&mut network, arrival(0, 9, 3));
        assert_eq!((delivered.refusal, delivered.stopped), (refusal, ACCEPTED), "{unreported}");
        assert_eq!(network == before, refusal != ACCEPTED);
    }
}

/// A delivery that polls the site meets 11 there and stops: what was done so far stays. Sites
/// before it have answered.
#[test]
fn a_poll_after_too_much() {
    let mut both = Both::new();
    for (unreported, refusal) in UNREPORTED {
        for (sites, full) in [(1, 0), (2, 0), (2, 1), (4, 2)] {
            let mut network = forged(sites, full, unreported, 7);
            let total = network.coordinator.total;
            let delivered = both.deliver_arrival(&mut network, arrival(full, 9, 3));
            assert_eq!((delivered.refusal, delivered.stopped), (ACCEPTED, refusal));
            if refusal == ACCEPTED {
                assert_eq!(delivered.messages.len(), 23 * sites as usize + 1);
                continue;
            }
            let mut expected = vec![message(2, full, 8, 0)];
            for site in 0..full {
                expected.extend([message(3, site, 0, 0), message(4, site, 0, 0)]);
            }
            expected.push(message(3, full, 0, 0));
            assert_eq!(delivered.messages, expected);
            let CoordinatorRecord { total: after, phase, .. } = network.coordinator;
            assert_eq!((after, phase), (total + 8, Phase::Collecting { site: u64::from(full) }));
            let dropped = 31 + u64::from(unreported);
            let record = SiteRecord { arrivals: 32, pending: 0, threshold: 8, used: 6, dropped };
            assert_eq!(network.sites.records[full as usize], record);
        }
    }
}

/// A site that took 999,999,900 arrivals and forgot as many, with 333,333,299 unreported in each of
/// 40 counters: one batch of 40 new items replaces them all, and 32 bits don't hold what is
/// forgotten then. The next call is refused.
#[test]
fn more_than_32_bits() {
    let mut both = Both::new();
    let mut network = TestNetwork::start([1, 1000, 1000, 500, 40, 80]);
    let arrivals = 999_999_900;
    let threshold = threshold_of(&network.settings, arrivals);
    network.sites.records[0] =
        SiteRecord { arrivals, pending: 0, threshold, used: 40, dropped: arrivals };
    for (item, counter) in network.site_memory[..160].chunks_exact_mut(4).enumerate() {
        counter.copy_from_slice(&[item as u32, 333_333_299, 0, 0]);
    }
    network.site_memory[160] = arrivals as u32;
    let (total, base) = (arrivals, arrivals);
    network.coordinator = CoordinatorRecord { total, base, threshold, ..CoordinatorRecord::FRESH };
    let new: Vec<Arrival> = (40..80).map(|item| arrival(0, item, 1)).collect();
    let (answer, written) = both.run_batch(&mut network, &new, 4 * 64);
    assert_eq!((answer.accepted, answer.refusal, written), (40, ACCEPTED, vec![]));
    assert_eq!(network.sites.records[0].dropped, 14_333_331_860);
    assert_eq!(calls_of_site(&mut both, &network, 0), [INCONSISTENT; 4]);
    assert_eq!(calls_of_network(&mut both, &network), [INCONSISTENT; 3]);
}

/// Sites that never arose take arrivals until one makes them forget too much; from then on each
/// call is 11. That every accepted arrival adds up, [`Both`] holds against both sides.
#[test]
fn forged_sites_forget() {
    let mut random = Random::new(5_004);
    let mut both = Both::new();
    let (mut forgot, mut too_much) = (0, 0);
    for _ in 0..12_000 {
        let mut site = some_site(&mut random);
        for _ in 0..8 {
            let before = site.record;
            let item = random.below32(site.settings[5]);
            let next = arrival(0, item, random.value_or_touch(3));
            let outgoing = both.observe(site.settings, next, &mut site.record, &mut site.memory);
            if before.dropped > before.arrivals {
                assert_eq!(outgoing.refusal, INCONSISTENT);
                let (poll, settings) = (message(POLL, 0, 0, 0), site.settings);
                let record = &mut site.record;
                let answer = both.receive_at_site(settings, 0, poll, record, &site.memory);
                assert_eq!(answer.refusal, INCONSISTENT);
                too_much += 1;
                break;
            }
            forgot += u64::from(site.record.dropped > before.dropped);
        }
    }
    println!("{forgot} arrivals forgot something, {too_much} sites too much");
    assert!(forgot > 3_000 && too_much > 200);
}

/// An item below the universe that a site doesn't count, if there is one.
fn new_item(network: &TestNetwork, site: u32) -> Option<u32> {
    let record = &network.sites.records[site as usize];
    let counters = counters_of(record, network.memory_of(site));
    let counted = |item: &u32| counters.iter().any(|counter| counter.item == *item);
    (0..network.settings.universe).find(|item| !counted(item))
}

/// What a delivery on forged memory came to.
#[derive(Debug, Default)]
struct Ends {
    /// At rest, with no more forgotten than taken.
    rested: u64,
    /// At rest, with more forgotten than taken: the next call is 11.
    too_much: u64,
    /// Stopped by 11 at the poll of the site that forgot too much.
    at_the_poll: u64,
}

impl Ends {
    fn count(&mut self, stopped: u8, sent: &[Message], record: &SiteRecord) {
        let too_much = record.dropped > record.arrivals;
        let last = sent.last().map(|message| message.kind);
        if stopped == ACCEPTED {
            self.rested += u64::from(!too_much);
            self.too_much += u64::from(too_much);
        } else if last == Some(POLL) {
            assert!(too_much);
            self.at_the_poll += 1;
        }
    }
}

/// A consistent network in which one site, all its counters in use, has forgotten about as much as
/// it took, and an arrival there of an item that it doesn't count. As much is pending as may be,
/// and the next count report closes the round: then the site is polled. `None` where the random
/// network has no unused item or not all counters in use.
fn about_full(random: &mut Random) -> Option<(TestNetwork, Arrival)> {
    let mut network = some_network(random);
    let site = random.below32(network.settings.sites);
    let item = new_item(&network, site)?;
    let TestNetwork { settings, sites, coordinator, .. } = &mut network;
    let record = &mut sites.records[site as usize];
    if record.used < u64::from(settings.capacity) {
        return None;
    }
    let known = coordinator.total + record.pending;
    record.pending = (record.threshold - 1).min(known - coordinator.base);
    coordinator.total = known - record.pending;
    coordinator.signals = u64::from(settings.sites) - 1;
    let some = random.below(record.threshold);
    let missing = random.pick(&[0, 1, 2, some, record.threshold - 1]);
    record.dropped = record.arrivals.saturating_sub(missing);
    let value = random.between(1, 1023);
    Some((network, arrival(site, item, random.value_or_touch(value))))
}

/// By a single delivery and by a batch, and then once more: where too much was forgotten, the first
/// was accepted and the second is 11.
#[test]
fn about_as_much_forgotten_as_taken() {
    let mut random = Random::new(5_005);
    let mut both = Both::new();
    let mut ends = Ends::default();
    for _ in 0..12_000 {
        let Some((mut network, next)) = about_full(&mut random) else {
            continue;
        };
        let log_numbers = 4 * network.settings.messages_per_arrival();
        let mut batched = network.clone();
        let delivered = both.deliver_arrival(&mut network, next);
        let (answer, _) = both.run_batch(&mut batched, &[next], log_numbers);
        assert_eq!(answer.refusal, delivered.refusal);
        if delivered.refusal != ACCEPTED {
            continue;
        }
        // A batch forgets the same, and goes on where a delivery stops.
        let record = network.sites.records[next.site as usize];
        assert_eq!(batched.sites.records[next.site as usize].dropped, record.dropped);
        ends.count(delivered.stopped, &delivered.messages, &record);
        let again = both.deliver_arrival(&mut network, next).refusal;
        let (answer, _) = both.run_batch(&mut batched, &[next], log_numbers);
        let too_much = record.dropped > record.arrivals;
        assert!(!too_much || (again, answer.refusal) == (INCONSISTENT, INCONSISTENT));
    }
    println!("{ends:?}");
    assert!(ends.rested > 2_000 && ends.too_much > 100 && ends.at_the_poll > 50);
}
