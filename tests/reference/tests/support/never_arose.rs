//! Numbers, records and memory that never arose, to be handed to every call all the same.

use reference::coordinator::{CoordinatorRecord, Phase};
use reference::settings::{threshold_of, Settings};
use reference::site::SiteRecord;

use super::counts::LIMIT;
use super::{Random, TestNetwork};

/// Numbers at which something changes.
const EDGES: [u64; 16] = [
    0,
    1,
    2,
    3,
    5,
    6,
    1022,
    1023,
    1024,
    999_999_999,
    1_000_000_000,
    1_000_000_001,
    100_000_000_000,
    100_000_000_001,
    u64::MAX - 1,
    u64::MAX,
];

pub fn any(random: &mut Random) -> u64 {
    if random.one_in(4) {
        random.next() >> random.below(64)
    } else {
        random.pick(&EDGES)
    }
}

pub fn any_phase(random: &mut Random) -> Phase {
    let numbers = [random.below(4), any(random), any(random), any(random), any(random)];
    Phase::from_numbers(numbers).expect("the phase is below 4")
}

/// Spoils a number here and there.
pub fn spoil(network: &mut TestNetwork, random: &mut Random) {
    for _ in 0..random.between(1, 3) {
        let number = any(random);
        let site = random.below(4) as usize;
        let record = &mut network.sites.records[site];
        let coordinator = &mut network.coordinator;
        match random.below(14) {
            0 => record.arrivals = number,
            1 => record.pending = number,
            2 => record.threshold = number,
            3 => record.used = number,
            4 => coordinator.total = number,
            5 => coordinator.base = number,
            6 => coordinator.threshold = number,
            7 => coordinator.signals = number,
            8 => coordinator.quantile = number,
            9 => coordinator.phase = any_phase(random),
            10 => network.sites.messages[site] = random.pick(&[number, LIMIT, LIMIT + 1]),
            11 => record.dropped = random.pick(&[number, record.arrivals.saturating_add(1)]),
            12 => {
                let place = random.below(network.site_memory.len() as u64) as usize;
                network.site_memory[place] = number as u32;
            }
            _ => {
                let place = random.below(network.coordinator_memory.len() as u64) as usize;
                network.coordinator_memory[place] = number;
            }
        }
    }
}

/// A site with these arrivals, of which so many are pending, and counters that
/// pass. Items may be held twice.
fn any_site(settings: &Settings, record: SiteRecord, memory: &mut [u32], random: &mut Random) {
    let arrivals = record.arrivals as u32;
    for counter in memory[..settings.counters_len()].chunks_exact_mut(4) {
        let some = random.between(0, arrivals);
        let count = random.pick(&[0, arrivals, some, arrivals.min(3)]);
        let most = u64::from(count).min(record.threshold - 1) as u32;
        let unreported = random.pick(&[0, most]);
        let overestimate = random.between(0, count - unreported);
        let reported = count - unreported - overestimate;
        let item = random.below32(settings.universe);
        counter.copy_from_slice(&[item, count, overestimate, reported]);
    }
    let low = random.between(0, arrivals);
    memory[settings.counters_len() + random.below(512) as usize] = low;
    memory[settings.counters_len() + 512 + random.below(512) as usize] = arrivals - low;
}

/// A network that passes 11 but never arose.
pub fn any_network(random: &mut Random) -> TestNetwork {
    let sites = random.pick(&[1, 2, 5, 32]);
    let epsilon = random.pick(&[600, 1000]);
    let rank = random.pick(&[1, 500, 1000]);
    let mut network = TestNetwork::start([sites, epsilon, 1000, rank, 10, 8]);
    let settings = network.settings;
    let limit = random.pick(&[3, 50, 1_000_000, 1_000_000_000]);
    let records = &mut network.sites.records[..sites as usize];
    for record in records.iter_mut() {
        let some = random.below(limit + 1);
        record.arrivals = random.pick(&[limit, some]);
        record.used = random.below(11);
        // Most often so few that what the counters drop makes it no more than the arrivals.
        let some = random.below(record.arrivals + 1);
        record.dropped = random.pick(&[0, 0, 0, record.arrivals / 2, some, record.arrivals]);
    }
    let all: u64 = records.iter().map(|record| record.arrivals).sum();
    let some = random.below(all + 1);
    let base = random.pick(&[0, some, all]);
    let threshold = threshold_of(&settings, base);
    let most_pending = ((all - base) / u64::from(sites)).min(threshold - 1);
    for (place, record) in records.iter_mut().enumerate() {
        record.threshold = threshold;
        record.pending = random.pick(&[0, most_pending]).min(record.arrivals);
        let length = settings.site_memory_len();
        let memory = &mut network.site_memory[length * place..][..length];
        any_site(&settings, *record, memory, random);
    }
    let pending: u64 = records.iter().map(|record| record.pending).sum();
    let total = all - pending;
    let signals = random.below(u64::from(sites));
    let quantile = random.below(1024);
    network.coordinator =
        CoordinatorRecord { total, base, threshold, signals, quantile, phase: Phase::Idle };
    network.coordinator_memory[8 + random.below(1024) as usize] = total;
    network.coordinator_memory[random.below(8) as usize] = random.pick(&[0, 100_000_000_000]);
    network.fill_unused_counts(random);
    network
}
