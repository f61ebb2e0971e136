//! Records and memory that pass 11 but never arose, and damage to any of them.

// Each test file uses a part of this module only.
#![allow(dead_code)]

pub mod networks;

use reference::coordinator::{CoordinatorRecord, Phase, MAX_NUMBER};
use reference::settings::{threshold_of, Settings};
use reference::site::{SiteRecord, MAX_ARRIVALS, SITE_NUMBERS};

use crate::support::Random;

/// Numbers at which something changes.
pub const EDGES: [u64; 18] = [
    0,
    1,
    2,
    3,
    4,
    6,
    511,
    1022,
    1023,
    1024,
    999_999_999,
    1_000_000_000,
    1_000_000_001,
    u32::MAX as u64,
    1 << 32,
    100_000_000_000,
    100_000_000_001,
    u64::MAX,
];

/// Any number, most often one at which something changes.
pub fn any(random: &mut Random) -> u64 {
    if random.one_in(4) {
        random.next() >> random.below(64)
    } else {
        random.pick(&EDGES)
    }
}

/// Settings that pass their test: all numbers of sites, few and many counters and items.
pub fn some_settings(random: &mut Random) -> [u32; 6] {
    let sites = if random.one_in(2) { random.pick(&[1, 2, 3]) } else { random.between(1, 32) };
    let few = random.between(6, 16);
    let capacity = if random.one_in(200) { 3000 } else { random.pick(&[few, few, 100]) };
    let epsilon = random.between(6000_u32.div_ceil(capacity).max(2), 1000);
    let phi = random.between(epsilon, 1000);
    let rank = random.between(1, 1000);
    let universe = random.between(1, 20);
    let universe =
        if random.one_in(300) { 65_536 } else { random.pick(&[universe, universe, 300]) };
    [
        sites,
        epsilon,
        random.pick(&[epsilon, phi, 1000]),
        random.pick(&[1, rank, 1000]),
        capacity,
        universe,
    ]
}

/// Settings with a number or two changed.
pub fn damaged_settings(mut settings: [u32; 6], random: &mut Random) -> [u32; 6] {
    for _ in 0..random.between(1, 2) {
        let place = random.below(6) as usize;
        settings[place] = match random.below(4) {
            0 => settings[place].wrapping_add(1),
            1 => settings[place].wrapping_sub(1),
            _ => random.pick(&[0, 1, 2, 5, 33, 1001, 3001, 65_537, u32::MAX]),
        };
    }
    settings
}

/// A site's record, with memory that may be longer than it needs.
#[derive(Clone)]
pub struct Site {
    pub settings: [u32; 6],
    pub record: SiteRecord,
    pub memory: Vec<u32>,
}

/// A consistent site that never arose: items may be held twice, counts and what was forgotten have
/// nothing to do with the histogram, and counters that are not in use hold anything.
pub fn some_site(random: &mut Random) -> Site {
    let settings = some_settings(random);
    let rules = Settings::from_numbers(settings);
    let capacity = u64::from(rules.capacity);
    let some = random.below(MAX_ARRIVALS + 1);
    let arrivals = random.pick(&[
        0,
        1,
        3,
        50,
        1_000_000,
        some,
        MAX_ARRIVALS - 1,
        MAX_ARRIVALS - 9,
        MAX_ARRIVALS,
    ]);
    let some = random.below(MAX_ARRIVALS) + 1;
    let threshold = random.pick(&[1, 1, 2, 3, 50, some, 333_333_333, MAX_ARRIVALS]);
    let some = random.below(threshold);
    let pending = random.pick(&[0, threshold - 1, some]);
    let some = random.below(capacity + 1);
    let used = random.pick(&[0, some, capacity - 1, capacity, capacity]);
    let dropped = some_dropped(arrivals, random);
    let record = SiteRecord { arrivals, pending, threshold, used, dropped };
    let mut memory: Vec<u32> = (0..rules.site_memory_len() + random.below(3) as usize)
        .map(|_| random.next() as u32)
        .collect();
    forge_site_memory(&rules, &record, &mut memory, random);
    Site { settings, record, memory }
}

/// What a site with so many arrivals has forgotten: nothing, some, or as much as it may.
fn some_dropped(arrivals: u64, random: &mut Random) -> u64 {
    let some = random.below(arrivals + 1);
    random.pick(&[0, 0, some, arrivals / 2, arrivals - arrivals.min(1), arrivals])
}

/// Sets the counters in use and the histogram so that they fit the record.
fn forge_site_memory(
    rules: &Settings,
    record: &SiteRecord,
    memory: &mut [u32],
    random: &mut Random,
) {
    let kinds = random.between(1, rules.universe);
    // Where all counts are high, much goes with the item that leaves.
    let arrivals = record.arrivals as u32;
    let least = if random.one_in(3) { arrivals - arrivals / 8 } else { 0 };
    for counter in memory[..4 * record.used as usize].chunks_exact_mut(4) {
        counter.copy_from_slice(&some_counter(record, least, kinds, random));
    }
    let histogram = &mut memory[rules.counters_len()..rules.site_memory_len()];
    histogram.fill(0);
    let low = random.below(record.arrivals + 1) as u32;
    histogram[random.pick(&[0, 1, 511, 512, 1022])] = low;
    histogram[1023] = record.arrivals as u32 - low;
}

/// A counter with this count or more.
fn some_counter(record: &SiteRecord, least: u32, kinds: u32, random: &mut Random) -> [u32; 4] {
    let arrivals = record.arrivals as u32;
    let some = random.between(least, arrivals);
    let low = [1, 2, 3].map(|count| arrivals.min(count).max(least));
    let count = random.pick(&[some, arrivals, low[0], low[1], low[2]]);
    let most = u64::from(count).min(record.threshold - 1) as u32;
    let some = random.between(0, most);
    let unreported = random.pick(&[0, most, most, some]);
    let some = random.between(0, count - unreported);
    let overestimate = random.pick(&[0, some, count - unreported]);
    [random.below32(kinds), count, overestimate, count - unreported - overestimate]
}

/// Changes one to three numbers of a site, cuts its memory or changes its settings.
pub fn damage_site(site: &mut Site, random: &mut Random) {
    let rules = Settings::from_numbers(site.settings);
    match random.below(12) {
        0 => site.memory.truncate(rules.site_memory_len() - 1),
        1 => site.memory.truncate(random.below(rules.site_memory_len() as u64) as usize),
        2 => site.settings = damaged_settings(site.settings, random),
        _ => {
            for _ in 0..random.between(1, 3) {
                damage_site_number(site, random);
            }
        }
    }
}

fn damage_site_number(site: &mut Site, random: &mut Random) {
    let mut numbers = site.record.to_numbers();
    let place = random.below(SITE_NUMBERS as u64) as usize;
    match random.below(12) {
        0 | 1 => numbers[place] = any(random),
        2 | 3 => numbers[place] = numbers[place].wrapping_add(1),
        4 | 5 => numbers[place] = numbers[place].wrapping_sub(1),
        6 => {
            // Forgotten draws about as many as the arrivals.
            let arrivals = site.record.arrivals;
            let near = [arrivals, arrivals.wrapping_add(1), arrivals.wrapping_add(2)];
            numbers[SITE_NUMBERS - 1] = random.pick(&near);
        }
        _ => {
            // A number of a counter in use, or any.
            let in_use = 4 * site.record.used.min(3000);
            let bound = if random.one_in(3) { 0 } else { in_use };
            let all = site.memory.len() as u64;
            let at = random.below(if bound == 0 { all } else { bound.min(all) }) as usize;
            let number = any(random) as u32;
            let near = [site.memory[at].wrapping_add(1), site.memory[at].wrapping_sub(1), number];
            site.memory[at] = random.pick(&near);
        }
    }
    site.record = SiteRecord::from_numbers(numbers);
}

/// The coordinator's record, with memory that may be longer than it needs.
#[derive(Clone)]
pub struct Coordinator {
    pub settings: [u32; 6],
    pub record: CoordinatorRecord,
    pub memory: Vec<u64>,
}

/// A consistent coordinator that never arose, in any phase.
pub fn some_coordinator(random: &mut Random) -> Coordinator {
    let settings = some_settings(random);
    let rules = Settings::from_numbers(settings);
    let some = random.below(MAX_NUMBER + 1);
    let base = random.pick(&[0, 0, 1, 5, 6, 500, 100_000, some, MAX_NUMBER]);
    let more = random.below(MAX_NUMBER - base + 1);
    let total = base + random.pick(&[0, 0, more.min(3), more]);
    let threshold = threshold_of(&rules, base);
    let phase = some_phase(&rules, base, random);
    let some = random.below32(rules.sites);
    let signals = match phase {
        Phase::Idle => random.pick(&[0, rules.sites - 1, some]),
        _ => rules.sites,
    };
    let quantile = random.pick(&[0, 511, 1023]);
    let signals = u64::from(signals);
    let record = CoordinatorRecord { total, base, threshold, signals, quantile, phase };
    let memory = forge_coordinator_memory(&rules, &record, random);
    Coordinator { settings, record, memory }
}

/// Memory that fits the record, and may be longer than it needs.
fn forge_coordinator_memory(
    rules: &Settings,
    record: &CoordinatorRecord,
    random: &mut Random,
) -> Vec<u64> {
    let universe = rules.universe as usize;
    let mut memory = vec![0; rules.coordinator_memory_len() + random.below(3) as usize];
    for number in &mut memory {
        *number = if random.one_in(40) { any(random).min(MAX_NUMBER) } else { random.below(9) };
    }
    forge_estimates(rules, record.total, &mut memory[..universe], random);
    if record.threshold == 1 {
        let histogram = &mut memory[universe..universe + 1024];
        histogram.fill(0);
        let low = random.below(record.total + 1);
        histogram[random.pick(&[0, 1, 511, 512, 1022])] = low;
        histogram[1023] = record.total - low;
    }
    // What lies past the end may be anything.
    memory[rules.coordinator_memory_len()..].fill(u64::MAX);
    memory
}

/// Some estimates around the list rule's edge: 2000 × number = (2 × phi - epsilon) × total.
fn forge_estimates(rules: &Settings, total: u64, estimates: &mut [u64], random: &mut Random) {
    let share = 2 * u64::from(rules.phi) - u64::from(rules.epsilon);
    let edge = (share * total).div_ceil(2000).min(MAX_NUMBER - 1);
    let changed = random.below(estimates.len().min(6) as u64 + 1);
    for _ in 0..changed {
        let at = random.below(estimates.len() as u64) as usize;
        estimates[at] =
            random.pick(&[edge, edge, edge + 1, edge.saturating_sub(1), total, MAX_NUMBER]);
    }
}

fn some_phase(rules: &Settings, base: u64, random: &mut Random) -> Phase {
    let some = random.below32(rules.sites);
    let site = u64::from(random.pick(&[some, rules.sites - 1, 0]));
    match random.below(4) {
        0 => Phase::Idle,
        1 => Phase::Collecting { site },
        2 => {
            let some = random.below32(1023);
            let low = random.pick(&[0, 1, 511, some, 1022]);
            let some = random.between(low + 1, 1023);
            let high = random.pick(&[low + 1, some, 1023]);
            // Sums at which 1000 × sum reaches rank × base.
            let edge = (u64::from(rules.rank) * base).div_ceil(1000);
            let sum = random.pick(&[0, edge, edge.saturating_sub(1), base, MAX_NUMBER]);
            Phase::Probing { site, low: u64::from(low), high: u64::from(high), sum }
        }
        _ => Phase::Announcing { site },
    }
}

/// Changes one to three numbers of a coordinator, cuts its memory or changes its settings.
pub fn damage_coordinator(coordinator: &mut Coordinator, random: &mut Random) {
    let rules = Settings::from_numbers(coordinator.settings);
    match random.below(12) {
        0 => coordinator.memory.truncate(rules.coordinator_memory_len() - 1),
        1 => {
            let kept = random.below(rules.coordinator_memory_len() as u64) as usize;
            coordinator.memory.truncate(kept);
        }
        2 => coordinator.settings = damaged_settings(coordinator.settings, random),
        _ => {
            for _ in 0..random.between(1, 3) {
                damage_coordinator_number(coordinator, random);
            }
        }
    }
}

fn damage_coordinator_number(coordinator: &mut Coordinator, random: &mut Random) {
    let mut numbers = coordinator.record.to_numbers();
    let place = random.below(10) as usize;
    match random.below(5) {
        0 => numbers[place] = any(random),
        1 => numbers[place] = numbers[place].wrapping_add(1),
        2 => numbers[place] = numbers[place].wrapping_sub(1),
        _ => {
            let at = random.below(coordinator.memory.len() as u64) as usize;
            let held = coordinator.memory[at];
            let number = any(random);
            coordinator.memory[at] =
                random.pick(&[held.wrapping_add(1), held.wrapping_sub(1), number]);
        }
    }
    numbers[5] %= 4;
    // The phase keeps its own numbers only.
    if let Some(record) = CoordinatorRecord::from_numbers(numbers) {
        coordinator.record = record;
    }
}
