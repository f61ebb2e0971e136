//! Whole networks that pass the batch call's test but never arose, and damage to any of them.

use reference::coordinator::{CoordinatorRecord, Phase};
use reference::network::MAX_MESSAGES;
use reference::settings::{threshold_of, Settings};
use reference::site::{SiteRecord, Sites, MAX_ARRIVALS, SITE_NUMBERS};

use super::{
    any, damage_coordinator, damage_site, damaged_settings, forge_coordinator_memory,
    forge_site_memory, some_dropped, some_settings, Coordinator, Site,
};
use crate::both::batch::numbers_of;
use crate::support::{Random, TestNetwork};

/// A consistent network at rest: equal thresholds, all arrivals counted, and nothing else right.
pub fn some_network(random: &mut Random) -> TestNetwork {
    let settings = Settings::from_numbers(some_settings(random));
    let sites = settings.sites as usize;
    let most = random.pick(&[1, 50, 1_000_000, MAX_ARRIVALS, MAX_ARRIVALS]);
    let arrivals: Vec<u64> = (0..sites).map(|_| some_arrivals(most, random)).collect();
    let all: u64 = arrivals.iter().sum();
    let some = random.below(all + 1);
    let base = random.pick(&[0, all.min(6), some, all - all.min(100), all]);
    let threshold = threshold_of(&settings, base);
    let mut total = all;
    // With many sites that forgot much, one of them would soon have forgotten too much.
    let forgetful = random.one_in(2);
    let mut records = Sites::FRESH;
    for (record, &arrivals) in records.records.iter_mut().zip(&arrivals) {
        let most = (threshold - 1).min(total - base);
        let some = random.below(most + 1);
        let pending = random.pick(&[0, some, most]);
        total -= pending;
        let capacity = u64::from(settings.capacity);
        let some = random.below(capacity + 1);
        let used = random.pick(&[0, some, capacity - 1, capacity, capacity]);
        let dropped = if forgetful { some_dropped(arrivals, random) } else { 0 };
        *record = SiteRecord { arrivals, pending, threshold, used, dropped };
    }
    let full = random.one_in(8);
    for count in &mut records.messages[..sites] {
        let some = random.below(MAX_MESSAGES + 1);
        *count = if full || random.one_in(8) { MAX_MESSAGES } else { some };
    }
    // Sites from k on are not looked at.
    for record in &mut records.records[sites..] {
        *record = SiteRecord::from_numbers([(); SITE_NUMBERS].map(|()| any(random)));
    }
    for count in &mut records.messages[sites..] {
        let some = any(random);
        *count = random.pick(&[some, MAX_MESSAGES + 1, u64::MAX]);
    }
    let signals = u64::from(random.below32(settings.sites));
    let signals = random.pick(&[0, signals, u64::from(settings.sites) - 1]);
    let quantile = random.pick(&[0, 511, 1023]);
    let phase = Phase::Idle;
    let coordinator = CoordinatorRecord { total, base, threshold, signals, quantile, phase };
    TestNetwork {
        settings,
        sites: records,
        site_memory: some_site_memory(&settings, &records, random),
        coordinator,
        coordinator_memory: forge_coordinator_memory(&settings, &coordinator, random),
    }
}

fn some_arrivals(most: u64, random: &mut Random) -> u64 {
    let some = random.below(most + 1);
    random.pick(&[0, some, some, most - most.min(1), most - most.min(9), most])
}

fn some_site_memory(settings: &Settings, sites: &Sites, random: &mut Random) -> Vec<u32> {
    let mut memory: Vec<u32> = (0..settings.sites_memory_len() + random.below(3) as usize)
        .map(|_| random.next() as u32)
        .collect();
    let parts = memory.chunks_exact_mut(settings.site_memory_len());
    for (record, part) in sites.records[..settings.sites as usize].iter().zip(parts) {
        forge_site_memory(settings, record, part, random);
    }
    memory
}

/// Changes some numbers of the network anywhere, cuts its memory or changes its settings.
pub fn damage_network(network: &mut TestNetwork, random: &mut Random) {
    let settings = network.settings;
    match random.below(10) {
        0 => network.settings = Settings::from_numbers(damaged(&settings, random)),
        1 => cut(&mut network.site_memory, settings.sites_memory_len(), random),
        2 => cut(&mut network.coordinator_memory, settings.coordinator_memory_len(), random),
        3 => {
            let site = random.below32(settings.sites) as usize;
            let some = any(random);
            network.sites.messages[site] = random.pick(&[some, some, MAX_MESSAGES + 1]);
        }
        4..=6 => {
            let mut coordinator = Coordinator {
                settings: numbers_of(&settings),
                record: network.coordinator,
                memory: network.coordinator_memory.clone(),
            };
            damage_coordinator(&mut coordinator, random);
            network.coordinator = coordinator.record;
            network.coordinator_memory = coordinator.memory;
        }
        _ => damage_a_site(network, random),
    }
}

fn damage_a_site(network: &mut TestNetwork, random: &mut Random) {
    let settings = network.settings;
    let site = random.below32(settings.sites) as usize;
    let from = settings.site_memory_len() * site;
    let mut damaged = Site {
        settings: numbers_of(&settings),
        record: network.sites.records[site],
        memory: network.site_memory[from..].to_vec(),
    };
    damage_site(&mut damaged, random);
    network.sites.records[site] = damaged.record;
    network.site_memory.truncate(from);
    network.site_memory.extend(damaged.memory);
}

fn damaged(settings: &Settings, random: &mut Random) -> [u32; 6] {
    damaged_settings(numbers_of(settings), random)
}

fn cut<T>(memory: &mut Vec<T>, needed: usize, random: &mut Random) {
    let some = random.below(needed as u64) as usize;
    memory.truncate(random.pick(&[needed - 1, some]));
}
