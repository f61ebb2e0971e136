//! Batches on whole networks that never arose, and on damaged ones: the proved code and the
//! separate implementation answer and leave the same, call by call.

mod both;
mod forge;
#[path = "../../reference/tests/support/mod.rs"]
mod support;

use both::batch::numbers_of;
use both::Both;
use forge::networks::{damage_network, some_network};
use reference::coordinator::{self, Phase};
use reference::message::Arrival;
use reference::network::MAX_MESSAGES;
use reference::refusal::*;
use reference::site::{self, MAX_ARRIVALS};
use support::{arrival, Random, TestNetwork};

/// A run of arrivals, most of them of items that their sites count.
fn some_run(network: &TestNetwork, random: &mut Random) -> Vec<Arrival> {
    let length = random.pick(&[0, 1, 2, 5, 25]);
    let settings = &network.settings;
    let mut arrivals = Vec::new();
    for _ in 0..length {
        let site = random.below32(settings.sites);
        let used = network.sites.records[site as usize].used.min(u64::from(settings.capacity));
        let item = if used > 0 && random.one_in(2) {
            network.memory_of(site)[4 * random.below(used) as usize]
        } else {
            random.below32(settings.universe)
        };
        let value = random.between(1, 1023);
        let value = random.pick(&[1, value, 511, 1022, 1023]);
        let mut next = arrival(site, item, random.value_or_touch(value));
        match random.below(150) {
            0 => next.site = random.pick(&[settings.sites, u32::MAX]),
            1 => next.item = random.pick(&[settings.universe, u32::MAX]),
            2 => next.value = random.pick(&[1024, u32::MAX]),
            _ => {}
        }
        arrivals.push(next);
    }
    arrivals
}

fn some_log(network: &TestNetwork, arrivals: &[Arrival], random: &mut Random) -> usize {
    let needed = network.settings.messages_per_arrival();
    let some = random.below(40) as usize;
    4 * random.pick(&[needed * arrivals.len(), needed * arrivals.len(), needed + some])
}

#[test]
fn forged_networks_agree() {
    let mut random = Random::new(3_001);
    let mut both = Both::new();
    let mut accepted = 0;
    for _ in 0..4_000 {
        let mut network = some_network(&mut random);
        assert_eq!(network.refusal(), ACCEPTED);
        for _ in 0..5 {
            let arrivals = some_run(&network, &mut random);
            let log_numbers = some_log(&network, &arrivals, &mut random);
            accepted += both.run_batch(&mut network, &arrivals, log_numbers).0.accepted;
        }
    }
    println!("{accepted} arrivals accepted");
    assert!(accepted > 40_000);
    // 11 where a number passed its limit within the call before.
    let met = [UNKNOWN_SITE, UNKNOWN_ITEM, UNKNOWN_VALUE, SITE_FULL, INCONSISTENT, SHORT_LOG];
    both.enough(20_000, &met, 100);
    both.enough(20_000, &[ACCEPTED], 5_000);
}

#[test]
fn damaged_networks_agree() {
    let mut random = Random::new(3_002);
    let mut both = Both::new();
    for _ in 0..1_500 {
        let network = some_network(&mut random);
        let arrivals = some_run(&network, &mut random);
        let log_numbers = some_log(&network, &arrivals, &mut random);
        for _ in 0..12 {
            let mut damaged = network.clone();
            damage_network(&mut damaged, &mut random);
            both.run_batch(&mut damaged, &arrivals, log_numbers);
        }
    }
    let met = [SETTING_RANGE, PHI_BELOW_EPSILON, TOO_FEW_COUNTERS, SHORT_MEMORY];
    both.enough(15_000, &met, 50);
    both.enough(15_000, &[INCONSISTENT], 5_000);
    assert!(both.wide >= 50);
}

/// A change to a network at rest; false where it can't be made.
type Change = fn(&mut TestNetwork, &mut Random) -> bool;

/// What makes a network inconsistent for a batch, though each of its parts is consistent.
const ONLY_FOR_A_BATCH: [(&str, Change); 9] = [
    ("collecting", |network, random| {
        in_phase(network, random, |site, _| Phase::Collecting { site })
    }),
    ("announcing", |network, random| {
        in_phase(network, random, |site, _| Phase::Announcing { site })
    }),
    ("probing", |network, random| {
        in_phase(network, random, |site, sum| Phase::Probing { site, low: 3, high: 900, sum })
    }),
    ("a site with another threshold", |network, random| {
        let site = random.below32(network.settings.sites) as usize;
        network.sites.records[site].threshold += 1;
        true
    }),
    ("all sites with another threshold", |network, _| {
        let sites = network.settings.sites as usize;
        network.sites.records[..sites].iter_mut().for_each(|record| record.threshold += 1);
        true
    }),
    ("one more in the total", |network, _| {
        network.coordinator.total += 1;
        if network.coordinator.threshold == 1 {
            network.coordinator_memory[network.settings.universe as usize + 5] += 1;
        }
        true
    }),
    ("one more pending", |network, random| {
        let site = random.below32(network.settings.sites) as usize;
        let record = &mut network.sites.records[site];
        record.pending += 1;
        record.pending < record.threshold
    }),
    ("one more arrival", |network, random| {
        let site = random.below32(network.settings.sites) as usize;
        let histogram = network.settings.site_memory_len() * site + network.settings.counters_len();
        network.sites.records[site].arrivals += 1;
        network.site_memory[histogram + 1023] += 1;
        network.sites.records[site].arrivals <= MAX_ARRIVALS
    }),
    ("too many messages of a site", |network, random| {
        let last = network.settings.sites - 1;
        let some = random.below32(last + 1);
        let site = random.pick(&[0, some, last]) as usize;
        let above = random.pick(&[MAX_MESSAGES + 1, MAX_MESSAGES + 2, u64::MAX]);
        network.sites.messages[site] = above;
        true
    }),
];

fn in_phase(network: &mut TestNetwork, random: &mut Random, of: fn(u64, u64) -> Phase) -> bool {
    let sites = u64::from(network.settings.sites);
    network.coordinator.signals = sites;
    network.coordinator.phase = of(random.below(sites), network.coordinator.base);
    true
}

/// Whether every site and the coordinator are consistent by themselves.
fn parts_consistent(network: &TestNetwork) -> bool {
    let TestNetwork { settings, sites, coordinator, coordinator_memory, .. } = network;
    let alone = |site: u32| {
        let memory = network.memory_of(site);
        site::call_refusal(settings, &sites.records[site as usize], memory) == ACCEPTED
    };
    (0..settings.sites).all(alone)
        && coordinator::call_refusal(settings, coordinator, coordinator_memory) == ACCEPTED
}

#[test]
fn inconsistent_for_a_batch_alone() {
    let mut random = Random::new(3_003);
    let mut both = Both::new();
    let mut made = [0; ONLY_FOR_A_BATCH.len()];
    for _ in 0..600 {
        let mut network = some_network(&mut random);
        // As many messages of every site as may be are no cause, nor is any number from k on.
        network.sites.messages = [MAX_MESSAGES; 32];
        network.fill_unused_counts(&mut random);
        let arrivals = some_run(&network, &mut random);
        let log_numbers = some_log(&network, &arrivals, &mut random);
        for (place, (name, change)) in ONLY_FOR_A_BATCH.iter().enumerate() {
            let mut changed = network.clone();
            if !change(&mut changed, &mut random) {
                continue;
            }
            assert!(parts_consistent(&changed), "{name} {:?}", numbers_of(&changed.settings));
            let (answer, _) = both.run_batch(&mut changed, &arrivals, log_numbers);
            assert_eq!(answer.refusal, INCONSISTENT, "{name}");
            made[place] += 1;
        }
        let (answer, _) = both.run_batch(&mut network, &arrivals, log_numbers);
        assert_ne!(answer.refusal, INCONSISTENT);
    }
    println!("made {made:?}");
    assert!(made.iter().all(|&times| times > 100));
}
