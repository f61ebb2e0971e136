//! The calls at a site where one process holds all sites: on networks that never arose, on damaged
//! ones and in whole runs, the proved code does what a site's own calls of the separate
//! implementation do with that site's part. A site that there is none of is 5, and nothing is
//! touched. The start of one site is there too.

mod both;
mod forge;
#[path = "../../reference/tests/support/mod.rs"]
mod support;

use std::collections::VecDeque;

use both::batch::numbers_of;
use both::Both;
use forge::networks::{damage_network, some_network};
use forge::{any, damaged_settings, some_settings};
use reference::coordinator::Phase;
use reference::message::{Arrival, Message, ANNOUNCEMENT, POLL, PROBE};
use reference::refusal::*;
use reference::settings::Settings;
use support::streams::{Source, ALL};
use support::{arrival, message, Random, TestNetwork};

/// A number below a bound most of the time, else at it or anything.
fn near(random: &mut Random, bound: u32) -> u32 {
    match random.below(8) {
        0 => bound,
        1 => random.pick(&[bound.wrapping_add(1), 31, 32, 33, u32::MAX]),
        _ => random.below32(bound.max(1)),
    }
}

fn some_arrival(network: &TestNetwork, random: &mut Random) -> Arrival {
    let Settings { sites, universe, .. } = network.settings;
    let value = near(random, 1024).max(1);
    arrival(near(random, sites), near(random, universe), random.value_or_touch(value))
}

fn some_message(network: &TestNetwork, random: &mut Random) -> Message {
    let Settings { sites, .. } = network.settings;
    let threshold = network.coordinator.threshold;
    let (some, value) = (any(random), random.below(1025));
    let kind = if random.one_in(8) { random.below32(9) } else { random.pick(&[3, 5, 7]) };
    let a = match kind {
        POLL => random.pick(&[0, 0, 0, 1, some]),
        PROBE => random.pick(&[0, value, value, 1023, 1024, some]),
        ANNOUNCEMENT => random.pick(&[threshold, threshold, threshold.wrapping_add(1), 1, some]),
        _ => some,
    };
    let b = if kind == ANNOUNCEMENT || random.one_in(8) { some } else { 0 };
    message(kind, near(random, sites), a, b)
}

#[test]
fn forged_and_damaged_networks_agree() {
    let mut random = Random::new(7_001);
    let mut both = Both::new();
    for round in 0..6_000 {
        let mut network = some_network(&mut random);
        if round % 2 == 1 {
            damage_network(&mut network, &mut random);
        }
        for _ in 0..3 {
            let next = some_arrival(&network, &mut random);
            both.observe_in(&mut network, next);
            let sent = some_message(&network, &mut random);
            both.receive_in(&mut network, sent);
        }
    }
    let met = [SETTING_RANGE, PHI_BELOW_EPSILON, TOO_FEW_COUNTERS, SHORT_MEMORY, INCONSISTENT];
    both.enough(36_000, &met, 100);
    let met = [UNKNOWN_SITE, UNKNOWN_ITEM, UNKNOWN_VALUE, SITE_FULL, MESSAGE_NOT_DUE];
    both.enough(36_000, &met, 300);
    both.enough(36_000, &[AMOUNT_NOT_DUE, ACCEPTED], 1_000);
}

/// Sites from k on have records that nobody looks at: neither is a draw for one of them taken, nor
/// a message, whatever stands there, and 5 comes before 11 and all else that a site could say.
#[test]
fn no_such_site() {
    let mut both = Both::new();
    for sites in [1, 2, 31] {
        let mut network = TestNetwork::start([sites, 1000, 1000, 500, 6, 10]);
        // Every site's record is inconsistent.
        network.sites.records.iter_mut().for_each(|record| record.threshold = 0);
        for site in [sites, sites + 1, 31, 32, 1 << 31, u32::MAX] {
            if site < sites {
                continue;
            }
            for next in [arrival(site, 7, 3), arrival(site, 10, 1024), arrival(site, 7, 0)] {
                assert_eq!(both.observe_in(&mut network, next).refusal, UNKNOWN_SITE);
            }
            for kind in 0..9 {
                let sent = message(kind, site, 0, 0);
                assert_eq!(both.receive_in(&mut network, sent).refusal, UNKNOWN_SITE);
            }
        }
        let next = arrival(sites - 1, 10, 1024);
        assert_eq!(both.observe_in(&mut network, next).refusal, INCONSISTENT);
        // Memory too short by one comes before all of it.
        network.site_memory.pop();
        assert_eq!(both.observe_in(&mut network, next).refusal, SHORT_MEMORY);
        let sent = message(POLL, u32::MAX, 0, 0);
        assert_eq!(both.receive_in(&mut network, sent).refusal, SHORT_MEMORY);
    }
}

/// 11 is tested of the named site alone: the others may hold anything.
#[test]
fn another_site_inconsistent() {
    let mut both = Both::new();
    let mut network = TestNetwork::start([3, 1000, 1000, 500, 6, 10]);
    network.sites.records[2].pending = 9;
    network.sites.messages = [u64::MAX; 32];
    assert_eq!(both.observe_in(&mut network, arrival(1, 7, 3)).refusal, ACCEPTED);
    assert_eq!(both.observe_in(&mut network, arrival(2, 7, 3)).refusal, INCONSISTENT);
    assert_eq!(both.receive_in(&mut network, message(POLL, 0, 0, 0)).refusal, ACCEPTED);
    assert_eq!(both.receive_in(&mut network, message(POLL, 2, 0, 0)).refusal, INCONSISTENT);
}

/// Whole runs with full delivery by these calls leave what the batch call leaves, and send what it
/// writes.
#[test]
fn runs_agree() {
    let mut both = Both::new();
    for (place, numbers) in
        [[1, 1000, 1000, 500, 6, 10], [3, 600, 700, 250, 10, 40], [32, 1000, 1000, 900, 6, 20]]
            .into_iter()
            .enumerate()
    {
        for (kind, &stream) in ALL.iter().enumerate() {
            let mut network = TestNetwork::start(numbers);
            let mut batches = network.clone();
            let mut source = Source::new(stream, 7_100 + 10 * place as u64 + kind as u64);
            for _ in 0..300 {
                let next = source.next(&network);
                let sent = deliver(&mut both, &mut network, next);
                assert_eq!(sent, batches.take(&[next]));
                batches.sites.messages = [0; 32];
                assert!(network == batches);
            }
        }
    }
    println!("{} calls", both.calls);
}

fn deliver(both: &mut Both, network: &mut TestNetwork, next: Arrival) -> Vec<Message> {
    let outgoing = both.observe_in(network, next);
    assert_eq!(outgoing.refusal, ACCEPTED);
    let mut sent = outgoing.sent().to_vec();
    let mut waiting = VecDeque::from(sent.clone());
    loop {
        let numbers = numbers_of(&network.settings);
        let outgoing = match waiting.pop_front() {
            Some(message) if matches!(message.kind, POLL | PROBE | ANNOUNCEMENT) => {
                both.receive_in(network, message)
            }
            Some(message) => {
                let TestNetwork { coordinator, coordinator_memory, .. } = network;
                both.receive_at_coordinator(numbers, message, coordinator, coordinator_memory)
            }
            None if matches!(network.coordinator.phase, Phase::Announcing { .. }) => {
                let TestNetwork { coordinator, coordinator_memory, .. } = network;
                both.next_announcement(numbers, coordinator, coordinator_memory)
            }
            None => return sent,
        };
        assert_eq!(outgoing.refusal, ACCEPTED);
        sent.extend(outgoing.sent());
        waiting.extend(outgoing.sent());
    }
}

#[test]
fn starts_of_one_site() {
    let mut random = Random::new(7_002);
    let mut both = Both::new();
    for _ in 0..2_000 {
        let mut settings = some_settings(&mut random);
        let needed = Settings::from_numbers(settings).site_memory_len();
        let some = random.below(needed as u64) as usize;
        let mut memory = vec![77; random.pick(&[needed, needed, needed + 2, needed - 1, some])];
        let which = near(&mut random, settings[0]);
        if random.one_in(3) {
            settings = damaged_settings(settings, &mut random);
        }
        both.start_site(settings, which, &mut memory);
    }
    let met = [ACCEPTED, SETTING_RANGE, PHI_BELOW_EPSILON, TOO_FEW_COUNTERS, SHORT_MEMORY];
    both.enough(2_000, &met, 20);
    both.enough(2_000, &[UNKNOWN_SITE], 100);
}
