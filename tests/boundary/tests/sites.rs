//! Arrivals and messages at sites that never arose, and at damaged ones: the proved code and the
//! separate implementation answer and leave the same, call by call.

mod both;
mod forge;
#[path = "../../reference/tests/support/mod.rs"]
mod support;

use both::Both;
use forge::{any, damage_site, damaged_settings, some_settings, some_site, Site};
use reference::message::{Arrival, Message, ANNOUNCEMENT, POLL, PROBE};
use reference::refusal::*;
use reference::settings::{Settings, MAX_VALUE};
use reference::site::MAX_ARRIVALS;
use support::{arrival, message, Random};

/// An arrival that is due, most of them of items that the site counts.
fn due_arrival(site: &Site, random: &mut Random) -> Arrival {
    let rules = Settings::from_numbers(site.settings);
    let counters = site.memory.len().min(4 * site.record.used as usize) / 4;
    let item = if counters > 0 && random.one_in(2) {
        site.memory[4 * random.below(counters as u64) as usize].min(rules.universe - 1)
    } else {
        random.below32(rules.universe)
    };
    let value = random.between(1, 1023);
    let value = random.pick(&[1, value, 511, 1022, 1023]);
    arrival(random.below32(rules.sites), item, random.value_or_touch(value))
}

/// An arrival with one number or more that may be anything.
fn junk_arrival(site: &Site, random: &mut Random) -> Arrival {
    let mut arrival = due_arrival(site, random);
    let rules = Settings::from_numbers(site.settings);
    match random.below(4) {
        0 => arrival.site = random.pick(&[rules.sites, rules.sites - 1, u32::MAX]),
        1 => arrival.item = random.pick(&[rules.universe, rules.universe - 1, u32::MAX]),
        2 => arrival.value = random.pick(&[MAX_VALUE, MAX_VALUE + 1, u32::MAX]),
        _ => arrival = self::arrival(any(random) as u32, any(random) as u32, any(random) as u32),
    }
    arrival
}

/// A message that is due, for the site with this number.
fn due_message(site: &Site, which: u32, random: &mut Random) -> Message {
    let kind = random.pick(&[POLL, PROBE, PROBE, ANNOUNCEMENT]);
    let a = match kind {
        POLL => 0,
        PROBE => random.below(1024),
        _ => {
            let threshold = site.record.threshold;
            let more = random.below(MAX_ARRIVALS - threshold + 1);
            threshold + random.pick(&[0, 1.min(more), more, MAX_ARRIVALS - threshold])
        }
    };
    message(kind, which, a, if kind == ANNOUNCEMENT { any(random) } else { 0 })
}

/// A message with one number or more that may be anything.
fn junk_message(site: &Site, which: u32, random: &mut Random) -> Message {
    let mut message = due_message(site, which, random);
    match random.below(6) {
        0 => message.kind = random.below32(9),
        1 => message.kind = any(random) as u32,
        2 => message.site = random.pick(&[which.wrapping_add(1), site.settings[0], u32::MAX]),
        3 => message.a = random.pick(&[message.a.wrapping_add(1), message.a.wrapping_sub(1)]),
        4 => message.a = any(random),
        _ => message.b = any(random),
    }
    message
}

/// One call at the site, which keeps what it leaves.
fn call(both: &mut Both, site: &mut Site, random: &mut Random) {
    let sites = site.settings[0];
    let some = random.below32(sites.clamp(1, 32));
    let which = if random.one_in(20) { random.pick(&[sites, u32::MAX]) } else { some };
    match random.below(8) {
        0..=3 => {
            let next = due_arrival(site, random);
            both.observe(site.settings, next, &mut site.record, &mut site.memory);
        }
        4 => {
            let next = junk_arrival(site, random);
            both.observe(site.settings, next, &mut site.record, &mut site.memory);
        }
        5 | 6 => {
            let sent = due_message(site, which, random);
            both.receive_at_site(site.settings, which, sent, &mut site.record, &site.memory);
        }
        _ => {
            let sent = junk_message(site, which, random);
            both.receive_at_site(site.settings, which, sent, &mut site.record, &site.memory);
        }
    }
}

const AT_SITES: [u8; 12] = [
    ACCEPTED,
    SETTING_RANGE,
    PHI_BELOW_EPSILON,
    TOO_FEW_COUNTERS,
    SHORT_MEMORY,
    UNKNOWN_SITE,
    UNKNOWN_ITEM,
    UNKNOWN_VALUE,
    SITE_FULL,
    MESSAGE_NOT_DUE,
    AMOUNT_NOT_DUE,
    INCONSISTENT,
];

#[test]
fn forged_sites_agree() {
    let mut random = Random::new(901);
    let mut both = Both::new();
    for _ in 0..6_000 {
        let mut site = some_site(&mut random);
        for _ in 0..30 {
            call(&mut both, &mut site, &mut random);
        }
    }
    both.enough(180_000, &AT_SITES[5..11], 500);
    both.enough(180_000, &[ACCEPTED], 100_000);
}

#[test]
fn damaged_sites_agree() {
    let mut random = Random::new(902);
    let mut both = Both::new();
    for _ in 0..8_000 {
        let site = some_site(&mut random);
        for _ in 0..20 {
            let mut damaged = site.clone();
            damage_site(&mut damaged, &mut random);
            // What follows the damage is compared too.
            let due = due_arrival(&site, &mut random);
            both.observe(damaged.settings, due, &mut damaged.record, &mut damaged.memory);
            let sent = due_message(&site, due.site, &mut random);
            let Site { settings, record, memory } = &mut damaged;
            both.receive_at_site(*settings, due.site, sent, record, memory);
        }
    }
    both.enough(320_000, &AT_SITES[..5], 500);
    both.enough(320_000, &[INCONSISTENT], 50_000);
}

#[test]
fn starts_agree() {
    let mut random = Random::new(903);
    let mut both = Both::new();
    for _ in 0..2_000 {
        let mut settings = some_settings(&mut random);
        let rules = Settings::from_numbers(settings);
        let needed = rules.sites_memory_len();
        let some = random.below(needed as u64) as usize;
        let mut memory = vec![77; random.pick(&[needed, needed + 2, needed - 1, some])];
        let needed = rules.coordinator_memory_len();
        let some = random.below(needed as u64) as usize;
        let mut numbers = vec![77; random.pick(&[needed, needed + 2, needed - 1, some])];
        if random.one_in(3) {
            settings = damaged_settings(settings, &mut random);
        }
        both.start_sites(settings, &mut memory);
        both.start_coordinator(settings, &mut numbers);
    }
    both.enough(4_000, &AT_SITES[..5], 20);
}
