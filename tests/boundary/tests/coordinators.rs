//! Messages, announcements and readings at coordinators that never arose, and at damaged ones: the
//! proved code and the separate implementation answer and leave the same, call by call.

mod both;
mod forge;
#[path = "../../reference/tests/support/mod.rs"]
mod support;

use std::cmp::Ordering;

use both::Both;
use forge::{any, damage_coordinator, some_coordinator, Coordinator};
use reference::coordinator::Phase;
use reference::message::{Message, COUNT_REPORT, ITEM_REPORT, POLL_ANSWER, PROBE_ANSWER};
use reference::refusal::*;
use reference::settings::Settings;
use reference::site::MAX_ARRIVALS;
use support::{message, Random};

/// A message that is due in the coordinator's phase; while it announces none is.
fn due_message(coordinator: &Coordinator, random: &mut Random) -> Message {
    let rules = Settings::from_numbers(coordinator.settings);
    let record = &coordinator.record;
    let any_site = random.below32(rules.sites);
    match record.phase {
        Phase::Idle if random.one_in(3) => {
            let item = u64::from(random.below32(rules.universe));
            message(ITEM_REPORT, any_site, item, record.threshold)
        }
        Phase::Collecting { site } => {
            let some = random.below(record.threshold.max(1));
            let pending = random.pick(&[0, some, record.threshold.saturating_sub(1)]);
            message(POLL_ANSWER, site as u32, pending, 0)
        }
        Phase::Probing { site, low, high, .. } => {
            let some = random.below(MAX_ARRIVALS + 1);
            let below = random.pick(&[0, some, record.base.min(MAX_ARRIVALS), MAX_ARRIVALS]);
            message(PROBE_ANSWER, site as u32, (low % 1024 + high % 1024) / 2, below)
        }
        _ => {
            let value = if record.threshold == 1 { random.below(1024) } else { 0 };
            message(COUNT_REPORT, any_site, record.threshold, value)
        }
    }
}

/// A message with one number or more that may be anything.
fn junk_message(coordinator: &Coordinator, random: &mut Random) -> Message {
    let mut message = due_message(coordinator, random);
    let sites = coordinator.settings[0];
    match random.below(8) {
        0 => message.kind = random.below32(9),
        1 => message.kind = any(random) as u32,
        2 => message.site = random.pick(&[message.site.wrapping_add(1), sites, u32::MAX]),
        3 => message.a = random.pick(&[message.a.wrapping_add(1), message.a.wrapping_sub(1)]),
        4 => message.a = any(random),
        5 => message.b = random.pick(&[message.b.wrapping_add(1), message.b.wrapping_sub(1)]),
        6 => message.b = any(random),
        _ => {
            message =
                self::message(random.below32(9), random.below32(sites), any(random), any(random))
        }
    }
    message
}

/// One call that may change the coordinator, which keeps what it leaves.
fn call(both: &mut Both, coordinator: &mut Coordinator, random: &mut Random) {
    let Coordinator { settings, .. } = *coordinator;
    let announcing = matches!(coordinator.record.phase, Phase::Announcing { .. });
    if if announcing { !random.one_in(8) } else { random.one_in(12) } {
        both.next_announcement(settings, &mut coordinator.record, &coordinator.memory);
        return;
    }
    let sent = if random.one_in(3) {
        junk_message(coordinator, random)
    } else {
        due_message(coordinator, random)
    };
    let Coordinator { record, memory, .. } = coordinator;
    both.receive_at_coordinator(settings, sent, record, memory);
}

/// Margins below, at and above zero.
#[derive(Default)]
struct Margins {
    below: u64,
    zero: u64,
    above: u64,
}

/// All readings: the list with every interesting number of places, margins, the quantile.
fn read(both: &mut Both, coordinator: &Coordinator, margins: &mut Margins, random: &mut Random) {
    let Coordinator { settings, record, memory } = coordinator;
    let universe = settings[5].min(65_536);
    let listed = both.list(*settings, record, memory, universe as usize);
    if let Ok(count) = listed {
        // Exact fit, one short, and one more.
        assert_eq!(both.list(*settings, record, memory, count), Ok(count));
        assert_eq!(both.list(*settings, record, memory, count + 1), Ok(count));
        if count > 0 {
            assert_eq!(both.list(*settings, record, memory, count - 1), Err(SHORT_LIST));
        }
    }
    let some = random.below32(universe.max(1));
    let item = random.pick(&[some, some, universe.saturating_sub(1), universe, u32::MAX]);
    if let Ok(margin) = both.margin(*settings, record, memory, item) {
        match margin.cmp(&0) {
            Ordering::Less => margins.below += 1,
            Ordering::Equal => margins.zero += 1,
            Ordering::Greater => margins.above += 1,
        }
    }
    let _ = both.quantile(*settings, record, memory);
}

const AT_COORDINATOR: [u8; 11] = [
    ACCEPTED,
    SETTING_RANGE,
    PHI_BELOW_EPSILON,
    TOO_FEW_COUNTERS,
    SHORT_MEMORY,
    INCONSISTENT,
    UNKNOWN_SITE,
    MESSAGE_NOT_DUE,
    UNKNOWN_ITEM,
    UNKNOWN_VALUE,
    AMOUNT_NOT_DUE,
];

#[test]
fn forged_coordinators_agree() {
    let mut random = Random::new(911);
    let mut both = Both::new();
    for _ in 0..6_000 {
        let mut coordinator = some_coordinator(&mut random);
        for _ in 0..30 {
            call(&mut both, &mut coordinator, &mut random);
        }
    }
    both.enough(180_000, &AT_COORDINATOR[6..], 500);
    both.enough(180_000, &[ACCEPTED], 100_000);
}

#[test]
fn damaged_coordinators_agree() {
    let mut random = Random::new(912);
    let mut both = Both::new();
    let mut margins = Margins::default();
    for _ in 0..8_000 {
        let coordinator = some_coordinator(&mut random);
        for _ in 0..10 {
            let mut damaged = coordinator.clone();
            damage_coordinator(&mut damaged, &mut random);
            read(&mut both, &damaged, &mut margins, &mut random);
            let sent = due_message(&coordinator, &mut random);
            let Coordinator { settings, record, memory } = &mut damaged;
            both.receive_at_coordinator(*settings, sent, record, memory);
            both.next_announcement(*settings, record, memory);
        }
    }
    both.enough(300_000, &AT_COORDINATOR[..6], 500);
    both.enough(300_000, &[INCONSISTENT], 50_000);
    // Numbers that don't fit the proved record are refused by the boundary.
    assert!(both.wide >= 500);
}

#[test]
fn readings_agree() {
    let mut random = Random::new(913);
    let mut both = Both::new();
    let mut margins = Margins::default();
    for _ in 0..20_000 {
        let coordinator = some_coordinator(&mut random);
        read(&mut both, &coordinator, &mut margins, &mut random);
    }
    both.enough(100_000, &[ACCEPTED, UNKNOWN_ITEM, SHORT_LIST], 1_000);
    let Margins { below, zero, above } = margins;
    println!("margins below zero {below}, zero {zero}, above {above}");
    assert!(below.min(zero).min(above) > 300);
}
