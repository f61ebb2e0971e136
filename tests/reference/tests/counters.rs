//! The counters of a site against Space-Saving written out plainly, on streams
//! and on memory that never arose.

mod support;

use reference::message::Outgoing;
use reference::refusal;
use reference::settings::Settings;
use reference::site::{observe_with_departure, Departure, SiteRecord};
use support::account::{check_draw, counters_of};
use support::plain::PlainSite;
use support::{arrival, Random};

/// Six counters at least for the largest epsilon; universes around that.
fn settings(capacity: u32, universe: u32) -> Settings {
    Settings::from_numbers([1, 1000, 1000, 500, capacity, universe])
}

/// Compares `arrivals` steps of both from the same counters on: what left them as well, and what
/// was forgotten. A touch leaves all as it was. Answers what left.
fn compare(
    settings: &Settings,
    mut record: SiteRecord,
    mut memory: Vec<u32>,
    arrivals: u32,
    random: &mut Random,
) -> Vec<Departure> {
    let capacity = settings.capacity as usize;
    let mut plain = PlainSite::of(0, counters_of(&record, &memory), capacity, record.pending);
    let mut departures = Vec::new();
    let dropped = record.dropped;
    for _ in 0..arrivals {
        let (item, value) = (random.below32(settings.universe), random.between(1, 1023));
        let before = (record, counters_of(&record, &memory));
        let next = arrival(0, item, random.value_or_touch(value));
        let mut departure = None;
        let given = memory.clone();
        let outgoing =
            observe_with_departure(settings, next, &mut record, &mut memory, &mut departure);
        assert_eq!(outgoing.refusal, refusal::ACCEPTED);
        if !next.is_draw() {
            assert_eq!((outgoing.count, departure), (0, None));
            assert!(record == before.0 && memory == given);
            continue;
        }
        assert_eq!(outgoing.sent(), plain.observe(item, value, record.threshold));
        assert_eq!(record.pending, plain.pending);
        let counters = counters_of(&record, &memory);
        assert_eq!(counters, plain.counters);
        check_draw((&before.0, &before.1), (&record, &counters), departure, outgoing.sent());
        departures.extend(departure);
        assert_eq!(record.dropped, dropped + plain.dropped());
    }
    assert_eq!(departures, plain.departures);
    departures
}

#[test]
fn from_a_fresh_start() {
    let mut random = Random::new(701);
    let mut departures = Vec::new();
    for round in 0..200 {
        let settings = settings(random.between(6, 12), random.between(1, 30));
        let memory = vec![0; settings.site_memory_len()];
        let record = SiteRecord { threshold: 1 + round % 7, ..SiteRecord::FRESH };
        departures.extend(compare(&settings, record, memory, 300, &mut random));
    }
    // Both sorts are met: what left with nothing unreported, and with something.
    let silent = departures.iter().filter(|departure| departure.unreported == 0).count();
    assert!(silent > 1000 && departures.len() - silent > 1000);
}

/// Memory that passes but never arose, with items held twice.
#[test]
fn from_any_consistent_memory() {
    let mut random = Random::new(702);
    for _ in 0..500 {
        let settings = settings(random.between(6, 9), random.between(1, 12));
        let mut memory = vec![0; settings.site_memory_len()];
        let threshold = u64::from(random.between(1, 20));
        let used = random.between(0, settings.capacity);
        for place in 0..used as usize {
            let count = random.between(0, 40);
            let unreported = random.below32(threshold as u32).min(count);
            let reported = random.between(0, count - unreported);
            let overestimate = count - unreported - reported;
            let item = random.below32(settings.universe);
            memory[4 * place..4 * place + 4].copy_from_slice(&[
                item,
                count,
                overestimate,
                reported,
            ]);
        }
        // So many arrivals that all that is unreported may be forgotten as well.
        let arrivals = 400;
        memory[settings.counters_len() + 5] = arrivals as u32;
        let (pending, dropped) = (random.below(threshold), random.below(200));
        let used = u64::from(used);
        let record = SiteRecord { arrivals, pending, threshold, used, dropped };
        compare(&settings, record, memory, 60, &mut random);
    }
}

/// Of equal counts the least item is replaced, of equal items the lowest place. What it had
/// unreported is forgotten, and not what another counter of the same item has.
#[test]
fn ties() {
    let settings = settings(6, 20);
    let start = |items: [u32; 6]| {
        let mut memory = vec![0; settings.site_memory_len()];
        for (place, item) in items.into_iter().enumerate() {
            // The first two counters have one unreported.
            let reported = u32::from(place >= 2);
            memory[4 * place..4 * place + 4].copy_from_slice(&[item, 1, 0, reported]);
        }
        memory[settings.counters_len() + 5] = 6;
        memory
    };
    let record = SiteRecord { arrivals: 6, pending: 0, threshold: 3, used: 6, dropped: 2 };
    let left = |item, unreported| Some(Departure { item, unreported });
    for (items, item, place, counter, departure, dropped) in [
        ([9, 8, 7, 3, 4, 5], 10, 3, [10, 2, 1, 0], left(3, 0), 2),
        ([9, 3, 7, 3, 4, 5], 10, 1, [10, 2, 1, 0], left(3, 1), 3),
        ([9, 8, 3, 3, 4, 5], 10, 2, [10, 2, 1, 0], left(3, 0), 2),
        ([9, 3, 7, 3, 4, 5], 3, 1, [3, 2, 0, 0], None, 2),
    ] {
        let (mut record, before) = (record, start(items));
        let mut memory = before.clone();
        let next = arrival(0, item, 5);
        let mut told = None;
        let outgoing = observe_with_departure(&settings, next, &mut record, &mut memory, &mut told);
        assert_eq!(outgoing, Outgoing::none(refusal::ACCEPTED));
        assert_eq!((told, record.dropped), (departure, dropped));
        let mut expected = before;
        expected[4 * place..4 * place + 4].copy_from_slice(&counter);
        expected[settings.counters_len() + 5] += 1;
        assert_eq!(memory, expected);
    }
}
