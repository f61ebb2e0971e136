//! Each refusal of the calls with an arrival or of the coordinator's answers,
//! alone and together with others, and that a refused call changes nothing.

mod support;

use reference::coordinator::{self, Phase};
use reference::message::{Arrival, Message, Outgoing};
use reference::network::BatchAnswer;
use reference::refusal::*;
use reference::settings::Settings;
use reference::site::{self, SiteRecord, MAX_ARRIVALS};
use support::defects::{for_all_sets, Defect};
use support::full::fill_site;
use support::{arrival, TestNetwork};

/// Two sites of ten counters, ten items.
const SETTINGS: [u32; 6] = [2, 600, 700, 500, 10, 10];

#[derive(Clone, Debug, PartialEq)]
struct ObserveCall {
    settings: Settings,
    arrival: Arrival,
    record: SiteRecord,
    memory: Vec<u32>,
}

/// A site that took a few arrivals, and one that it would accept.
fn good_observe() -> ObserveCall {
    let mut network = TestNetwork::start(SETTINGS);
    network.take(&[arrival(1, 2, 3), arrival(1, 2, 4), arrival(0, 5, 6)]);
    ObserveCall {
        settings: network.settings,
        arrival: arrival(1, 9, 1023),
        record: network.sites.records[1],
        memory: network.memory_of(1).to_vec(),
    }
}

fn fill(call: &mut ObserveCall) {
    fill_site(&call.settings, &mut call.record, &mut call.memory);
}

#[test]
fn an_arrival_in_order() {
    let defects: [Defect<ObserveCall>; 9] = [
        (SETTING_RANGE, |call| call.settings.rank = 0),
        (PHI_BELOW_EPSILON, |call| call.settings.phi = 599),
        (TOO_FEW_COUNTERS, |call| call.settings.capacity = 9),
        (SHORT_MEMORY, |call| call.memory.truncate(40 + 1023)),
        (INCONSISTENT, |call| call.record.pending = call.record.threshold),
        (UNKNOWN_SITE, |call| call.arrival.site = 2),
        (UNKNOWN_ITEM, |call| call.arrival.item = 10),
        (UNKNOWN_VALUE, |call| call.arrival.value = 1024),
        (SITE_FULL, fill),
    ];
    let good = good_observe();
    for_all_sets(&good, &defects, |mut call, refusal| {
        let before = call.clone();
        let answer =
            site::observe(&call.settings, call.arrival, &mut call.record, &mut call.memory);
        assert_eq!(answer, Outgoing::none(refusal));
        assert_eq!(call, before);
    });
    let mut call = good;
    let answer = site::observe(&call.settings, call.arrival, &mut call.record, &mut call.memory);
    assert_eq!((answer.refusal, answer.count), (ACCEPTED, 2));
}

#[test]
fn the_last_arrival_before_a_site_is_full() {
    let mut call = good_observe();
    fill(&mut call);
    call.record.arrivals -= 1;
    call.memory[40 + 1] -= 1;
    let answer = site::observe(&call.settings, call.arrival, &mut call.record, &mut call.memory);
    assert_eq!(answer.refusal, ACCEPTED);
    assert_eq!(call.record.arrivals, MAX_ARRIVALS);
    let answer = site::observe(&call.settings, call.arrival, &mut call.record, &mut call.memory);
    assert_eq!(answer, Outgoing::none(SITE_FULL));
}

#[derive(Clone, Debug, PartialEq)]
struct BatchCall {
    network: TestNetwork,
    arrivals: Vec<Arrival>,
    log: Vec<Message>,
}

/// A batch of two arrivals, of which the second is to be refused.
fn good_batch() -> BatchCall {
    let mut network = TestNetwork::start(SETTINGS);
    network.take(&[arrival(1, 2, 3), arrival(1, 2, 4), arrival(0, 5, 6)]);
    let unused = support::message(77, 77, 77, 77);
    // The first arrival is the round's second, so it closes: eight messages.
    BatchCall { network, arrivals: vec![arrival(0, 1, 1), arrival(1, 9, 9)], log: vec![unused; 56] }
}

#[test]
fn a_batch_refused_when_it_starts() {
    let defects: [Defect<BatchCall>; 9] = [
        (SETTING_RANGE, |call| call.network.settings.universe = 65_537),
        (PHI_BELOW_EPSILON, |call| call.network.settings.phi = 599),
        (TOO_FEW_COUNTERS, |call| call.network.settings.capacity = 9),
        (SHORT_MEMORY, |call| call.network.site_memory.truncate(2 * 1064 - 1)),
        (SHORT_MEMORY, |call| call.network.coordinator_memory.truncate(1033)),
        (INCONSISTENT, |call| call.network.sites.messages[0] = 100_000_000_000_001),
        (INCONSISTENT, |call| call.network.sites.messages[1] = 100_000_000_000_001),
        (UNKNOWN_SITE, |call| call.arrivals[0].site = u32::MAX),
        (SHORT_LOG, |call| call.log.truncate(47)),
    ];
    for_all_sets(&good_batch(), &defects, |mut call, refusal| {
        let before = call.clone();
        let answer = call.network.run_batch(&call.arrivals, &mut call.log);
        assert_eq!(answer, BatchAnswer { accepted: 0, written: 0, refusal });
        assert_eq!(call, before);
    });
}

#[test]
fn a_batch_refused_at_its_second_arrival() {
    let defects: [Defect<BatchCall>; 5] = [
        (UNKNOWN_SITE, |call| call.arrivals[1].site = 2),
        (UNKNOWN_ITEM, |call| call.arrivals[1].item = 10),
        (UNKNOWN_VALUE, |call| call.arrivals[1].value = 1024),
        (SITE_FULL, |call| call.network.fill(1)),
        (SHORT_LOG, |call| call.log.truncate(55)),
    ];
    for_all_sets(&good_batch(), &defects, |mut call, refusal| {
        // The work of the first arrival, done by itself, is all that is done.
        let mut alone = call.clone();
        alone.arrivals.truncate(1);
        let first = alone.network.run_batch(&alone.arrivals, &mut alone.log);
        assert_eq!(first.refusal, ACCEPTED);
        let answer = call.network.run_batch(&call.arrivals, &mut call.log);
        let expected = BatchAnswer { accepted: 1, written: first.written, refusal };
        assert_eq!(answer, expected);
        assert_eq!((call.network, call.log), (alone.network, alone.log));
    });
}

#[test]
fn a_log_with_just_the_places() {
    let mut call = good_batch();
    let answer = call.network.run_batch(&call.arrivals, &mut call.log);
    assert_eq!((answer.accepted, answer.refusal), (2, ACCEPTED));
    // Places after the last one written keep what they held.
    assert!(call.log[answer.written..].iter().all(|place| place.kind == 77));
    // Of the 22 messages before and now, the two closes have three for each site; the others are
    // the draws' own two.
    assert_eq!(call.network.sites.messages[..3], [3 * 2 + 4, 3 * 2 + 6, 0]);
}

#[test]
fn an_empty_batch_needs_no_log() {
    let mut call = good_batch();
    let before = call.network.clone();
    let answer = call.network.run_batch(&[], &mut []);
    assert_eq!(answer, BatchAnswer { accepted: 0, written: 0, refusal: ACCEPTED });
    assert_eq!(call.network, before);
    let answer = call.network.run_batch(&call.arrivals, &mut []);
    assert_eq!(answer, BatchAnswer { accepted: 0, written: 0, refusal: SHORT_LOG });
    assert_eq!(call.network, before);
}

#[derive(Clone, Debug, PartialEq)]
struct QueryCall {
    network: TestNetwork,
    item: u32,
    list: Vec<u32>,
}

/// A coordinator with two heavy hitters and a list of two places.
fn good_query() -> QueryCall {
    let mut network = TestNetwork::start([2, 500, 500, 500, 12, 10]);
    network.take(&[arrival(0, 4, 1), arrival(1, 2, 9)]);
    QueryCall { network, item: 4, list: vec![99; 3] }
}

const QUERY_DEFECTS: [Defect<QueryCall>; 6] = [
    (SETTING_RANGE, |call| call.network.settings.sites = 33),
    (PHI_BELOW_EPSILON, |call| call.network.settings.phi = 499),
    (TOO_FEW_COUNTERS, |call| call.network.settings.capacity = 11),
    (SHORT_MEMORY, |call| call.network.coordinator_memory.truncate(1033)),
    (INCONSISTENT, |call| call.network.coordinator.quantile = 1024),
    (SHORT_LIST, |call| call.list.truncate(1)),
];

fn list(call: &mut QueryCall) -> Result<usize, u8> {
    let network = &call.network;
    let (settings, record) = (&network.settings, &network.coordinator);
    let memory = &network.coordinator_memory;
    coordinator::list_heavy_hitters(settings, record, memory, &mut call.list)
}

#[test]
fn the_list_in_order() {
    for_all_sets(&good_query(), &QUERY_DEFECTS, |mut call, refusal| {
        let before = call.clone();
        assert_eq!(list(&mut call), Err(refusal));
        assert_eq!(call, before);
    });
    let mut call = good_query();
    assert_eq!(list(&mut call), Ok(2));
    assert_eq!(call.list, [2, 4, 99]);
    call.list.truncate(2);
    assert_eq!(list(&mut call), Ok(2));
}

#[test]
fn an_empty_list_needs_no_place() {
    let mut call = good_query();
    call.network = TestNetwork::start(SETTINGS);
    call.list.clear();
    assert_eq!(list(&mut call), Ok(0));
}

#[test]
fn margin_and_quantile_in_order() {
    let mut defects = QUERY_DEFECTS;
    defects[5] = (UNKNOWN_ITEM, |call| call.item = 10);
    for_all_sets(&good_query(), &defects, |call, refusal| {
        assert_eq!(call.network.margin(call.item), Err(refusal));
    });
    for_all_sets(&good_query(), &defects[..5], |call, refusal| {
        let network = &call.network;
        let (settings, record) = (&network.settings, &network.coordinator);
        let memory = &network.coordinator_memory;
        assert_eq!(coordinator::read_quantile(settings, record, memory), Err(refusal));
    });
    let call = good_query();
    assert_eq!(call.network.margin(u32::MAX), Err(UNKNOWN_ITEM));
    assert_eq!(call.network.margin(call.item), Ok(2000 - 500 * 2));
    assert_eq!(call.network.quantile(), Some(1));
}

#[test]
fn margins_at_total_0() {
    let mut network = TestNetwork::start(SETTINGS);
    assert_eq!(network.margin(3), Ok(0));
    // Memory that passes but never arose: still nothing is listed.
    network.coordinator_memory[3] = 100_000_000_000;
    assert_eq!(network.margin(3), Ok(200_000_000_000_000));
    assert_eq!(network.heavy_hitters(), []);
}

#[test]
fn announcements_in_order() {
    let mut good = good_query();
    good.network.coordinator.phase = Phase::Announcing { site: 1 };
    good.network.coordinator.signals = 2;
    for_all_sets(&good, &QUERY_DEFECTS[..5], |mut call, refusal| {
        let before = call.clone();
        assert_eq!(call.network.next_announcement(), (refusal, vec![]));
        assert_eq!(call, before);
    });
    let (refusal, sent) = good.network.next_announcement();
    assert_eq!((refusal, sent), (ACCEPTED, vec![support::message(7, 1, 1, 2)]));
    assert_eq!(
        (good.network.coordinator.phase, good.network.coordinator.signals),
        (Phase::Idle, 0)
    );
    let before = good.clone();
    assert_eq!(good.network.next_announcement(), (MESSAGE_NOT_DUE, vec![]));
    assert_eq!(good, before);
}

#[test]
fn starts_in_order() {
    let defects: [Defect<TestNetwork>; 4] = [
        (SETTING_RANGE, |network| network.settings.epsilon = 1),
        (PHI_BELOW_EPSILON, |network| network.settings.phi = 599),
        (TOO_FEW_COUNTERS, |network| network.settings.capacity = 9),
        (SHORT_MEMORY, |network| {
            network.site_memory.truncate(2 * 1064 - 1);
            network.coordinator_memory.truncate(1033);
        }),
    ];
    let mut used = TestNetwork::start(SETTINGS);
    used.take(&[arrival(1, 2, 3)]);
    let fresh = TestNetwork::start(SETTINGS);
    for_all_sets(&used, &defects, |mut network, refusal| {
        let before = network.clone();
        let sites = site::start_sites(&network.settings, &mut network.site_memory);
        assert_eq!(sites, (refusal, fresh.sites));
        let memory = &mut network.coordinator_memory;
        let coordinator = coordinator::start_coordinator(&network.settings, memory);
        assert_eq!(coordinator, (refusal, fresh.coordinator));
        assert_eq!(network, before);
    });
}

#[test]
fn longer_memory_is_left_alone() {
    let mut network = TestNetwork::start(SETTINGS);
    network.site_memory.push(55);
    network.coordinator_memory.push(u64::MAX);
    assert_eq!(site::start_sites(&network.settings, &mut network.site_memory).0, ACCEPTED);
    let memory = &mut network.coordinator_memory;
    assert_eq!(coordinator::start_coordinator(&network.settings, memory).0, ACCEPTED);
    for round in 0..200 {
        network.take(&[arrival(round % 2, round % 10, 1 + round)]);
    }
    assert_eq!(network.site_memory.last(), Some(&55));
    assert_eq!(network.coordinator_memory.last(), Some(&u64::MAX));
    assert!(network.coordinator.threshold > 1);
}
