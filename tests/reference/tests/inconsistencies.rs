//! Every cause of refusal 11, each just outside its limit, and the limits
//! themselves, which pass.

mod support;

use reference::coordinator;
use reference::message::{Message, Outgoing};
use reference::network::BatchAnswer;
use reference::refusal::{ACCEPTED, INCONSISTENT};
use reference::settings::Settings;
use reference::site::{self, SiteRecord};
use support::causes::*;
use support::{arrival, message, TestNetwork};

#[test]
fn causes_at_a_site() {
    for start in [at_threshold_1(), above_threshold_1()] {
        for (place, cause) in SITE_CAUSES.iter().enumerate() {
            let mut network = start.clone();
            cause(&mut network.sites.records[1], &mut network.site_memory[SITE..]);
            assert_ne!(network, start, "cause {place}");
            check_site_calls(&network, place);
            check_batch(&network, place);
        }
    }
}

fn check_site_calls(network: &TestNetwork, place: usize) {
    let mut called = network.clone();
    assert_eq!(called.observe(arrival(1, 5, 5)), (INCONSISTENT, vec![]), "cause {place}");
    assert_eq!(called.tell_site(message(3, 1, 0, 0)), (INCONSISTENT, vec![]), "cause {place}");
    assert_eq!(&called, network, "cause {place}");
    // The other site doesn't know.
    assert_eq!(called.observe(arrival(0, 5, 5)).0, ACCEPTED, "cause {place}");
}

fn check_batch(network: &TestNetwork, place: usize) {
    let mut called = network.clone();
    let mut log = vec![Message::default(); 100];
    let answer = called.run_batch(&[arrival(0, 5, 5)], &mut log);
    let expected = BatchAnswer { accepted: 0, written: 0, refusal: INCONSISTENT };
    assert_eq!(answer, expected, "cause {place}");
    assert_eq!(&called, network, "cause {place}");
    assert!(log.iter().all(|place| *place == Message::default()));
}

/// What is not tested: counters not in use, sites from k on, memory beyond.
#[test]
fn what_a_site_does_not_look_at() {
    let mut network = at_threshold_1();
    assert_eq!(network.sites.records[1].used, 1);
    network.site_memory[SITE + 4..SITE + 40].fill(u32::MAX);
    network.site_memory.push(u32::MAX);
    network.coordinator_memory.push(u64::MAX);
    network.sites.messages[2..].fill(u64::MAX);
    for record in &mut network.sites.records[2..] {
        let (used, dropped) = (u64::MAX, u64::MAX);
        *record = SiteRecord { arrivals: 9, pending: 9, threshold: 0, used, dropped };
    }
    let before = network.clone();
    assert_eq!(network.refusal(), ACCEPTED);
    network.take(&[arrival(1, 9, 9)]);
    assert_eq!(network.site_memory[SITE + 4..SITE + 8], [9, 1, 0, 1]);
    assert_eq!(network.site_memory[SITE + 8..SITE + 40], before.site_memory[SITE + 8..SITE + 40]);
    assert_eq!(network.sites.records[2..], before.sites.records[2..]);
    assert_eq!(network.sites.messages[2..], before.sites.messages[2..]);
}

/// The limits themselves pass.
#[test]
fn limits_of_a_site() {
    let settings = Settings::from_numbers(SETTINGS);
    let billion = 1_000_000_000;
    let mut record = SiteRecord {
        arrivals: billion,
        pending: billion - 1,
        threshold: billion,
        used: 10,
        dropped: billion,
    };
    let mut memory = vec![0; SITE];
    memory[SITE - 1] = billion as u32;
    for place in 0..10 {
        let full = [19, billion as u32, 1, place as u32];
        memory[4 * place..4 * place + 4].copy_from_slice(&full);
    }
    assert_eq!(site::call_refusal(&settings, &record, &memory), ACCEPTED);
    let poll = message(3, 0, 0, 0);
    let answer = site::receive(&settings, 0, poll, &mut record, &memory);
    assert_eq!(answer, Outgoing::from(Some(message(4, 0, billion - 1, 0))));
}

#[test]
fn causes_at_the_coordinator() {
    for start in [at_threshold_1(), above_threshold_1()] {
        for (place, cause) in COORDINATOR_CAUSES.iter().enumerate() {
            let mut network = start.clone();
            cause(&mut network);
            check_coordinator_calls(&network, place);
            check_batch(&network, place);
        }
    }
    for (place, cause) in THRESHOLD_1_CAUSES.iter().enumerate() {
        let mut network = at_threshold_1();
        cause(&mut network);
        check_coordinator_calls(&network, place);
        check_batch(&network, place);
    }
}

fn check_coordinator_calls(network: &TestNetwork, place: usize) {
    let mut called = network.clone();
    let refused = (INCONSISTENT, vec![]);
    assert_eq!(called.tell_coordinator(message(1, 0, 0, 1)), refused, "cause {place}");
    assert_eq!(called.next_announcement(), refused, "cause {place}");
    assert_eq!(called.margin(0), Err(INCONSISTENT), "cause {place}");
    let (settings, record) = (&network.settings, &network.coordinator);
    let memory = &network.coordinator_memory;
    let quantile = coordinator::read_quantile(settings, record, memory);
    assert_eq!(quantile, Err(INCONSISTENT), "cause {place}");
    let mut list = vec![7; 20];
    let listed = coordinator::list_heavy_hitters(settings, record, memory, &mut list);
    assert_eq!((listed, list), (Err(INCONSISTENT), vec![7; 20]), "cause {place}");
    assert_eq!(&called, network, "cause {place}");
}

/// A count of values that says nothing of the total passes above threshold 1.
#[test]
fn histogram_above_threshold_1() {
    let mut network = above_threshold_1();
    network.coordinator_memory[20..].fill(100_000_000_000);
    assert_eq!(network.refusal(), ACCEPTED);
    network.coordinator.total += 1;
    assert_eq!(network.margin(0).err(), None);
}

/// The limits of the coordinator pass, and a number may pass them in a call.
#[test]
fn limits_of_the_coordinator() {
    let mut network = at_threshold_1();
    network.coordinator_memory[0] = 100_000_000_000;
    assert_eq!(network.refusal(), ACCEPTED);
    assert_eq!(network.tell_coordinator(message(1, 0, 0, 1)), (ACCEPTED, vec![]));
    assert_eq!(network.coordinator_memory[0], 100_000_000_001);
    assert_eq!(network.tell_coordinator(message(1, 0, 0, 1)), (INCONSISTENT, vec![]));
}

#[test]
fn causes_at_the_network_alone() {
    for start in [at_threshold_1(), above_threshold_1()] {
        for (place, cause) in NETWORK_CAUSES.iter().chain(&COUNT_CAUSES).enumerate() {
            let mut network = start.clone();
            cause(&mut network);
            check_batch(&network, place);
            // The calls that see one part accept it.
            assert_eq!(network.margin(0).err(), None, "cause {place}");
            assert_eq!(network.observe(arrival(0, 5, 5)).0, ACCEPTED, "cause {place}");
        }
    }
}
