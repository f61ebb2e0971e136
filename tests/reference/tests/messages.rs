//! Refusals of messages, at a site and at the coordinator, in their order.

mod support;

use reference::coordinator::Phase;
use reference::message::{Message, Outgoing};
use reference::refusal::*;
use reference::site;
use support::defects::{for_all_sets, Defect};
use support::{arrival, message, Random, TestNetwork};

const MAX: u64 = u64::MAX;

/// Three sites and a coordinator whose threshold is 1, in the middle of a round.
fn at_threshold_1() -> TestNetwork {
    let mut network = TestNetwork::start([3, 600, 700, 500, 10, 10]);
    network.take(&[arrival(0, 1, 2), arrival(1, 3, 4)]);
    assert_eq!(network.coordinator.threshold, 1);
    network
}

/// The same sites with a threshold above 1 and something pending.
fn at_threshold_above_1() -> TestNetwork {
    let mut network = at_threshold_1();
    for round in 0..200 {
        network.take(&[arrival(round % 3, round % 10, 1 + round)]);
    }
    while network.sites.records[2].pending == 0 {
        network.take(&[arrival(2, 0, 1)]);
    }
    assert!(network.coordinator.threshold > 2);
    network
}

/// A network that is in a phase of a round's close.
fn in_phase(phase: Phase) -> TestNetwork {
    let mut network = at_threshold_above_1();
    network.coordinator.phase = phase;
    network.coordinator.signals = 3;
    network
}

/// The refusal of each message at the coordinator, which changes nothing then.
fn check_coordinator(network: &TestNetwork, table: &[(Message, u8)]) {
    for &(message, expected) in table {
        let mut called = network.clone();
        let (refusal, sent) = called.tell_coordinator(message);
        assert_eq!(refusal, expected, "{message:?}");
        if refusal != ACCEPTED {
            assert_eq!(sent, [], "{message:?}");
            assert_eq!(&called, network, "{message:?}");
        }
    }
}

#[test]
fn idle_at_threshold_1() {
    let table = [
        (message(1, 0, 9, 1), ACCEPTED),
        (message(1, 3, 10, 0), UNKNOWN_SITE),
        (message(1, 0, 10, 0), UNKNOWN_ITEM),
        (message(1, 0, MAX, MAX), UNKNOWN_ITEM),
        (message(1, 0, 9, 0), AMOUNT_NOT_DUE),
        (message(1, 0, 9, 2), AMOUNT_NOT_DUE),
        (message(2, 0, 1, 1023), ACCEPTED),
        (message(2, 0, 0, 1024), UNKNOWN_VALUE),
        (message(2, 0, 1, MAX), UNKNOWN_VALUE),
        (message(2, 0, 0, 1023), AMOUNT_NOT_DUE),
        (message(2, 0, 2, 0), AMOUNT_NOT_DUE),
        (message(2, u32::MAX, 2, 1024), UNKNOWN_SITE),
        (message(0, 0, 0, 0), MESSAGE_NOT_DUE),
        (message(0, 3, 0, 0), UNKNOWN_SITE),
        (message(3, 0, 0, 0), MESSAGE_NOT_DUE),
        (message(4, 0, 0, 0), MESSAGE_NOT_DUE),
        (message(5, 0, 0, 0), MESSAGE_NOT_DUE),
        (message(6, 0, 1024, 0), MESSAGE_NOT_DUE),
        (message(7, 0, 1, 1), MESSAGE_NOT_DUE),
        (message(8, 0, 0, 0), MESSAGE_NOT_DUE),
        (message(u32::MAX, 0, 0, 0), MESSAGE_NOT_DUE),
    ];
    check_coordinator(&at_threshold_1(), &table);
}

#[test]
fn idle_above_threshold_1() {
    let network = at_threshold_above_1();
    let threshold = network.coordinator.threshold;
    let table = [
        (message(1, 2, 0, threshold), ACCEPTED),
        (message(1, 2, 0, threshold - 1), AMOUNT_NOT_DUE),
        (message(1, 2, 0, threshold + 1), AMOUNT_NOT_DUE),
        (message(1, 2, 10, threshold), UNKNOWN_ITEM),
        (message(2, 2, threshold, 0), ACCEPTED),
        // The message carries no value now, so b must be 0 and 7 never comes.
        (message(2, 2, threshold, 1), AMOUNT_NOT_DUE),
        (message(2, 2, threshold, 1024), AMOUNT_NOT_DUE),
        (message(2, 2, threshold - 1, 0), AMOUNT_NOT_DUE),
        (message(2, 2, MAX, 0), AMOUNT_NOT_DUE),
    ];
    check_coordinator(&network, &table);
}

#[test]
fn collecting() {
    let network = in_phase(Phase::Collecting { site: 1 });
    let threshold = network.coordinator.threshold;
    let table = [
        (message(4, 1, 0, 0), ACCEPTED),
        (message(4, 1, threshold - 1, 0), ACCEPTED),
        (message(4, 1, threshold, 0), AMOUNT_NOT_DUE),
        (message(4, 1, 0, 1), AMOUNT_NOT_DUE),
        (message(4, 0, 0, 0), MESSAGE_NOT_DUE),
        (message(4, 2, threshold, 1), MESSAGE_NOT_DUE),
        (message(4, 3, threshold, 1), UNKNOWN_SITE),
        (message(1, 1, 0, threshold), MESSAGE_NOT_DUE),
        (message(1, 1, 10, threshold), MESSAGE_NOT_DUE),
        (message(2, 1, threshold, 0), MESSAGE_NOT_DUE),
        (message(6, 1, 1024, 0), MESSAGE_NOT_DUE),
        (message(7, 1, threshold, 0), MESSAGE_NOT_DUE),
    ];
    check_coordinator(&network, &table);
}

#[test]
fn probing() {
    let network = in_phase(Phase::Probing { site: 1, low: 10, high: 13, sum: 5 });
    let table = [
        (message(6, 1, 11, 0), ACCEPTED),
        (message(6, 1, 11, 1_000_000_000), ACCEPTED),
        (message(6, 1, 11, 1_000_000_001), AMOUNT_NOT_DUE),
        (message(6, 1, 12, 0), AMOUNT_NOT_DUE),
        (message(6, 1, 1023, 0), AMOUNT_NOT_DUE),
        (message(6, 1, 1024, MAX), UNKNOWN_VALUE),
        (message(6, 0, 1024, 0), MESSAGE_NOT_DUE),
        (message(6, 2, 11, 0), MESSAGE_NOT_DUE),
        (message(6, 3, 11, 0), UNKNOWN_SITE),
        (message(4, 1, 0, 0), MESSAGE_NOT_DUE),
        (message(1, 1, 10, 0), MESSAGE_NOT_DUE),
        (message(2, 1, 1, 1024), MESSAGE_NOT_DUE),
    ];
    check_coordinator(&network, &table);
}

#[test]
fn announcing() {
    let network = in_phase(Phase::Announcing { site: 1 });
    let due_elsewhere = (0..=8).map(|kind| (message(kind, 1, 0, 0), MESSAGE_NOT_DUE));
    check_coordinator(&network, &due_elsewhere.collect::<Vec<_>>());
    check_coordinator(&network, &[(message(4, 3, 0, 0), UNKNOWN_SITE)]);
}

#[test]
fn what_comes_first_at_the_coordinator() {
    #[derive(Clone)]
    struct Call(TestNetwork, Message);
    let defects: [Defect<Call>; 8] = [
        (SETTING_RANGE, |call| call.0.settings.epsilon = 1001),
        (PHI_BELOW_EPSILON, |call| call.0.settings.phi = 599),
        (TOO_FEW_COUNTERS, |call| call.0.settings.capacity = 9),
        (SHORT_MEMORY, |call| call.0.coordinator_memory.truncate(1033)),
        (INCONSISTENT, |call| call.0.coordinator.quantile = 1024),
        (UNKNOWN_SITE, |call| call.1.site = 3),
        (UNKNOWN_ITEM, |call| call.1.a = 10),
        (AMOUNT_NOT_DUE, |call| call.1.b = 0),
    ];
    let good = Call(at_threshold_1(), message(1, 0, 9, 1));
    for_all_sets(&good, &defects, |mut call, refusal| {
        let before = call.0.clone();
        assert_eq!(call.0.tell_coordinator(call.1), (refusal, vec![]));
        assert_eq!(call.0, before);
    });
}

#[test]
fn messages_at_a_site() {
    let network = at_threshold_above_1();
    let mut record = network.sites.records[2];
    // As many are forgotten as may be, and no message changes that.
    record.dropped = record.arrivals;
    let (threshold, pending) = (record.threshold, record.pending);
    // No draw has value 0, but memory that passes may count it, and a probe then does too.
    let mut memory = network.memory_of(2).to_vec();
    memory.swap(40, 40 + 3);
    let below = u64::from(memory[40]);
    assert_eq!(below, 1);
    let answer = |kind, a, b| Some(message(kind, 2, a, b));
    let table = [
        (message(3, 2, 0, 0), Ok(answer(4, pending, 0))),
        (message(3, 2, 1, 0), Err(AMOUNT_NOT_DUE)),
        (message(3, 2, 0, 1), Err(AMOUNT_NOT_DUE)),
        (message(5, 2, 0, 0), Ok(answer(6, 0, below))),
        (message(5, 2, 1023, 0), Ok(answer(6, 1023, record.arrivals))),
        (message(5, 2, 1024, 1), Err(UNKNOWN_VALUE)),
        (message(5, 2, 1023, 1), Err(AMOUNT_NOT_DUE)),
        (message(7, 2, threshold, 0), Ok(None)),
        (message(7, 2, 1_000_000_000, MAX), Ok(None)),
        (message(7, 2, threshold - 1, 0), Err(AMOUNT_NOT_DUE)),
        (message(7, 2, 1_000_000_001, 0), Err(AMOUNT_NOT_DUE)),
        (message(3, 1, 0, 0), Err(MESSAGE_NOT_DUE)),
        (message(5, 1, 1024, 0), Err(MESSAGE_NOT_DUE)),
        (message(7, 0, 0, 0), Err(MESSAGE_NOT_DUE)),
        (message(7, 3, 0, 0), Err(UNKNOWN_SITE)),
        (message(0, 2, 0, 0), Err(MESSAGE_NOT_DUE)),
        (message(1, 2, 10, 0), Err(MESSAGE_NOT_DUE)),
        (message(2, 2, 0, 1024), Err(MESSAGE_NOT_DUE)),
        (message(4, 2, 0, 0), Err(MESSAGE_NOT_DUE)),
        (message(6, 2, 1024, 0), Err(MESSAGE_NOT_DUE)),
        (message(8, 2, 0, 0), Err(MESSAGE_NOT_DUE)),
        (message(8, 3, 0, 0), Err(UNKNOWN_SITE)),
    ];
    for (sent, expected) in table {
        let mut after = record;
        let outgoing = site::receive(&network.settings, 2, sent, &mut after, &memory);
        let mut expected_record = record;
        match expected {
            Ok(answer) => {
                assert_eq!(outgoing, Outgoing::from(answer), "{sent:?}");
                match sent.kind {
                    3 => expected_record.pending = 0,
                    7 => expected_record.threshold = sent.a,
                    _ => {}
                }
            }
            Err(refusal) => assert_eq!(outgoing, Outgoing::none(refusal), "{sent:?}"),
        }
        assert_eq!(after, expected_record, "{sent:?}");
    }
}

/// A site whose own number is not below k: 5, whatever the message says.
#[test]
fn a_site_that_is_none() {
    let network = at_threshold_1();
    let mut record = network.sites.records[2];
    for named in [0, 3, 4] {
        for kind in 0..9 {
            let sent = message(kind, named, 0, 0);
            let memory = network.memory_of(2);
            let outgoing = site::receive(&network.settings, 3, sent, &mut record, memory);
            assert_eq!(outgoing, Outgoing::none(UNKNOWN_SITE));
        }
    }
    assert_eq!(record, network.sites.records[2]);
}

#[test]
fn what_comes_first_at_a_site() {
    #[derive(Clone)]
    struct Call(TestNetwork, Message);
    let defects: [Defect<Call>; 9] = [
        (SETTING_RANGE, |call| call.0.settings.epsilon = 1001),
        (PHI_BELOW_EPSILON, |call| call.0.settings.phi = 599),
        (TOO_FEW_COUNTERS, |call| call.0.settings.capacity = 9),
        (SHORT_MEMORY, |call| call.0.site_memory.truncate(1063)),
        (INCONSISTENT, |call| call.0.sites.records[0].threshold = 0),
        (UNKNOWN_SITE, |call| call.1.site = 3),
        (MESSAGE_NOT_DUE, |call| call.1.site = call.1.site.max(1)),
        (UNKNOWN_VALUE, |call| call.1.a = 1024),
        (AMOUNT_NOT_DUE, |call| call.1.b = 1),
    ];
    let good = Call(at_threshold_1(), message(5, 0, 3, 0));
    for_all_sets(&good, &defects, |mut call, refusal| {
        let before = call.0.sites.records[0];
        let length = call.0.site_memory.len().min(1064);
        let memory = &call.0.site_memory[..length];
        let record = &mut call.0.sites.records[0];
        let outgoing = site::receive(&call.0.settings, 0, call.1, record, memory);
        assert_eq!(outgoing, Outgoing::none(refusal));
        assert_eq!(*record, before);
    });
}

/// No message at all panics, and a refused one changes nothing.
#[test]
fn random_messages() {
    let mut random = Random::new(31);
    let networks = [
        at_threshold_1(),
        at_threshold_above_1(),
        in_phase(Phase::Collecting { site: 2 }),
        in_phase(Phase::Probing { site: 2, low: 0, high: 1, sum: 100_000_000_000 }),
        in_phase(Phase::Announcing { site: 2 }),
    ];
    let numbers = [0, 1, 2, 3, 9, 10, 11, 1023, 1024, 1_000_000_000, 1_000_000_001, MAX];
    for _ in 0..50_000 {
        let network = random.pick(&[0, 1, 2, 3, 4]);
        let (kind, site) = (random.below32(9), random.below32(4));
        let sent = message(kind, site, random.pick(&numbers), random.pick(&numbers));
        let mut called = networks[network].clone();
        let (refusal, _) =
            if random.one_in(2) { called.tell_coordinator(sent) } else { called.tell_site(sent) };
        assert!(refusal == ACCEPTED || called == networks[network]);
        assert!([0, 5, 6, 7, 9, 10].contains(&refusal));
    }
}
