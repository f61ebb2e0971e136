//! Batches: cut anyhow, with short logs and refused arrivals, they do what
//! their accepted arrivals do one by one.

mod support;

use reference::message::{Arrival, Message};
use reference::refusal::*;
use support::account::Account;
use support::counts::counted_up;
use support::streams::{Source, ALL};
use support::truth::Truth;
use support::{arrival, message, Random, TestNetwork};

const UNUSED: Message = Message { kind: 99, site: 98, a: 97, b: 96 };

/// A run of arrivals of which some may be refused.
fn random_run(source: &mut Source, network: &TestNetwork, random: &mut Random) -> Vec<Arrival> {
    let length = random.pick(&[0, 1, 2, 7, 40]);
    let mut arrivals: Vec<_> = (0..length).map(|_| source.next(network)).collect();
    for next in &mut arrivals {
        match random.below(60) {
            0 => next.site = network.settings.sites + random.below32(3),
            1 => next.item = network.settings.universe,
            2 => next.value = 1024,
            _ => {}
        }
    }
    arrivals
}

/// What the batch must answer: how many arrivals are accepted with a log of so
/// many places, all messages, and the refusal that stops it.
fn one_by_one(
    network: &mut TestNetwork,
    arrivals: &[Arrival],
    places: usize,
    truth: &mut Truth,
) -> (usize, Vec<Message>, u8) {
    let settings = network.settings;
    let mut messages = Vec::new();
    for (accepted, next) in arrivals.iter().enumerate() {
        let refusal = if next.site >= settings.sites {
            UNKNOWN_SITE
        } else if next.item >= settings.universe {
            UNKNOWN_ITEM
        } else if next.value > 1023 {
            UNKNOWN_VALUE
        } else if next.is_draw() && places < messages.len() + 23 * settings.sites as usize + 2 {
            SHORT_LOG
        } else {
            let sent = network.take(&[*next]);
            truth.count(&settings, next, sent.len());
            messages.extend(sent);
            continue;
        };
        return (accepted, messages, refusal);
    }
    (arrivals.len(), messages, ACCEPTED)
}

#[test]
fn cut_anyhow() {
    let mut random = Random::new(201);
    let mut stopped = [0; 15];
    for round in 0..40 {
        for stream in ALL {
            let sites = random.pick(&[1, 2, 5]);
            let mut alone = TestNetwork::start([sites, 500, 600, 300, 12, 20]);
            let mut batched = alone.clone();
            let mut truth = Truth::new(&alone.settings);
            let mut account = Account::start(&alone.settings);
            let mut source = Source::new(stream, 300 + round);
            let mut counts = [0; 32];
            for _ in 0..40 {
                let arrivals = random_run(&mut source, &batched, &mut random);
                let mut log = vec![UNUSED; random.below(600) as usize];
                let answer = batched.run_batch(&arrivals, &mut log);
                let (accepted, messages, refusal) =
                    one_by_one(&mut alone, &arrivals, log.len(), &mut truth);
                assert_eq!((answer.accepted, answer.refusal), (accepted, refusal));
                assert_eq!(log[..answer.written], messages);
                assert!(log[answer.written..].iter().all(|place| *place == UNUSED));
                assert_eq!(batched, alone);
                truth.check(&batched);
                account.add(&messages);
                account.check(&batched);
                counts = counted_up(counts, &messages);
                assert_eq!(batched.sites.messages, counts);
                stopped[usize::from(refusal)] += 1;
            }
            assert_eq!(batched.all_messages(), truth.messages);
        }
    }
    for number in [ACCEPTED, UNKNOWN_SITE, UNKNOWN_ITEM, UNKNOWN_VALUE, SHORT_LOG] {
        assert!(stopped[usize::from(number)] > 10, "{stopped:?}");
    }
}

/// The most messages that one arrival can set off: 23 × k + 2.
#[test]
fn most_messages_after_one_arrival() {
    for sites in [1, 2, 32] {
        let mut network = TestNetwork::start([sites, 1000, 1000, 500, 6, 10]);
        let mut most = 0;
        for round in 0..sites * 40 {
            most = most.max(network.take(&[arrival(round % sites, 0, 5)]).len());
        }
        assert_eq!(most, 23 * sites as usize + 2);
    }
}

/// The order of the messages of a close with two sites.
#[test]
fn a_close_with_two_sites() {
    let mut network = TestNetwork::start([2, 1000, 1000, 500, 6, 10]);
    for round in 0..10 {
        network.take(&[arrival(round % 2, 1, 700)]);
    }
    network.take(&[arrival(0, 1, 700)]);
    assert_eq!(network.coordinator.threshold, 1);
    let sent = network.take(&[arrival(1, 2, 900)]);
    let mut expected = vec![message(1, 1, 2, 1), message(2, 1, 1, 900)];
    for site in 0..2 {
        expected.extend([message(3, site, 0, 0), message(4, site, 0, 0)]);
    }
    for middle in [511, 767, 639, 703, 671, 687, 695, 699, 701, 700] {
        let (first, second) = if middle >= 700 { (6, 5) } else { (0, 0) };
        expected.extend([message(5, 0, middle, 0), message(6, 0, middle, first)]);
        expected.extend([message(5, 1, middle, 0), message(6, 1, middle, second)]);
    }
    expected.extend([message(7, 0, 2, 12), message(7, 1, 2, 12)]);
    assert_eq!(sent, expected);
    assert_eq!((network.coordinator.base, network.coordinator.quantile), (12, 700));
}

/// Just the rank is enough: half of the arrivals are half of them.
#[test]
fn halves_at_a_close() {
    for (rank, expected) in [(499, 3), (500, 3), (501, 9), (1000, 9)] {
        let mut network = TestNetwork::start([1, 1000, 1000, rank, 6, 10]);
        for round in 0..6 {
            network.take(&[arrival(0, 0, [3, 9][round % 2])]);
        }
        assert_eq!((network.coordinator.base, network.coordinator.threshold), (6, 2));
        assert_eq!(network.quantile(), Some(expected));
    }
}

/// What is pending at a close goes into the total and starts from 0 again; what
/// is unreported of an item survives.
#[test]
fn pendings_at_a_close() {
    let mut network = TestNetwork::start([2, 1000, 1000, 500, 6, 10]);
    for round in 0..36 {
        network.take(&[arrival(round % 2, 3, 1)]);
    }
    // Another close, after which nothing is pending.
    while network.take(&[arrival(0, 3, 1)]).len() < 40 {}
    let threshold = network.coordinator.threshold;
    assert!(threshold > 3);
    // Site 1 holds back two arrivals of item 4, and site 0 closes the round.
    network.take(&[arrival(1, 4, 1), arrival(1, 4, 1)]);
    assert_eq!(network.sites.records[1].pending, 2);
    let before = network.coordinator.total;
    while network.coordinator.base <= before {
        network.take(&[arrival(0, 5, 1)]);
    }
    assert_eq!(network.coordinator.total, before + 2 * threshold + 2);
    assert_eq!(network.sites.records[1].pending, 0);
    assert_eq!(support::streams::unreported(&network, 1, 4), 2);
}
