//! Single arrivals with full delivery: the same messages as the batch call, the
//! same records and memory, and nothing that does not belong is let in.

mod support;

use reference::coordinator::Phase;
use reference::message::Message;
use reference::refusal::*;
use support::account::Account;
use support::counts::counted_up;
use support::streams::{Source, ALL};
use support::truth::Truth;
use support::{arrival, message, Random, TestNetwork};

/// What the network looks like, the counts of messages aside, which the batch
/// call alone adds to.
fn without_counts(network: &TestNetwork) -> TestNetwork {
    let mut network = network.clone();
    network.sites.messages = [0; 32];
    network
}

fn random_settings(random: &mut Random) -> [u32; 6] {
    let sites = random.pick(&[1, 2, 3, 8]);
    let epsilon = random.pick(&[300, 600, 1000]);
    let capacity = 6000_u32.div_ceil(epsilon);
    let rank = random.between(1, 1000);
    [sites, epsilon, random.between(epsilon, 1000), rank, capacity, random.pick(&[3, 25])]
}

/// After every call request N1's equation holds, in mid-delivery too.
#[test]
fn single_arrivals_do_what_batches_do() {
    let mut random = Random::new(401);
    for round in 0..16 {
        for stream in ALL {
            let numbers = random_settings(&mut random);
            println!("settings {numbers:?}");
            let mut single = TestNetwork::start(numbers);
            let mut batched = single.clone();
            let mut truth = Truth::new(&single.settings);
            let mut account = Account::start(&single.settings);
            let mut source = Source::new(stream, 500 + round);
            let mut counts = [0; 32];
            for _ in 0..400 {
                let next = source.next(&single);
                let sent = single.observe_and_deliver(next, &mut random, |network, sent| {
                    account.with(sent).check(network);
                });
                account.add(&sent);
                counts = counted_up(counts, &sent);
                assert_eq!(sent, batched.take(&[next]));
                assert_eq!(single, without_counts(&batched));
                truth.count(&single.settings, &next, sent.len());
                truth.check(&single);
            }
            assert_eq!(batched.sites.messages, counts);
            assert_eq!(batched.all_messages(), truth.messages);
        }
    }
}

/// A history of both: batches and single arrivals in any order. The sites'
/// counts are of the messages of batches alone.
#[test]
fn batches_and_single_arrivals_mixed() {
    let mut random = Random::new(402);
    for stream in ALL.into_iter().cycle().take(5 * ALL.len()) {
        let mut network = TestNetwork::start(random_settings(&mut random));
        let mut truth = Truth::new(&network.settings);
        let mut source = Source::new(stream, 600);
        let mut of_batches = [0; 32];
        for _ in 0..400 {
            let next = source.next(&network);
            let sent = if random.one_in(2) {
                network.observe_and_deliver(next, &mut random, |_, _| {})
            } else {
                let sent = network.take(&[next]);
                of_batches = counted_up(of_batches, &sent);
                sent
            };
            truth.count(&network.settings, &next, sent.len());
            truth.check(&network);
        }
        assert_eq!(network.sites.messages, of_batches);
    }
}

/// A message and the refusal it must meet.
type Refused = (Message, u8);

/// Messages that are refused whatever the phase, first to the coordinator and
/// then to site 0, whose threshold the last one undercuts.
fn never_due(network: &TestNetwork) -> (Vec<Refused>, Vec<Refused>) {
    let sites = network.settings.sites;
    let to_coordinator = vec![
        (message(0, 0, 0, 0), MESSAGE_NOT_DUE),
        (message(3, 0, 0, 0), MESSAGE_NOT_DUE),
        (message(5, 0, 0, 0), MESSAGE_NOT_DUE),
        (message(7, 0, 1, 0), MESSAGE_NOT_DUE),
        (message(8, 0, 0, 0), MESSAGE_NOT_DUE),
        (message(1, sites, 0, 1), UNKNOWN_SITE),
    ];
    let undercut = network.sites.records[0].threshold - 1;
    let to_site = vec![
        (message(1, 0, 0, 1), MESSAGE_NOT_DUE),
        (message(2, 0, 1, 0), MESSAGE_NOT_DUE),
        (message(4, 0, 0, 0), MESSAGE_NOT_DUE),
        (message(6, 0, 0, 0), MESSAGE_NOT_DUE),
        (message(3, 0, 1, 0), AMOUNT_NOT_DUE),
        (message(5, 0, 1024, 0), UNKNOWN_VALUE),
        (message(5, 0, 1023, 1), AMOUNT_NOT_DUE),
        (message(7, 0, 1_000_000_001, 0), AMOUNT_NOT_DUE),
        (message(7, 0, undercut, 0), AMOUNT_NOT_DUE),
    ];
    (to_coordinator, to_site)
}

/// Messages to the coordinator that are refused in its present phase.
fn not_due_now(network: &TestNetwork) -> Vec<Refused> {
    let threshold = network.coordinator.threshold;
    let reports = [
        (message(1, 0, 0, threshold), MESSAGE_NOT_DUE),
        (message(2, 0, threshold, 0), MESSAGE_NOT_DUE),
    ];
    let mut refused = Vec::new();
    match network.coordinator.phase {
        Phase::Idle => {
            refused.push((message(1, 0, 0, threshold + 1), AMOUNT_NOT_DUE));
            refused.push((message(4, 0, 0, 0), MESSAGE_NOT_DUE));
            refused.push((message(6, 0, 511, 0), MESSAGE_NOT_DUE));
        }
        Phase::Collecting { site } => {
            let site = site as u32;
            refused.extend(reports);
            refused.push((message(4, site, threshold, 0), AMOUNT_NOT_DUE));
            refused.push((message(4, site, 0, 1), AMOUNT_NOT_DUE));
            refused.push((message(6, site, 511, 0), MESSAGE_NOT_DUE));
            if site > 0 {
                refused.push((message(4, site - 1, 0, 0), MESSAGE_NOT_DUE));
            }
        }
        Phase::Probing { site, low, high, .. } => {
            let (site, middle) = (site as u32, (low + high) / 2);
            refused.extend(reports);
            refused.push((message(6, site, middle + 1, 0), AMOUNT_NOT_DUE));
            refused.push((message(6, site, middle, 1_000_000_001), AMOUNT_NOT_DUE));
            refused.push((message(6, site, 1024, 0), UNKNOWN_VALUE));
            refused.push((message(4, site, 0, 0), MESSAGE_NOT_DUE));
            if site > 0 {
                refused.push((message(6, site - 1, middle, 0), MESSAGE_NOT_DUE));
            }
        }
        Phase::Announcing { .. } => {
            refused.extend(reports);
            refused.push((message(4, 0, 0, 0), MESSAGE_NOT_DUE));
            refused.push((message(6, 0, 511, 0), MESSAGE_NOT_DUE));
        }
    }
    refused
}

/// Makes calls that must be refused, and holds that nothing changes by them.
fn refused_calls(network: &mut TestNetwork) {
    let before = network.clone();
    let (to_coordinator, to_site) = never_due(network);
    for (sent, refusal) in to_coordinator.into_iter().chain(not_due_now(network)) {
        assert_eq!(network.tell_coordinator(sent), (refusal, vec![]), "{sent:?}");
    }
    for (sent, refusal) in to_site {
        assert_eq!(network.tell_site(sent), (refusal, vec![]), "{sent:?}");
    }
    let (sites, universe) = (network.settings.sites, network.settings.universe);
    assert_eq!(network.observe(arrival(sites, 0, 1)), (UNKNOWN_SITE, vec![]));
    assert_eq!(network.observe(arrival(0, universe, 1024)), (UNKNOWN_ITEM, vec![]));
    assert_eq!(network.observe(arrival(0, 0, 1024)), (UNKNOWN_VALUE, vec![]));
    if !matches!(network.coordinator.phase, Phase::Announcing { .. }) {
        assert_eq!(network.next_announcement(), (MESSAGE_NOT_DUE, vec![]));
    }
    if network.coordinator.phase != Phase::Idle {
        let answer = network.run_batch(&[], &mut []);
        assert_eq!((answer.accepted, answer.written, answer.refusal), (0, 0, INCONSISTENT));
    }
    assert_eq!(*network, before);
}

#[test]
fn refused_calls_in_mid_delivery() {
    let mut random = Random::new(403);
    let mut phases = [0; 4];
    for stream in ALL.into_iter().cycle().take(5 * ALL.len()) {
        let mut network = TestNetwork::start(random_settings(&mut random));
        let mut batched = network.clone();
        let mut source = Source::new(stream, 700);
        for _ in 0..120 {
            let next = source.next(&network);
            let sent = network.observe_and_deliver(next, &mut random, |network, _| {
                phases[network.coordinator.phase.to_numbers()[0] as usize] += 1;
                refused_calls(network);
            });
            assert_eq!(sent, batched.take(&[next]));
            assert_eq!(network, without_counts(&batched));
        }
    }
    assert!(phases.iter().all(|&times| times > 100), "{phases:?}");
}

/// All announcements may be asked for before the first is handed over. The
/// coordinator is idle then, but the network is not at rest.
#[test]
fn announcements_asked_for_early() {
    let mut network = TestNetwork::start([3, 1000, 1000, 500, 6, 10]);
    for round in 0..17 {
        network.take(&[arrival(round % 3, 1, 5)]);
    }
    let (_, reports) = network.observe(arrival(2, 1, 5));
    let mut waiting = reports;
    while let Some(sent) = waiting.first().copied() {
        waiting.remove(0);
        waiting.extend(network.hand_over(sent).1);
    }
    assert_eq!(network.coordinator.phase, Phase::Announcing { site: 0 });
    let mut announcements = Vec::new();
    for site in 0..3 {
        let expected = message(7, site, 2, 18);
        assert_eq!(network.next_announcement(), (ACCEPTED, vec![expected]));
        announcements.push(expected);
    }
    assert_eq!(network.next_announcement(), (MESSAGE_NOT_DUE, vec![]));
    assert_eq!((network.coordinator.phase, network.coordinator.signals), (Phase::Idle, 0));
    // The thresholds are unequal until the last announcement has arrived.
    for announcement in announcements {
        assert_eq!(network.refusal(), INCONSISTENT);
        assert_eq!(network.tell_site(announcement), (ACCEPTED, vec![]));
    }
    assert_eq!(network.refusal(), ACCEPTED);
}

/// While the first halving runs, the quantile is the record's, 0 so far.
#[test]
fn quantile_during_the_first_halving() {
    let mut network = TestNetwork::start([1, 1000, 1000, 500, 6, 10]);
    for _ in 0..5 {
        network.take(&[arrival(0, 1, 5)]);
    }
    let mut seen = Vec::new();
    let mut random = Random::new(404);
    network.observe_and_deliver(arrival(0, 1, 5), &mut random, |network, _| {
        if let Phase::Probing { .. } = network.coordinator.phase {
            seen.push(network.quantile());
        }
    });
    assert_eq!(seen, vec![Some(0); 20]);
    assert_eq!(network.quantile(), Some(5));
}
