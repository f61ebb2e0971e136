//! Random and adversarial runs: demands 2 and 3, and requests N1 and N10, after every arrival.

mod support;

use reference::message::Message;
use reference::refusal;
use reference::settings::Settings;
use support::account::Account;
use support::firm::LeewayUsed;
use support::streams::{unreported, Source, Stream, ALL};
use support::truth::Truth;
use support::{arrival, Random, TestNetwork, A};

/// Takes arrivals of a stream one by one and checks all demands after each.
/// The network that remains is answered.
fn run(numbers: [u32; 6], stream: Stream, seed: u64, arrivals: u64) -> TestNetwork {
    run_measured(numbers, stream, seed, arrivals).0
}

/// The same, and how much of the leeway a listed item used.
fn run_measured(
    numbers: [u32; 6],
    stream: Stream,
    seed: u64,
    arrivals: u64,
) -> (TestNetwork, LeewayUsed) {
    println!("settings {numbers:?}");
    let mut network = TestNetwork::start(numbers);
    let mut truth = Truth::new(&network.settings);
    let mut account = Account::start(&network.settings);
    let mut source = Source::new(stream, seed);
    let mut log = vec![Message::default(); network.settings.messages_per_arrival()];
    truth.check(&network);
    for _ in 0..arrivals {
        let next = source.next(&network);
        let answer = network.run_batch(&[next], &mut log);
        assert_eq!((answer.accepted, answer.refusal), (1, refusal::ACCEPTED));
        truth.count(&network.settings, &next, answer.written);
        truth.check(&network);
        account.add(&log[..answer.written]);
        account.check(&network);
    }
    assert_eq!(network.all_messages(), truth.messages);
    (network, truth.leeway_used)
}

/// Takes random arrivals in batches of 1000 and checks all demands after each
/// batch. The network that remains is answered.
fn run_batches(numbers: [u32; 6], seed: u64, batches: u64) -> TestNetwork {
    let mut network = TestNetwork::start(numbers);
    let mut truth = Truth::new(&network.settings);
    let mut account = Account::start(&network.settings);
    let mut source = Source::new(Stream::Uniform, seed);
    let mut log = vec![Message::default(); network.settings.messages_per_arrival() * 1000];
    for _ in 0..batches {
        let batch: Vec<_> = (0..1000).map(|_| source.next(&network)).collect();
        let answer = network.run_batch(&batch, &mut log);
        assert_eq!((answer.accepted, answer.refusal), (1000, refusal::ACCEPTED));
        for next in &batch {
            truth.count(&network.settings, next, 0);
        }
        truth.messages += answer.written as u64;
        assert_eq!(network.all_messages(), truth.messages);
        truth.check(&network);
        account.add(&log[..answer.written]);
        account.check(&network);
    }
    network
}

/// The least capacity for an epsilon.
fn least_capacity(epsilon: u32) -> u32 {
    6000_u32.div_ceil(epsilon)
}

/// Settings as random as they come, with the least capacity.
fn random_settings(random: &mut Random) -> [u32; 6] {
    let epsilon = random.pick(&[40, 90, 100, 250, 333, 500, 700, 999, 1000]);
    let between = random.between(epsilon, 1000);
    let phi = random.pick(&[epsilon, (epsilon + 1).min(1000), 1000, between]);
    let anywhere = random.between(1, 1000);
    let rank = random.pick(&[1, 2, 500, 501, 999, 1000, anywhere]);
    let sites = random.pick(&[1, 2, 3, 4, 7]);
    let universe = random.pick(&[1, 2, 7, 30, 150, 400]);
    [sites, epsilon, phi, rank, least_capacity(epsilon), universe]
}

#[test]
fn every_stream_under_random_settings() {
    let mut random = Random::new(101);
    let mut tightest = LeewayUsed::none(&Settings::from_numbers(A));
    for round in 0..24 {
        for stream in ALL {
            let settings = random_settings(&mut random);
            tightest.or_tighter(&run_measured(settings, stream, 1000 + round, 2500).1);
        }
    }
    tightest.show("every stream, separate implementation");
}

#[test]
fn one_site() {
    for (round, stream) in ALL.into_iter().enumerate() {
        let network = run([1, 100, 150, 500, 60, 100], stream, 2000 + round as u64, 4000);
        assert!(network.coordinator.threshold > 50);
    }
}

#[test]
fn most_sites() {
    for (round, stream) in ALL.into_iter().enumerate() {
        let network = run([32, 600, 650, 500, 10, 40], stream, 3000 + round as u64, 1500);
        assert!(network.coordinator.threshold >= 2);
    }
}

#[test]
fn largest_epsilon() {
    for (round, stream) in ALL.into_iter().enumerate() {
        run([3, 1000, 1000, 500, 6, 12], stream, 4000 + round as u64, 4000);
    }
}

/// The smallest epsilon needs all 3000 counters.
#[test]
fn smallest_epsilon() {
    for (round, stream) in
        [Stream::Flood, Stream::RoundRobin, Stream::Borderline].iter().enumerate()
    {
        let network = run([1, 2, 3, 500, 3000, 4000], *stream, 5000 + round as u64, 8000);
        assert!(network.coordinator.threshold >= 4);
    }
}

#[test]
fn smallest_epsilon_at_most_sites() {
    run([32, 2, 2, 500, 3000, 5000], Stream::RoundRobin, 5100, 1000);
}

/// The same at a threshold above 1, which takes 96,000 arrivals, checked at
/// times.
#[test]
fn smallest_epsilon_at_most_sites_for_long() {
    let network = run_batches([32, 2, 2, 500, 3000, 5000], 5200, 200);
    assert!(network.coordinator.threshold >= 2);
}

#[test]
fn largest_universe() {
    let network = run([2, 20, 20, 250, 300, 65_536], Stream::Flood, 6000, 3000);
    assert!(network.coordinator.threshold >= 2);
}

/// Evictions happen, and take arrivals with them: the floods above would be harmless otherwise.
#[test]
fn floods_evict() {
    let network = run([1, 500, 600, 500, 12, 100], Stream::Flood, 7000, 3000);
    let record = network.sites.records[0];
    assert_eq!(record.used, 12);
    assert!(record.dropped > 100);
    let memory = network.memory_of(0);
    let counters = (0..12).filter_map(|place| reference::site::counter_at(memory, place));
    assert!(counters.filter(|counter| counter.overestimate > 0).count() >= 11);
}

/// Every site holds back as much as it can of one item and of its count, and
/// then lets go: at no time is the item missing or the total far off.
#[test]
fn held_back_everywhere_then_released() {
    let mut network = TestNetwork::start([4, 200, 300, 500, 30, 10]);
    let mut truth = Truth::new(&network.settings);
    let send = |network: &mut TestNetwork, truth: &mut Truth, next| {
        let sent = network.take(&[next]).len();
        truth.count(&network.settings, &next, sent);
        truth.check(network);
    };
    for round in 0..4000 {
        send(&mut network, &mut truth, arrival(round % 4, 1 + round % 9, 1 + round % 1023));
    }
    assert!(network.coordinator.threshold > 40);
    for _ in 0..20 {
        let may_take = |network: &TestNetwork, site| {
            unreported(network, site, 0) + 1 < network.coordinator.threshold
        };
        while let Some(site) = (0..4).find(|&site| may_take(&network, site)) {
            send(&mut network, &mut truth, arrival(site, 0, 1023));
        }
        let reported = network.coordinator_memory[0];
        let held = 4 * (network.coordinator.threshold - 1);
        assert_eq!(truth.items[0], reported + held);
        for site in 0..4 {
            send(&mut network, &mut truth, arrival(site, 0, 1));
        }
        assert!(network.coordinator_memory[0] > reported);
    }
}

/// The first changes of the threshold, with values that jump at each.
#[test]
fn around_the_first_thresholds() {
    for sites in [1, 2, 5] {
        for rank in [1, 500, 1000] {
            let numbers = [sites, 1000, 1000, rank, 6, 3];
            run(numbers, Stream::Hovering, 8000 + u64::from(rank), 400);
            run(numbers, Stream::Borderline, 8001 + u64::from(rank), 400);
        }
    }
}

/// A long run, checked at times: the messages grow with the digits of n only.
#[test]
fn a_long_run() {
    let network = run_batches([32, 20, 30, 500, 300, 500], 9000, 1120);
    assert!(network.coordinator.threshold >= 200);
}
