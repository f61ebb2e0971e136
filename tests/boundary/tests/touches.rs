//! Request N2, arrivals of value 0 that are touches and no draws, on the proved code and on the
//! separate implementation. That a touch changes nothing and sends nothing, [`Both`] holds against
//! every call with one; that n and shares are over draws alone, and no quantile is 0,
//! [`support::truth::Truth`] does.

mod both;
mod forge;
mod history;
#[path = "../../reference/tests/support/mod.rs"]
mod support;

use both::batch::numbers_of;
use both::Both;
use forge::networks::{damage_network, some_network};
use history::History;
use reference::coordinator::Phase;
use reference::message::{Arrival, Message, COUNT_REPORT, PROBE, PROBE_ANSWER, TOUCH};
use reference::network::BatchAnswer;
use reference::refusal::*;
use reference::settings::allowance;
use support::defects::for_all_sets;
use support::full::{touch_at_a_full_site, TOUCH_DEFECTS};
use support::streams::{Source, ALL};
use support::{arrival, message, Random, TestNetwork, A};

/// The draw of the line `0;7;3`, and the touch of the line `0;8;0`.
const DRAW: Arrival = Arrival { site: 0, item: 7, value: 3 };
const TOUCHED: Arrival = Arrival { site: 0, item: 8, value: TOUCH };

/// Numbers of a log with places for one draw under settings A.
const ONE_DRAW: usize = 4 * 25;

/// What a batch answers that writes nothing.
fn nothing_written(accepted: usize, refusal: u8) -> BatchAnswer {
    BatchAnswer { accepted, written: 0, refusal }
}

/// An arrival by the single call, at a site with its record and memory.
fn observe(both: &mut Both, network: &mut TestNetwork, site: u32, next: Arrival) -> u8 {
    let numbers = numbers_of(&network.settings);
    let from = network.settings.site_memory_len() * site as usize;
    let record = &mut network.sites.records[site as usize];
    both.observe(numbers, next, record, &mut network.site_memory[from..]).refusal
}

/// A touch by each call that takes an arrival: at its site alone, with a delivery, and in batches
/// without a log. What they are refused with: the last two test the whole network.
fn touch(both: &mut Both, network: &mut TestNetwork, next: Arrival) -> [u8; 3] {
    let single = observe(both, network, next.site, next);
    let delivered = both.deliver_arrival(network, next);
    assert_eq!(delivered.stopped, ACCEPTED);
    let (answer, _) = both.run_batch(network, &[next; 4], 0);
    assert_eq!(answer.accepted, if answer.refusal == ACCEPTED { 4 } else { 0 });
    [single, delivered.refusal, answer.refusal]
}

/// All readings: how many items are listed, the quantile, and the margin of each item.
type Readings = (Result<usize, u8>, Result<Option<u32>, u8>, Vec<Result<i64, u8>>);

fn read(both: &mut Both, network: &TestNetwork) -> Readings {
    let TestNetwork { settings, coordinator, coordinator_memory: memory, .. } = network;
    let numbers = numbers_of(settings);
    let listed = both.list(numbers, coordinator, memory, settings.universe as usize);
    let quantile = both.quantile(numbers, coordinator, memory);
    let margin = |item| both.margin(numbers, coordinator, memory, item);
    (listed, quantile, (0..settings.universe).map(margin).collect())
}

/// Settings A, `0;7;3` then `0;8;0`: all is as after the first.
#[test]
fn after_a_draw() {
    let mut both = Both::new();
    let mut after_draw = TestNetwork::start(A);
    let (_, messages) = both.run_batch(&mut after_draw, &[DRAW], ONE_DRAW);
    let mut network = TestNetwork::start(A);
    let (answer, written) = both.run_batch(&mut network, &[DRAW, TOUCHED], ONE_DRAW);
    assert_eq!(answer, BatchAnswer { accepted: 2, written: 5, refusal: ACCEPTED });
    assert_eq!(written, messages);
    assert_eq!(touch(&mut both, &mut network, TOUCHED), [ACCEPTED; 3]);
    assert_eq!(network, after_draw);
    let (listed, quantile, margins) = read(&mut both, &network);
    assert_eq!((listed, quantile, network.heavy_hitters()), (Ok(1), Ok(Some(3)), vec![7]));
    assert_eq!((margins[7], margins[8]), (Ok(1000), Ok(-1000)));
}

/// Settings A, `0;7;0` alone: nothing is listed, there is no quantile, and n is 0.
#[test]
fn touches_alone() {
    let mut both = Both::new();
    let mut history = History::start(&mut both, A, 6_001);
    for item in 0..10 {
        history.single(&mut both, arrival(0, item, TOUCH));
        history.batch(&mut both, &[arrival(0, item, TOUCH); 3], 0);
    }
    history.read(&mut both);
    let network = history.network.clone().without_unused_counts();
    assert_eq!(network, TestNetwork::start(A));
    assert_eq!(read(&mut both, &history.network), (Ok(0), Ok(None), vec![Ok(0); 10]));
    let n = history.truth.draws;
    assert_eq!((n, allowance(&history.network.settings, n)), (0, Ok(150)));
}

/// A full site: 1 to 3, 4, 11, 5, 6 and 7 in this order, then a touch is accepted, and a draw is 8.
#[test]
fn at_a_full_site() {
    let mut both = Both::new();
    for_all_sets(&touch_at_a_full_site(), &TOUCH_DEFECTS, |mut call, refusal| {
        let network = &mut call.network;
        assert_eq!(observe(&mut both, network, 1, call.arrival), refusal);
        assert_eq!(both.deliver_arrival(network, call.arrival).refusal, refusal);
        let (answer, _) = both.run_batch(network, &[call.arrival], 0);
        assert_eq!(answer, nothing_written(0, refusal));
    });
    let mut call = touch_at_a_full_site();
    let network = &mut call.network;
    assert_eq!(touch(&mut both, network, call.arrival), [ACCEPTED; 3]);
    let draw = Arrival { value: 1, ..call.arrival };
    assert_eq!(observe(&mut both, network, 1, draw), SITE_FULL);
    let (answer, _) = both.run_batch(network, &[call.arrival, draw], 4000);
    assert_eq!(answer, nothing_written(1, SITE_FULL));
}

/// Touches are accepted with any log, and a draw between them asks for its 23 × k + 2 places.
#[test]
fn short_logs() {
    let mut both = Both::new();
    let mut network = TestNetwork::start(A);
    for log_numbers in [0, 1, 4, ONE_DRAW - 1] {
        let stopped = [TOUCHED, TOUCHED, DRAW, TOUCHED];
        let (answer, _) = both.run_batch(&mut network, &stopped, log_numbers);
        assert_eq!(answer, nothing_written(2, SHORT_LOG));
    }
    // The first draw leaves 20 places.
    let arrivals = [TOUCHED, DRAW, TOUCHED, TOUCHED, DRAW, TOUCHED];
    let (answer, _) = both.run_batch(&mut network, &arrivals, ONE_DRAW);
    assert_eq!(answer, BatchAnswer { accepted: 4, written: 5, refusal: SHORT_LOG });
}

/// Networks that never arose, some of their sites full, take touches and stay as they are; damaged
/// ones refuse them as they refuse draws.
#[test]
fn on_forged_and_damaged_networks() {
    let mut random = Random::new(6_002);
    let mut both = Both::new();
    for _ in 0..1_500 {
        let mut network = some_network(&mut random);
        let (sites, universe) = (network.settings.sites, network.settings.universe);
        let next = arrival(random.below32(sites), random.below32(universe), TOUCH);
        assert_eq!(touch(&mut both, &mut network, next), [ACCEPTED; 3]);
        for _ in 0..4 {
            let mut damaged = network.clone();
            damage_network(&mut damaged, &mut random);
            let refusal = both.deliver_arrival(&mut damaged, next).refusal;
            assert_eq!(both.run_batch(&mut damaged, &[next], 0).0.refusal, refusal);
        }
    }
    let met = [SETTING_RANGE, PHI_BELOW_EPSILON, TOO_FEW_COUNTERS, SHORT_MEMORY];
    both.enough(15_000, &met, 50);
    both.enough(15_000, &[INCONSISTENT], 4_000);
}

/// Between all calls of a delivery a touch is accepted at each site; a batch of touches is 11 where
/// it sees that a delivery is under way, and accepted where it doesn't.
#[test]
fn in_mid_delivery() {
    let mut random = Random::new(6_003);
    let mut both = Both::new();
    let (mut phases, mut unseen) = ([0; 4], 0);
    for stream in ALL {
        let mut network = TestNetwork::start([2, 1000, 1000, 500, 6, 10]);
        let mut source = Source::new(stream, 6_004);
        for _ in 0..60 {
            let next = source.next(&network);
            network.observe_and_deliver(next, &mut random, |network, sent| {
                phases[network.coordinator.phase.to_numbers()[0] as usize] += 1;
                let seen = network.refusal();
                unseen += u64::from(seen == ACCEPTED && !sent.is_empty());
                for site in 0..2 {
                    let refusals = touch(&mut both, network, arrival(site, next.item, TOUCH));
                    assert_eq!(refusals, [ACCEPTED, seen, seen]);
                }
            });
        }
    }
    println!("phases {phases:?}, {unseen} times a batch saw no delivery");
    assert!(unseen > 100 && phases.iter().all(|&times| times > 100));
}

/// The arrivals without the touches among the first so many, which are the accepted ones.
fn without_touches(arrivals: &[Arrival], accepted: usize) -> Vec<Arrival> {
    let (first, rest) = arrivals.split_at(accepted);
    first.iter().filter(|next| next.is_draw()).chain(rest).copied().collect()
}

/// Leaving out all accepted touches leaves the same network, messages, readings and refusals, with
/// batches that are stopped too.
#[test]
fn leaving_them_out() {
    let mut random = Random::new(6_005);
    let mut both = Both::new();
    for stream in ALL.into_iter().cycle().take(3 * ALL.len()) {
        let sites = random.pick(&[1, 2, 5]);
        let mut network = TestNetwork::start([sites, 500, 600, 300, 12, 20]);
        let mut draws_alone = network.clone();
        let mut source = Source::new(stream, random.next());
        for _ in 0..80 {
            let length = random.pick(&[1, 3, 12, 40]);
            let mut arrivals: Vec<_> = (0..length).map(|_| source.next(&network)).collect();
            if random.one_in(4) {
                let spoilt = &mut arrivals[random.below(length) as usize];
                (spoilt.site, spoilt.item) = random.pick(&[(sites, 0), (0, 20)]);
            }
            let log_numbers = random.below(4 * 600) as usize;
            let (answer, written) = both.run_batch(&mut network, &arrivals, log_numbers);
            let draws = without_touches(&arrivals, answer.accepted);
            let (alone, messages) = both.run_batch(&mut draws_alone, &draws, log_numbers);
            let touches = arrivals.len() - draws.len();
            assert_eq!(alone, BatchAnswer { accepted: answer.accepted - touches, ..answer });
            assert_eq!(written, messages);
            let next = source.next(&network);
            let delivered = both.deliver_arrival(&mut network, next).messages;
            let messages: Vec<Message> = without_touches(&[next], 1)
                .into_iter()
                .flat_map(|draw| both.deliver_arrival(&mut draws_alone, draw).messages)
                .collect();
            assert_eq!(delivered, messages);
            assert!(network == draws_alone);
            assert_eq!(read(&mut both, &network), read(&mut both, &draws_alone));
        }
    }
    both.enough(15_000, &[UNKNOWN_SITE, UNKNOWN_ITEM, SHORT_LOG], 50);
}

/// Nine touches or more for each draw, which is of value 1 or 2: the message bounds, the allowance
/// and the shares hold with the draws alone, and at the least rank the quantile is 1.
#[test]
fn mostly_touches() {
    let mut random = Random::new(6_006);
    let mut both = Both::new();
    for sites in [1, 2, 7] {
        let mut history = History::start(&mut both, [sites, 400, 500, 1, 15, 5], 6_007);
        for draws in 1..=200 {
            let (site, item) = (random.below32(sites), random.below32(5));
            let draw = arrival(site, item, if draws == 1 { 1 } else { random.between(1, 2) });
            if random.one_in(2) {
                history.single(&mut both, draw);
                (0..9).for_each(|_| history.touch(&mut both, false));
            } else {
                let mut arrivals = [arrival(site, item, TOUCH); 10];
                arrivals[random.below(10) as usize] = draw;
                let log_numbers = 4 * history.network.settings.messages_per_arrival();
                history.batch(&mut both, &arrivals, log_numbers);
            }
            history.read(&mut both);
            assert_eq!((history.truth.draws, history.network.quantile()), (draws, Some(1)));
        }
        assert!(history.network.coordinator.threshold > 1);
    }
}

/// Of messages and memory the request says nothing: kinds 2, 5 and 6 with class 0 and a count of
/// class 0 are as before it.
#[test]
fn value_0_in_messages_and_memory() {
    let mut both = Both::new();
    let mut network = TestNetwork::start(A);
    let TestNetwork { sites, site_memory, coordinator, coordinator_memory, .. } = &mut network;
    let report = message(COUNT_REPORT, 0, 1, 0);
    let sent = both.receive_at_coordinator(A, report, coordinator, coordinator_memory);
    assert_eq!((sent.refusal, coordinator.total, coordinator_memory[10]), (ACCEPTED, 1, 1));
    assert_eq!(both.quantile(A, coordinator, coordinator_memory), Ok(Some(0)));
    let record = &mut sites.records[0];
    (record.arrivals, site_memory[24]) = (9, 9);
    let sent = both.receive_at_site(A, 0, message(PROBE, 0, 0, 0), record, site_memory);
    assert_eq!(sent.sent(), [message(PROBE_ANSWER, 0, 0, 9)]);
    coordinator.phase = Phase::Probing { site: 0, low: 0, high: 1, sum: 0 };
    let answer = message(PROBE_ANSWER, 0, 0, 9);
    let sent = both.receive_at_coordinator(A, answer, coordinator, coordinator_memory);
    assert_eq!((sent.refusal, coordinator.quantile), (ACCEPTED, 0));
}
