//! Request N2: an arrival of value 0 is a touch and no draw. It is tested as a draw is up to 7, and
//! then accepted: nothing changes and nothing goes out, at a full site and with a full log too.

mod support;

use reference::drawtrack::transcript;
use reference::message::{Arrival, Message, Outgoing, TOUCH};
use reference::network::BatchAnswer;
use reference::refusal::*;
use reference::settings::allowance;
use reference::site;
use support::defects::for_all_sets;
use support::full::{touch_at_a_full_site, TouchCall, SITE_1, TOUCH_DEFECTS};
use support::streams::{Source, ALL};
use support::truth::Truth;
use support::{arrival, Random, TestNetwork, A};

/// The draw of the line `0;7;3`, and the touch of the line `0;8;0`.
const DRAW: Arrival = Arrival { site: 0, item: 7, value: 3 };
const TOUCHED: Arrival = Arrival { site: 0, item: 8, value: TOUCH };

/// What a batch answers that writes nothing.
fn nothing_written(accepted: usize, refusal: u8) -> BatchAnswer {
    BatchAnswer { accepted, written: 0, refusal }
}

/// Settings A, `0;7;3` then `0;8;0`: all is as after the first.
#[test]
fn after_a_draw() {
    let mut network = TestNetwork::start(A);
    let mut both = network.clone();
    let messages = network.take(&[DRAW]);
    let before = network.clone();
    assert_eq!(network.observe(TOUCHED), (ACCEPTED, vec![]));
    assert_eq!(network.run_batch(&[TOUCHED], &mut []), nothing_written(1, ACCEPTED));
    assert_eq!(network, before);
    // One batch of the two accepts both.
    assert_eq!(both.take(&[DRAW, TOUCHED]), messages);
    assert_eq!(both, before);
    assert_eq!((both.all_messages(), both.heavy_hitters()), (5, vec![7]));
    assert_eq!(both.quantile(), Some(3));
}

/// Settings A, touches alone: nothing is listed, there is no quantile, and n is 0.
#[test]
fn touches_alone() {
    let fresh = TestNetwork::start(A);
    let mut network = fresh.clone();
    assert_eq!(network.observe(arrival(0, 7, TOUCH)), (ACCEPTED, vec![]));
    let touches: Vec<Arrival> = (0..10).map(|item| arrival(0, item, TOUCH)).collect();
    assert_eq!(network.run_batch(&touches, &mut []), nothing_written(10, ACCEPTED));
    assert_eq!(network, fresh);
    let mut truth = Truth::new(&network.settings);
    touches.iter().for_each(|touch| truth.count(&network.settings, touch, 0));
    truth.check(&network);
    assert_eq!((network.heavy_hitters(), network.quantile()), (vec![], None));
    assert!((0..10).all(|item| network.margin(item) == Ok(0)));
    assert_eq!((truth.draws, allowance(&network.settings, truth.draws)), (0, Ok(150)));
}

/// The least value of a draw is 1, and it is counted as any other.
#[test]
fn value_1_is_a_draw() {
    let mut network = TestNetwork::start(A);
    assert_eq!(network.take(&[arrival(0, 7, 1)]).len(), 5);
    assert_eq!((network.sites.records[0].arrivals, network.quantile()), (1, Some(1)));
}

#[test]
fn lines_of_the_program() {
    let written = |worklist: &str| {
        let bytes = transcript(format!("1;1000;1000;500;6;10\n{worklist}").as_bytes());
        String::from_utf8(bytes).expect("the transcript is text")
    };
    let draw = written("0;7;3\n");
    assert!(draw.ends_with("listed 7\nclass 3\nmessages 5\n"));
    assert_eq!(written("0;7;0\n"), "listed\nclass none\nmessages 0\n");
    assert_eq!(written("0;7;3\n0;8;0\n"), draw);
    assert_eq!(written("0;7;0\n0;7;3\n0;7;0\n"), draw);
    assert_eq!(written("0;7;0\n1;7;0\n"), "refused 5\n");
    assert_eq!(written("0;7;0\n0;10;0\n"), "refused 6\n");
    assert_eq!(written("0;7;0\n0;7;00\n"), "refused 13\n");
}

fn observe_at_site_1(call: &mut TouchCall) -> Outgoing<2> {
    let TouchCall { network, arrival } = call;
    let memory = &mut network.site_memory[SITE_1..];
    site::observe(&network.settings, *arrival, &mut network.sites.records[1], memory)
}

#[test]
fn refusals_in_order() {
    for_all_sets(&touch_at_a_full_site(), &TOUCH_DEFECTS, |mut call, refusal| {
        let before = call.clone();
        assert_eq!(observe_at_site_1(&mut call), Outgoing::none(refusal));
        let answer = call.network.run_batch(&[call.arrival], &mut []);
        assert_eq!(answer, nothing_written(0, refusal));
        assert_eq!(call, before);
    });
}

#[test]
fn a_full_site() {
    let mut call = touch_at_a_full_site();
    let before = call.clone();
    assert_eq!(observe_at_site_1(&mut call), Outgoing::none(ACCEPTED));
    let answer = call.network.run_batch(&[call.arrival], &mut []);
    assert_eq!(answer, nothing_written(1, ACCEPTED));
    assert_eq!(call, before);
    call.arrival.value = 1;
    assert_eq!(observe_at_site_1(&mut call), Outgoing::none(SITE_FULL));
    let touch = before.arrival;
    let answer = call.network.run_batch(&[touch, touch, call.arrival], &mut []);
    assert_eq!(answer, nothing_written(2, SITE_FULL));
    assert_eq!(call.network, before.network);
}

/// Touches are accepted with any log, and a draw between them asks for its 23 × k + 2 places.
#[test]
fn short_logs() {
    let fresh = TestNetwork::start(A);
    let mut network = fresh.clone();
    let answer = network.run_batch(&[TOUCHED, TOUCHED, DRAW, TOUCHED], &mut []);
    assert_eq!(answer, nothing_written(2, SHORT_LOG));
    let answer = network.run_batch(&[DRAW, TOUCHED], &mut []);
    assert_eq!(answer, nothing_written(0, SHORT_LOG));
    assert_eq!(network, fresh);
    // Places for one draw, which takes five of them.
    let mut log = [Message::default(); 25];
    let answer = network.run_batch(&[TOUCHED, DRAW, TOUCHED, TOUCHED, DRAW], &mut log);
    assert_eq!(answer, BatchAnswer { accepted: 4, written: 5, refusal: SHORT_LOG });
    assert!(log[5..].iter().all(|place| *place == Message::default()));
}

/// A touch at each site, single and in a batch, which tests the whole network first.
fn touch_everywhere(network: &mut TestNetwork) {
    let before = network.clone();
    for site in 0..network.settings.sites {
        let touch = arrival(site, 0, TOUCH);
        assert_eq!(network.observe(touch), (ACCEPTED, vec![]));
        let refusal = network.refusal();
        let accepted = usize::from(refusal == ACCEPTED);
        assert_eq!(network.run_batch(&[touch], &mut []), nothing_written(accepted, refusal));
    }
    assert_eq!(*network, before);
}

#[test]
fn in_mid_delivery() {
    let mut random = Random::new(1_001);
    let mut phases = [0; 4];
    for stream in ALL {
        let mut network = TestNetwork::start([2, 1000, 1000, 500, 6, 10]);
        let mut batched = network.clone();
        let mut source = Source::new(stream, 1_002);
        for _ in 0..100 {
            let next = source.next(&network);
            let sent = network.observe_and_deliver(next, &mut random, |network, _| {
                phases[network.coordinator.phase.to_numbers()[0] as usize] += 1;
                touch_everywhere(network);
            });
            assert_eq!(sent, batched.take(&[next]));
            batched.sites.messages = [0; 32];
            assert_eq!(network, batched);
        }
    }
    assert!(phases.iter().all(|&times| times > 100), "{phases:?}");
}

/// The draws by themselves leave the same network, and lead to the same messages.
#[test]
fn leaving_them_out() {
    let mut random = Random::new(1_003);
    let mut touches = 0;
    for stream in ALL {
        let mut network = TestNetwork::start([3, 400, 500, 500, 15, 20]);
        let mut draws_alone = network.clone();
        let mut source = Source::new(stream, 1_004);
        for _ in 0..100 {
            let arrivals: Vec<Arrival> =
                (0..random.below(20)).map(|_| source.next(&network)).collect();
            let draws: Vec<Arrival> = arrivals.iter().copied().filter(Arrival::is_draw).collect();
            touches += arrivals.len() - draws.len();
            assert_eq!(network.take(&arrivals), draws_alone.take(&draws));
            assert_eq!(network, draws_alone);
        }
        assert!(network.coordinator.threshold > 1);
    }
    assert!(touches > 500, "{touches} touches");
}
