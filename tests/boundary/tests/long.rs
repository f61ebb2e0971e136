//! Long runs of batches on the proved code and on the separate implementation, from a fresh start,
//! one arrival in ten a touch: the same after every batch, and demands 2 and 3 held against exact
//! counts now and then, and request N1. They are not in the gate; `tests/long.sh` runs them.

mod both;
#[path = "../../../bench/src/streams.rs"]
mod streams;
#[path = "../../reference/tests/support/mod.rs"]
mod support;

use std::time::Instant;

use both::Both;
use reference::refusal::{ACCEPTED, SHORT_LOG};
use streams::{Source, ALL};
use support::account::Account;
use support::truth::Truth;
use support::{Random, TestNetwork};

/// k, e, p, q, c, u.
const SETTINGS: [[u32; 6]; 8] = [
    [1, 1000, 1000, 500, 6, 1000],
    [4, 60, 80, 900, 100, 10_000],
    [32, 1000, 1000, 1, 6, 50],
    [7, 333, 400, 250, 19, 2000],
    [16, 100, 100, 999, 60, 300],
    [8, 10, 15, 500, 600, 65_536],
    [2, 2, 2, 500, 3000, 5000],
    [32, 2, 3, 990, 3000, 65_536],
];

/// How often the demands are checked: once in so many batches.
const CHECKED: u64 = 20;

fn number(name: &str, otherwise: u64) -> u64 {
    std::env::var(name).map_or(otherwise, |word| word.parse().expect("a number"))
}

/// A stream of so many arrivals, in batches cut anyhow. Where a log is too short for its batch, the
/// next batch goes on with the arrival that was refused.
fn run(both: &mut Both, settings: [u32; 6], source: &mut Source, arrivals: u64, seed: u64) -> u64 {
    let mut random = Random::new(seed);
    let mut network = TestNetwork::start(settings);
    let mut truth = Truth::new(&network.settings);
    let mut account = Account::start(&network.settings);
    let needed = network.settings.messages_per_arrival();
    let mut waiting = Vec::new();
    let mut accepted = 0;
    while accepted < arrivals {
        if waiting.is_empty() {
            waiting = source.take(random.between(1, 2000) as usize);
            for next in &mut waiting {
                next.value = random.value_or_touch(next.value);
            }
        }
        let places = needed + random.below(8 * waiting.len() as u64) as usize;
        let (answer, written) = both.run_batch(&mut network, &waiting, 4 * places);
        assert!([ACCEPTED, SHORT_LOG].contains(&answer.refusal));
        accepted += answer.accepted as u64;
        for next in waiting.drain(..answer.accepted) {
            truth.count(&network.settings, &next, 0);
        }
        truth.messages += answer.written as u64;
        account.add(&written);
        if random.one_in(CHECKED) {
            truth.check(&network);
            account.check(&network);
        }
    }
    truth.check(&network);
    account.check(&network);
    assert_eq!(network.all_messages(), truth.messages);
    truth.messages
}

#[test]
#[ignore = "takes minutes"]
fn long_runs_agree() {
    let arrivals = number("LONG_ARRIVALS", 10_000_000);
    let seed = number("LONG_SEED", 1);
    for settings in SETTINGS {
        for (place, (name, stream)) in ALL.into_iter().enumerate() {
            let started = Instant::now();
            let mut both = Both::new();
            let mut source = Source::new(stream, settings, seed + place as u64);
            let each = arrivals.div_ceil(ALL.len() as u64);
            let messages = run(&mut both, settings, &mut source, each, seed + 100);
            let seconds = started.elapsed().as_secs();
            let (calls, short) = (both.calls, both.refusals[usize::from(SHORT_LOG)]);
            println!(
                "{settings:?} {name}: {each} arrivals, {messages} messages, {calls} batches, \
                 {short} of them stopped by 14, {seconds} s"
            );
        }
    }
}
