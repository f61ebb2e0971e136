//! Histories of batches cut anyhow, single arrivals and junk calls, from a fresh start, on the
//! proved code and on the separate implementation: after every call answers, records, memory and
//! logs are the same, and at rest the readings too. Demands 2 and 3 are held against exact counts,
//! request N1 after each call, and N10 after each arrival, with the most of the leeway that a
//! listed item used.

mod both;
mod forge;
mod history;
#[path = "../../reference/tests/support/mod.rs"]
mod support;

use both::Both;
use history::History;
use reference::message::Arrival;
use reference::refusal::*;
use reference::settings::Settings;
use support::firm::LeewayUsed;
use support::streams::{Source, Stream, ALL};
use support::{Random, TestNetwork, A};

/// A run of arrivals of which some may be refused.
fn some_run(
    length: u64,
    source: &mut Source,
    network: &TestNetwork,
    random: &mut Random,
) -> Vec<Arrival> {
    let mut arrivals: Vec<_> = (0..length).map(|_| source.next(network)).collect();
    let settings = &network.settings;
    for next in &mut arrivals {
        match random.below(150) {
            0 => next.site = random.pick(&[settings.sites, settings.sites + 1, 32, u32::MAX]),
            1 => next.item = random.pick(&[settings.universe, u32::MAX]),
            2 => next.value = random.pick(&[1024, u32::MAX]),
            _ => {}
        }
        // The sites of a network of 32 are all there are.
        if next.site == 32 && settings.sites == 32 {
            next.site = 33;
        }
    }
    arrivals
}

/// Places for all arrivals, for a few of them, or none; the last record may be cut.
fn some_log(length: u64, network: &TestNetwork, random: &mut Random) -> usize {
    let needed = network.settings.messages_per_arrival() as u64;
    let some = random.below(needed * (length + 2));
    let records = random.pick(&[needed * length, needed + 6 * length, some, needed, needed - 1, 0]);
    (4 * records + random.pick(&[0, 0, 1, 3])) as usize
}

/// Histories of so many rounds, each a batch or some single arrivals, then readings. Answers how
/// much of the leeway they used.
fn run(
    both: &mut Both,
    numbers: [u32; 6],
    stream: Stream,
    seed: u64,
    rounds: u64,
    lengths: &[u64],
) -> LeewayUsed {
    let mut random = Random::new(seed + 1);
    let mut history = History::start(both, numbers, seed);
    let mut source = Source::new(stream, seed + 2);
    history.read(both);
    for _ in 0..rounds {
        if random.one_in(3) {
            for _ in 0..random.between(1, 4) {
                let next = source.next(&history.network);
                history.single(both, next);
            }
        } else {
            let length = random.pick(lengths);
            let arrivals = some_run(length, &mut source, &history.network, &mut random);
            let log_numbers = some_log(length, &history.network, &mut random);
            history.batch(both, &arrivals, log_numbers);
        }
        if random.one_in(3) {
            history.try_junk(both, false);
        }
        history.read(both);
    }
    history.truth.leeway_used
}

/// Nothing used yet, under whatever settings.
fn nothing_used() -> LeewayUsed {
    LeewayUsed::none(&Settings::from_numbers(A))
}

/// Settings that pass their test, with the least capacity for their epsilon or some more.
fn some_settings(random: &mut Random, sites: u32) -> [u32; 6] {
    let epsilon = random.pick(&[40, 90, 100, 250, 333, 500, 700, 999, 1000]);
    let between = random.between(epsilon, 1000);
    let phi = random.pick(&[epsilon, (epsilon + 1).min(1000), 1000, between]);
    let anywhere = random.between(1, 1000);
    let rank = random.pick(&[1, 2, 500, 501, 999, 1000, anywhere]);
    let capacity = 6000_u32.div_ceil(epsilon) + random.pick(&[0, 0, 1, 9]);
    let universe = random.pick(&[1, 2, 7, 30, 150, 400]);
    [sites, epsilon, phi, rank, capacity, universe]
}

const MET: [u8; 14] = [
    ACCEPTED,
    SETTING_RANGE,
    PHI_BELOW_EPSILON,
    TOO_FEW_COUNTERS,
    SHORT_MEMORY,
    UNKNOWN_SITE,
    UNKNOWN_ITEM,
    UNKNOWN_VALUE,
    MESSAGE_NOT_DUE,
    AMOUNT_NOT_DUE,
    INCONSISTENT,
    SHORT_LIST,
    SHORT_LOG,
    ACCEPTED,
];

#[test]
fn few_sites() {
    let mut random = Random::new(2_001);
    let mut both = Both::new();
    let mut tightest = nothing_used();
    for round in 0..120 {
        for (kind, &stream) in ALL.iter().enumerate() {
            let sites = random.pick(&[1, 1, 2, 3, 4, 7]);
            let numbers = some_settings(&mut random, sites);
            let seed = 10_000 + 100 * round + 10 * kind as u64;
            let used = run(&mut both, numbers, stream, seed, 60, &[0, 1, 2, 7, 40]);
            tightest.or_tighter(&used);
        }
    }
    tightest.show("few sites");
    both.enough(600_000, &MET, 500);
}

#[test]
fn many_sites() {
    let mut random = Random::new(2_002);
    let mut both = Both::new();
    let mut tightest = nothing_used();
    for (kind, &stream) in ALL.iter().enumerate() {
        for sites in [9, 16, 25, 31, 32, 32, 32, 32] {
            let numbers = some_settings(&mut random, sites);
            let seed = 20_000 + 100 * kind as u64 + random.below(100);
            tightest.or_tighter(&run(&mut both, numbers, stream, seed, 80, &[0, 1, 5, 60]));
        }
    }
    tightest.show("many sites");
    both.enough(50_000, &[ACCEPTED, SHORT_LOG, INCONSISTENT], 500);
}

/// Small epsilons, which need many counters and many arrivals for a threshold above 1.
#[test]
fn many_counters() {
    let mut both = Both::new();
    let mut tightest = nothing_used();
    for (place, numbers) in [
        [1, 2, 3, 500, 3000, 4000],
        [2, 10, 12, 900, 700, 1000],
        [4, 20, 20, 250, 300, 65_536],
        [3, 60, 80, 1, 100, 500],
        [32, 40, 50, 700, 150, 2000],
        [32, 2, 2, 500, 3000, 5000],
    ]
    .into_iter()
    .enumerate()
    {
        for (kind, stream) in
            [Stream::Uniform, Stream::RoundRobin, Stream::Flood].into_iter().enumerate()
        {
            let seed = 30_000 + 100 * place as u64 + 10 * kind as u64;
            tightest.or_tighter(&run(&mut both, numbers, stream, seed, 30, &[0, 1, 300, 600]));
        }
    }
    tightest.show("many counters");
    both.enough(5_000, &[ACCEPTED, SHORT_LOG], 50);
}
