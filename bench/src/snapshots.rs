//! A network saved to bytes and read back (request N3), by the byte of its file.

use std::hint::black_box;
use std::time::Instant;

use crate::networks::{Proved, Reference};
use crate::streams::{Source, Stream};

/// k, e, p, q, c, u, and after how many arrivals all counters are in use.
const NETWORKS: [([u32; 6], u64); 3] = [
    ([1, 1000, 1000, 500, 6, 1000], 1000),
    ([4, 60, 80, 900, 100, 10_000], 10_000),
    ([32, 2, 3, 990, 3000, 65_536], 200_000),
];
/// Arrivals in a batch, and places of a log that it never fills.
const BATCH: usize = 1000;
const LOG: usize = 40 * BATCH;
/// How often a call is timed: for about so many bytes, and as often as this at least.
const BYTES: usize = 200_000_000;
const ROUNDS: usize = 100;

/// The rows of all networks.
pub fn measure() {
    println!("| call | k | c | u | bytes | proved, ns a byte | reference, ns a byte | ratio |");
    println!("|---|---|---|---|---|---|---|---|");
    for (settings, arrivals) in NETWORKS {
        measure_network(settings, arrivals);
    }
}

fn measure_network(settings: [u32; 6], arrivals: u64) {
    let mut source = Source::new(Stream::Uniform, settings, 1);
    let mut reference = Reference::start(settings, LOG);
    while source.sent < arrivals {
        reference.run(&source.take(BATCH));
    }
    let sites = &reference.sites.records[..settings[0] as usize];
    assert!(sites.iter().all(|site| site.used == u64::from(settings[4])), "counters are unused");
    let mut proved = Proved::of(&reference);
    let length = reference::snapshot::file_len(&reference.settings);
    let (mut of_proved, mut of_reference) = (vec![0; length], vec![1; length]);
    let times = least(
        length,
        || proved.save(black_box(&mut of_proved)),
        || reference.save(black_box(&mut of_reference)),
    );
    // Both sides wrote the same, and read the same.
    assert!(of_proved == of_reference);
    print_row("save", settings, length, times);
    let start = reference.clone();
    let times = least(
        length,
        || proved.load(black_box(&of_proved)),
        || reference.load(black_box(&of_reference)),
    );
    proved.check(&start, 0);
    proved.check(&reference, 0);
    print_row("load", settings, length, times);
}

/// The least time of a call on each side, in nanoseconds a byte. Both are called equally often, in
/// turns, each of them first in every other round.
fn least<T>(
    length: usize,
    mut proved: impl FnMut() -> T,
    mut other: impl FnMut() -> T,
) -> [f64; 2] {
    let mut least = [f64::INFINITY; 2];
    for round in 0..ROUNDS.max(BYTES / length) {
        for turn in 0..2 {
            let side = (round + turn) % 2;
            let start = Instant::now();
            black_box(if side == 0 { proved() } else { other() });
            let time = start.elapsed().as_nanos() as f64 / length as f64;
            least[side] = least[side].min(time);
        }
    }
    least
}

fn print_row(call: &str, settings: [u32; 6], length: usize, [proved, reference]: [f64; 2]) {
    let [k, _, _, _, c, u] = settings;
    let ratio = proved / reference;
    println!("| {call} | {k} | {c} | {u} | {length} | {proved:.3} | {reference:.3} | {ratio:.2} |");
}
