//! Arrivals through the batch call: several settings and streams, over whole streams and at several
//! places of a stream; and batches of touches.

use std::hint::black_box;
use std::time::{Duration, Instant};

use reference::message::{Arrival, TOUCH};

use crate::networks::{lent, Proved, Reference};
use crate::streams::{Source, Stream, ALL};
use crate::timing::Times;

/// k, e, p, q, c, u.
const SETTINGS: [[u32; 6]; 4] = [
    [1, 1000, 1000, 500, 6, 1000],
    [4, 60, 80, 900, 100, 10_000],
    [8, 10, 15, 500, 600, 65_536],
    [32, 2, 3, 990, 3000, 65_536],
];

/// Arrivals in a batch.
const BATCH: usize = 1000;
/// Where in the stream a batch is timed: after so many arrivals.
const PLACES: [u64; 4] = [0, 100_000, 1_000_000, 10_000_000];
/// Where in the uniform stream a batch of touches is timed.
const TOUCHES_AFTER: u64 = PLACES[1];
/// How often a batch is timed: for about so long, but not less often than this.
const NANOSECONDS: f64 = 400_000_000.0;
const ROUNDS: (usize, usize) = (60, 800);
/// How long a whole stream is taken again and again.
const WHOLE: Duration = Duration::from_secs(3);

/// Whole streams of so many arrivals, from a fresh start.
pub fn measure_whole(arrivals: u64) {
    println!("| k | c | e | stream | arrivals | messages | proved, /s | reference, /s | ratio |");
    println!("|---|---|---|---|---|---|---|---|---|");
    for settings in SETTINGS {
        for (name, stream) in &ALL[..3] {
            measure_whole_stream(settings, name, *stream, arrivals);
        }
    }
}

/// A whole stream again and again, for about so long; the least time of each side counts.
fn measure_whole_stream(settings: [u32; 6], name: &str, stream: Stream, arrivals: u64) {
    let [k, e, _, _, c, _] = settings;
    let start = Instant::now();
    let (mut least, messages) = take_whole_stream(settings, stream, arrivals);
    while start.elapsed() < WHOLE {
        let (times, again) = take_whole_stream(settings, stream, arrivals);
        assert_eq!(again, messages);
        least.proved = least.proved.min(times.proved);
        least.reference = least.reference.min(times.reference);
    }
    let ratio = least.proved / least.reference;
    let speed = |time: f64| arrivals as f64 * 1e9 / time;
    println!(
        "| {k} | {c} | {e} | {name} | {arrivals} | {messages} | {:.0} | {:.0} | {ratio:.2} |",
        speed(least.proved),
        speed(least.reference)
    );
}

/// Both sides take the same batches, each of them first in every other one; their times add up.
fn take_whole_stream(settings: [u32; 6], stream: Stream, arrivals: u64) -> (Times, usize) {
    let mut source = Source::new(stream, settings, 1);
    let mut reference = Reference::start(settings, log_places(settings[0]));
    let mut proved = Proved::of(&reference);
    let mut times = Times { proved: 0.0, reference: 0.0 };
    let mut messages = 0;
    while source.sent < arrivals {
        let batch = source.take(BATCH);
        let lent = lent(&batch);
        let mut written = 0;
        for side in 0..2 {
            if side == source.sent / BATCH as u64 % 2 {
                times.proved += timed(|| proved.run(black_box(&lent)));
            } else {
                times.reference += timed(|| {
                    written = reference.run(black_box(&batch));
                    written
                });
            }
        }
        proved.check(&reference, written);
        messages += written;
    }
    (times, messages)
}

/// Places of a log that a batch never fills.
fn log_places(sites: u32) -> usize {
    30 * BATCH + 2 * (23 * sites as usize + 2)
}

/// The rows up to a place of the stream, and a row of touches for each settings.
pub fn measure(last: u64) {
    println!("| k | c | e | stream | after | messages | proved, ns | reference, ns | ratio |");
    println!("|---|---|---|---|---|---|---|---|---|");
    for settings in SETTINGS {
        for (name, stream) in &ALL[..3] {
            measure_stream(settings, name, *stream, last);
        }
        measure_touches(settings);
    }
}

fn measure_stream(settings: [u32; 6], name: &str, stream: Stream, last: u64) {
    let mut source = Source::new(stream, settings, 1);
    let mut network = Reference::start(settings, log_places(settings[0]));
    for after in PLACES.into_iter().filter(|&after| after <= last) {
        run_up_to(after, &mut source, &mut network);
        let arrivals = source.take(BATCH);
        print_row(settings, name, after, &network, &arrivals);
        network.run(&arrivals);
    }
}

/// A batch of touches, at the sites and of the items that come next in the uniform stream.
fn measure_touches(settings: [u32; 6]) {
    let mut source = Source::new(Stream::Uniform, settings, 1);
    let mut network = Reference::start(settings, log_places(settings[0]));
    run_up_to(TOUCHES_AFTER, &mut source, &mut network);
    let mut touches = source.take(BATCH);
    touches.iter_mut().for_each(|touch| touch.value = TOUCH);
    print_row(settings, "touches", TOUCHES_AFTER, &network, &touches);
}

/// The network takes the stream's arrivals up to a place.
fn run_up_to(place: u64, source: &mut Source, network: &mut Reference) {
    while source.sent < place {
        network.run(&source.take(BATCH));
    }
}

/// The row of a batch that comes after so many arrivals.
fn print_row(
    [k, e, _, _, c, _]: [u32; 6],
    name: &str,
    after: u64,
    network: &Reference,
    arrivals: &[Arrival],
) {
    let (Times { proved, reference }, messages) = measure_batch(network, arrivals);
    let ratio = proved / reference;
    println!(
        "| {k} | {c} | {e} | {name} | {after} | {messages} | {proved:.0} | {reference:.0} \
         | {ratio:.2} |"
    );
}

/// The least time of an arrival in this batch, which both sides take from the same state again and
/// again, in turns; and the messages that it leads to.
fn measure_batch(start: &Reference, arrivals: &[Arrival]) -> (Times, usize) {
    let lent = lent(arrivals);
    let mut reference = start.clone();
    let mut proved = Proved::of(start);
    let mut least = Times { proved: f64::INFINITY, reference: f64::INFINITY };
    let mut written = 0;
    let mut spent = 0.0;
    for round in 0..ROUNDS.1 {
        for side in 0..2 {
            if side == round % 2 {
                proved.restore(start);
                let time = timed(|| proved.run(black_box(&lent)));
                least.proved = least.proved.min(time);
                spent += time;
            } else {
                reference.restore(start);
                let time = timed(|| {
                    written = reference.run(black_box(arrivals));
                    written
                });
                least.reference = least.reference.min(time);
            }
        }
        if round >= ROUNDS.0 && spent > NANOSECONDS {
            break;
        }
    }
    proved.check(&reference, written);
    least.proved /= arrivals.len() as f64;
    least.reference /= arrivals.len() as f64;
    (least, written)
}

fn timed(mut run: impl FnMut() -> usize) -> f64 {
    let start = Instant::now();
    black_box(run());
    start.elapsed().as_nanos() as f64
}
