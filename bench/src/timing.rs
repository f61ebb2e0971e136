//! Blocks of calls, timed in turns, and the table of what came out.

use std::time::Instant;

/// How often each block is timed. The least time counts: what else the machine does only adds.
const ROUNDS: usize = 200;
/// About how long a block takes.
const BLOCK_NANOSECONDS: f64 = 700_000.0;

/// Nanoseconds a call.
#[derive(Clone, Copy)]
pub struct Times {
    pub proved: f64,
    pub reference: f64,
}

/// The least time of a call on each side. Both are called equally often, in turns.
pub fn measure(mut proved: impl FnMut(), mut reference: impl FnMut()) -> Times {
    let [proved, reference] = least([&mut proved, &mut reference]);
    Times { proved, reference }
}

/// The least time of each of some calls. All are made equally often, in turns.
pub fn least<const CALLS: usize>(mut calls: [&mut dyn FnMut(); CALLS]) -> [f64; CALLS] {
    let warm = calls.iter_mut().map(|call| block(call, 20)).fold(0.0, f64::max);
    let times = (BLOCK_NANOSECONDS / warm).clamp(10.0, 20_000.0) as u32;
    let mut least = [f64::INFINITY; CALLS];
    for round in 0..ROUNDS {
        for turn in 0..CALLS {
            let place = (round + turn) % CALLS;
            least[place] = least[place].min(block(&mut calls[place], times));
        }
    }
    least
}

fn block(call: &mut impl FnMut(), calls: u32) -> f64 {
    let start = Instant::now();
    for _ in 0..calls {
        call();
    }
    start.elapsed().as_nanos() as f64 / f64::from(calls)
}

/// The rows of the report.
pub struct Table {
    rows: Vec<(String, Times)>,
}

impl Table {
    pub fn new() -> Table {
        Table { rows: Vec::new() }
    }

    pub fn add(&mut self, name: String, times: Times) {
        self.rows.push((name, times));
    }

    pub fn print(&self) {
        println!("| call | proved, ns | reference, ns | ratio |");
        println!("|---|---|---|---|");
        for (name, Times { proved, reference }) in &self.rows {
            println!("| {name} | {proved:.0} | {reference:.0} | {:.2} |", proved / reference);
        }
    }
}
