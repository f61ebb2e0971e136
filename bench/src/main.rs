//! Times of the proved calls as a ratio to the separate implementation, on the same input in the
//! same run. README.md says what is measured and how.
//!
//! `bench [calls] [steps] [snapshots] [sums] [streams] [batches] [long] [once]`: these parts, or
//! the first six; with `long` batches go on to ten million arrivals, `once` takes each sum once.

mod batches;
mod coordinators;
mod file_sums;
mod networks;
mod sites;
mod snapshots;
mod steps;
mod streams;
mod timing;

use timing::Table;

fn main() {
    let words: Vec<String> = std::env::args().skip(1).collect();
    let asked = |part: &str| words.is_empty() || words.iter().any(|word| word == part);
    if asked("calls") {
        let mut table = Table::new();
        for capacity in [6, 100, 3000] {
            sites::measure(capacity, &mut table);
        }
        for universe in [1000, 65_536] {
            coordinators::measure(universe, &mut table);
        }
        table.print();
    }
    if asked("steps") {
        let mut table = Table::new();
        for capacity in [6, 100, 3000] {
            steps::measure(capacity, &mut table);
        }
        table.print();
    }
    if asked("snapshots") {
        snapshots::measure();
    }
    if asked("sums") {
        file_sums::measure();
    }
    if words.iter().any(|word| word == "once") {
        file_sums::once();
    }
    if asked("streams") {
        batches::measure_whole(1_000_000);
    }
    let long = words.iter().any(|word| word == "long");
    if asked("batches") || long {
        batches::measure(if long { 10_000_000 } else { 1_000_000 });
    }
}
