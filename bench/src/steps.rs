//! The arrival step by itself, as the batch call runs it: a batch of arrivals less an empty one,
//! which makes the same tests. One site, and a threshold so high that next to no message is due.

use std::hint::black_box;

use reference::message::{Arrival, TOUCH};
use reference::settings::threshold_of;
use reference::site::SITE_NUMBERS;

use crate::networks::{lent, Proved, Reference};
use crate::timing::{self, Table, Times};

/// Arrivals so far, all of them known to the coordinator.
const BASE: u64 = 900_000_000;
/// The place of the counters in use among a site record's numbers.
const USED: usize = 3;

/// Which counter an arrival meets.
#[derive(Clone, Copy, PartialEq)]
enum Meets {
    Counted,
    Unused,
    /// New items in rising order, so that the counters of least count stand together.
    Replaced,
    /// New items in no order, so that those counters stand anywhere.
    ReplacedAnywhere,
    /// None: it is a touch.
    Nothing,
}

/// Sites with all their counters in use: the items 0 to capacity - 1, with equal counts.
fn high_threshold(settings: [u32; 6]) -> Reference {
    let mut network = Reference::start(settings, 1000);
    let [sites, _, _, _, capacity, _] = settings.map(|number| number as usize);
    let base = BASE * sites as u64;
    let threshold = threshold_of(&network.settings, base);
    network.coordinator.total = base;
    network.coordinator.base = base;
    network.coordinator.threshold = threshold;
    let count = (BASE / capacity as u64) as u32;
    let parts = network.site_memory.chunks_exact_mut(4 * capacity + 1024);
    for (record, memory) in network.sites.records.iter_mut().zip(parts) {
        record.arrivals = BASE;
        record.threshold = threshold;
        record.used = capacity as u64;
        for (item, counter) in memory[..4 * capacity].chunks_exact_mut(4).enumerate() {
            counter.copy_from_slice(&[item as u32, count, 0, count]);
        }
        memory[4 * capacity] = BASE as u32;
    }
    network
}

/// Batches of so many arrivals at each site, each of which meets such a counter. They are taken in
/// turns, and are so many that no replacing item is counted still when it comes again.
fn batches(meets: Meets, sites: u32, capacity: u32, count: u32) -> Vec<Vec<Arrival>> {
    let replacing = (4 * capacity).next_multiple_of(count);
    let items: Vec<u32> = match meets {
        // All counters, in no simple order.
        Meets::Counted | Meets::Nothing => {
            (0..count).map(|number| number.wrapping_mul(7919) % capacity).collect()
        }
        Meets::Unused => (capacity - count..capacity).collect(),
        Meets::Replaced => (capacity..capacity + replacing).collect(),
        Meets::ReplacedAnywhere => shuffled((capacity..capacity + replacing).collect()),
    };
    let arrivals = |(number, &item): (usize, &u32)| {
        let of_draw = 1 + (number as u32).wrapping_mul(389) % 1023;
        let value = if meets == Meets::Nothing { TOUCH } else { of_draw };
        (0..sites).map(move |site| Arrival { site, item, value })
    };
    let all: Vec<Arrival> = items.iter().enumerate().flat_map(arrivals).collect();
    all.chunks((sites * count) as usize).map(<[Arrival]>::to_vec).collect()
}

fn shuffled(mut items: Vec<u32>) -> Vec<u32> {
    let mut state: u64 = 1;
    for place in (1..items.len()).rev() {
        state = state.wrapping_mul(6_364_136_223_846_793_005).wrapping_add(1);
        items.swap(place, (state >> 33) as usize % (place + 1));
    }
    items
}

/// A network that takes batches in turns, with so many counters in use before each.
struct Turns<Network, Batch> {
    network: Network,
    batches: Vec<Batch>,
    next: usize,
    used: u64,
}

impl<Network, Batch> Turns<Network, Batch> {
    fn of(network: Network, used: u64, batches: Vec<Batch>) -> Turns<Network, Batch> {
        Turns { network, batches, next: 0, used }
    }

    /// The place of the next batch.
    fn turn(&mut self) -> usize {
        let place = self.next;
        self.next = (place + 1) % self.batches.len();
        place
    }
}

impl Turns<Proved, Vec<boundary::Arrival>> {
    fn run(&mut self) {
        let place = self.turn();
        let records = self.network.sites.chunks_exact_mut(SITE_NUMBERS);
        records.for_each(|record| record[USED] = self.used);
        black_box(self.network.run(black_box(&self.batches[place])));
    }
}

impl Turns<Reference, Vec<Arrival>> {
    fn run(&mut self) {
        let place = self.turn();
        self.network.sites.records.iter_mut().for_each(|record| record.used = self.used);
        black_box(self.network.run(black_box(&self.batches[place])));
    }
}

/// The time of an arrival: that of a batch less that of an empty one, which makes the same tests.
fn measure_step(start: &Reference, used: u64, batches: Vec<Vec<Arrival>>) -> Times {
    let count = batches[0].len() as f64;
    let lent = batches.iter().map(|batch| lent(batch)).collect();
    let mut proved = Turns::of(Proved::of(start), used, lent);
    let mut proved_tests = Turns::of(Proved::of(start), used, vec![vec![]]);
    let mut reference = Turns::of(start.clone(), used, batches);
    let mut reference_tests = Turns::of(start.clone(), used, vec![vec![]]);
    let [of_proved, tests_of_proved, of_reference, tests_of_reference] = timing::least([
        &mut || proved.run(),
        &mut || proved_tests.run(),
        &mut || reference.run(),
        &mut || reference_tests.run(),
    ]);
    // Both sides did the same.
    proved.network.check(&reference.network, 0);
    Times {
        proved: (of_proved - tests_of_proved) / count,
        reference: (of_reference - tests_of_reference) / count,
    }
}

/// The rows for sites with so many counters.
pub fn measure(capacity: u32, table: &mut Table) {
    let epsilon = 6000_u32.div_ceil(capacity).max(2);
    for (name, meets) in [
        ("counted", Meets::Counted),
        ("unused", Meets::Unused),
        ("replaced, in order", Meets::Replaced),
        ("replaced, anywhere", Meets::ReplacedAnywhere),
        ("touch", Meets::Nothing),
    ] {
        let count = match meets {
            Meets::Unused => capacity.min(100),
            Meets::Nothing => 1000,
            _ if capacity > 1000 => 100,
            _ => 1000,
        };
        // Few unused counters are lost in the noise, so there all sites have some.
        let sites = if count < 100 { 32 } else { 1 };
        let start = high_threshold([sites, epsilon, 1000, 500, capacity, 5 * capacity + 1000]);
        let used = u64::from(if meets == Meets::Unused { capacity - count } else { capacity });
        let step = measure_step(&start, used, batches(meets, sites, capacity, count));
        table.add(format!("step, {name}, k {sites}, c {capacity}"), step);
    }
}
