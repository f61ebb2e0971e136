//! Junk calls in a history: any call with any arguments. One that is refused changes nothing, so it
//! may stand anywhere; one that is accepted is made on a copy, and only compared.

use reference::message::{Arrival, Message};
use reference::refusal::*;

use super::History;
use crate::both::batch::numbers_of;
use crate::both::Both;
use crate::forge::{any, damaged_settings};
use crate::support::{arrival, message, Random, TestNetwork};

/// A number below a bound most of the time, else at it or anything.
fn near(random: &mut Random, bound: u32) -> u32 {
    match random.below(6) {
        0 => bound,
        1 => any(random) as u32,
        _ => random.below32(bound),
    }
}

fn any_arrival(network: &TestNetwork, random: &mut Random) -> Arrival {
    let settings = &network.settings;
    let value = near(random, 1024).max(1);
    arrival(
        near(random, settings.sites),
        near(random, settings.universe),
        random.value_or_touch(value),
    )
}

/// A message of numbers that mean something in this network, or of any.
fn any_message(network: &TestNetwork, random: &mut Random) -> Message {
    let (threshold, base) = (network.coordinator.threshold, network.coordinator.base);
    let value = random.below(1025);
    let (some, other) = (any(random), any(random));
    let a = random.pick(&[0, 1, threshold, threshold - 1, threshold + 1, base, value, some]);
    let b = random.pick(&[0, 0, 1, threshold, base, value, other]);
    message(random.below32(9), near(random, network.settings.sites), a, b)
}

impl History {
    /// A junk call; where a batch sees that a delivery is under way, a batch as well, which is 11
    /// whatever its arrivals and its log.
    pub fn try_junk(&mut self, both: &mut Both, delivering: bool) {
        let mut copy = self.network.clone();
        if self.any_call(both, &mut copy) != ACCEPTED {
            assert!(copy == self.network);
        }
        if delivering && self.random.one_in(3) {
            let arrivals: Vec<Arrival> = (0..self.random.below(3))
                .map(|_| any_arrival(&self.network, &mut self.random))
                .collect();
            let log_numbers = self.random.pick(&[0, 4, 100, 8000]);
            let (answer, _) = both.run_batch(&mut self.network, &arrivals, log_numbers);
            assert_eq!(answer.refusal, INCONSISTENT);
        }
    }

    /// One call, whose refusal is answered. Now and then its settings are other ones, or the
    /// memory of another site is lent.
    fn any_call(&mut self, both: &mut Both, copy: &mut TestNetwork) -> u8 {
        let random = &mut self.random;
        let mut numbers = numbers_of(&copy.settings);
        let next = any_arrival(copy, random);
        let sent = any_message(copy, random);
        let site = random.below32(numbers[0]);
        let from = copy.settings.site_memory_len() * site as usize;
        let which = if random.one_in(2) { site } else { near(random, numbers[0]) };
        let places = random.below(4) as usize;
        if random.one_in(6) {
            numbers = damaged_settings(numbers, random);
        }
        let TestNetwork { sites, site_memory, coordinator, coordinator_memory, .. } = copy;
        let record = &mut sites.records[site as usize];
        match random.below(9) {
            0 | 1 => both.observe(numbers, next, record, &mut site_memory[from..]).refusal,
            2 | 3 => {
                let memory = &site_memory[from..];
                both.receive_at_site(numbers, which, sent, record, memory).refusal
            }
            4 | 5 => {
                both.receive_at_coordinator(numbers, sent, coordinator, coordinator_memory).refusal
            }
            6 => both.next_announcement(numbers, coordinator, coordinator_memory).refusal,
            7 => {
                let listed = both.list(numbers, coordinator, coordinator_memory, places);
                let quantile = both.quantile(numbers, coordinator, coordinator_memory);
                let margin = both.margin(numbers, coordinator, coordinator_memory, next.item);
                listed.err().or(quantile.err()).or(margin.err()).unwrap_or(ACCEPTED)
            }
            _ => {
                let log_numbers = random.pick(&[0, 40, 3000]);
                copy.settings = reference::settings::Settings::from_numbers(numbers);
                let (answer, _) = both.run_batch(copy, &[next], log_numbers);
                copy.settings = self.network.settings;
                // A refusal of the only arrival leaves all as it was.
                answer.refusal
            }
        }
    }
}
