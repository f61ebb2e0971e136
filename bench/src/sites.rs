//! An arrival at a site whose item is counted already, takes an unused counter, or replaces one; a
//! poll, which makes the same tests and next to no step; and a probe, which sums a histogram.

use std::hint::black_box;

use draw_tracker::{calls, DeckRecord};
use reference::message::{Arrival, Message, POLL, PROBE};
use reference::settings::Settings;
use reference::site::{self, SiteRecord};

use crate::timing::{self, Table, Times};

const UNIVERSE: u32 = 65_536;

/// A site with its memory, once for each side.
#[derive(Clone)]
struct Site {
    settings: [u32; 6],
    /// The record of the separate implementation's site, and that of the proved one.
    record: SiteRecord,
    deck: DeckRecord,
    memory: Vec<u32>,
    /// How many arrivals it took; they number the items.
    taken: u32,
}

/// Which counter an arrival meets.
#[derive(Clone, Copy, PartialEq)]
enum Meets {
    Counted,
    Unused,
    Replaced,
}

impl Site {
    /// All counters in use, with the items 0 to capacity - 1, and no report due for long.
    fn full(capacity: u32) -> Site {
        let epsilon = 6000_u32.div_ceil(capacity).max(2);
        let settings = [4, epsilon, 1000, 500, capacity, UNIVERSE];
        let memory = vec![0; Settings::from_numbers(settings).site_memory_len()];
        let record = SiteRecord { threshold: 1_000_000_000, ..SiteRecord::FRESH };
        let mut site = Site { settings, record, deck: DeckRecord::default(), memory, taken: 0 };
        for _ in 0..capacity {
            site.observe(Meets::Replaced);
        }
        site.deck = deck_of(&site.record);
        site
    }

    fn next(&mut self, meets: Meets) -> Arrival {
        let capacity = self.settings[4];
        self.taken += 1;
        let item = match meets {
            // Steps through all counters in no simple order.
            Meets::Counted => self.taken.wrapping_mul(7919) % capacity,
            Meets::Unused => UNIVERSE - 1,
            Meets::Replaced => (self.taken - 1) % (UNIVERSE - 1),
        };
        if meets == Meets::Unused {
            self.record.used = u64::from(capacity) - 1;
            self.deck.slots_in_use = self.record.used;
        }
        // Never a touch.
        Arrival { site: 1, item, value: 1 + self.taken % 1023 }
    }

    /// The arrival on the separate implementation.
    fn observe(&mut self, meets: Meets) {
        let arrival = self.next(meets);
        let settings = Settings::from_numbers(black_box(self.settings));
        let outgoing = site::observe(&settings, arrival, &mut self.record, &mut self.memory);
        assert_eq!(black_box(outgoing).refusal, 0);
    }

    /// The arrival on the proved code.
    fn observe_proved(&mut self, meets: Meets) {
        let Arrival { site, item, value } = self.next(meets);
        let settings = settings_of(black_box(self.settings));
        let sent = calls::deck_draw(&settings, site, &mut self.deck, &mut self.memory, item, value);
        assert!(black_box(sent).is_ok());
    }

    fn receive(&mut self, sent: Message) {
        let settings = Settings::from_numbers(black_box(self.settings));
        let outgoing = site::receive(&settings, 1, sent, &mut self.record, &self.memory);
        assert_eq!(black_box(outgoing).refusal, 0);
    }

    fn receive_proved(&mut self, sent: Message) {
        let settings = settings_of(black_box(self.settings));
        let sent = message_of(sent);
        let reply = calls::deck_message(&settings, 1, &mut self.deck, &self.memory, &sent);
        assert!(black_box(reply).is_ok());
    }
}

/// The settings as the proved calls take them.
pub fn settings_of(numbers: [u32; 6]) -> draw_tracker::Settings {
    let [decks, leeway, share, rank, slots, codes] = numbers;
    draw_tracker::Settings { decks, leeway, share, rank, slots, codes }
}

/// A message as the proved calls take it.
pub fn message_of(message: Message) -> draw_tracker::Message {
    let [kind, deck, a, b] = message.to_numbers();
    draw_tracker::Message { kind, deck, a, b }
}

/// The record as the proved calls take it.
fn deck_of(record: &SiteRecord) -> DeckRecord {
    let [draws, pending, threshold, slots_in_use, forgotten] = record.to_numbers();
    DeckRecord { draws, pending, threshold, slots_in_use, forgotten }
}

fn measure_message(full: &Site, sent: Message) -> Times {
    let (mut proved, mut reference) = (full.clone(), full.clone());
    timing::measure(|| proved.receive_proved(sent), || reference.receive(sent))
}

/// The rows for sites with so many counters.
pub fn measure(capacity: u32, table: &mut Table) {
    let full = Site::full(capacity);
    let poll = measure_message(&full, Message::new(POLL, 1, 0, 0));
    table.add(format!("poll (kind 3), c {capacity}"), poll);
    let probe = measure_message(&full, Message::new(PROBE, 1, 511, 0));
    table.add(format!("probe (kind 5) of 511, c {capacity}"), probe);
    for (name, meets) in
        [("counted", Meets::Counted), ("unused", Meets::Unused), ("replaced", Meets::Replaced)]
    {
        let (mut proved, mut reference) = (full.clone(), full.clone());
        let times = timing::measure(|| proved.observe_proved(meets), || reference.observe(meets));
        table.add(format!("arrival, {name}, c {capacity}"), times);
        // With few counters the difference is lost in the noise.
        if capacity == 3000 {
            let step = Times {
                proved: times.proved - poll.proved,
                reference: times.reference - poll.reference,
            };
            table.add(format!("the same less a poll, c {capacity}"), step);
        }
        // Both sides did the same.
        assert_eq!(proved.deck, deck_of(&reference.record));
        assert!(proved.memory == reference.memory);
    }
}
