//! An item report, a count report, the list, a margin and the quantile at the coordinator.

use std::hint::black_box;

use draw_tracker::{calls, DeskRecord};
use reference::coordinator::{self, CoordinatorRecord};
use reference::message::{Message, COUNT_REPORT, ITEM_REPORT};
use reference::settings::{threshold_of, Settings};

use crate::sites::{message_of, settings_of};
use crate::timing::{self, Table};

/// The coordinator with its memory, once for each side.
#[derive(Clone)]
struct Coordinator {
    settings: [u32; 6],
    /// The record of the separate implementation's coordinator, and that of the proved one.
    record: CoordinatorRecord,
    desk: DeskRecord,
    memory: Vec<u64>,
    list: Vec<u32>,
    /// How many calls it took; they number the items.
    taken: u64,
}

impl Coordinator {
    /// A coordinator at rest with a million arrivals; one item in a hundred is listed.
    fn with(universe: u32) -> Coordinator {
        let settings = [32, 2, 4, 500, 3000, universe];
        let rules = Settings::from_numbers(settings);
        let mut memory = vec![0; rules.coordinator_memory_len()];
        for (item, number) in memory[..universe as usize].iter_mut().enumerate() {
            *number = if item % 100 == 7 { 10_000 } else { item as u64 % 50 };
        }
        let base = 1_000_000;
        let threshold = threshold_of(&rules, base);
        let record = CoordinatorRecord { total: base, base, threshold, ..CoordinatorRecord::FRESH };
        let list = vec![0; universe as usize];
        Coordinator { settings, record, desk: desk_of(&record), memory, list, taken: 0 }
    }

    fn next(&mut self, kind: u32) -> Message {
        self.taken += 1;
        let threshold = self.record.threshold;
        if kind == ITEM_REPORT {
            let item = self.taken * 7919 % u64::from(self.settings[5]);
            return Message::new(kind, 5, item, threshold);
        }
        // Never the last of a round.
        self.record.signals = 3;
        self.desk.signals = 3;
        Message::new(kind, 5, threshold, 0)
    }

    fn receive(&mut self, kind: u32) {
        let message = self.next(kind);
        let settings = Settings::from_numbers(black_box(self.settings));
        let outgoing = coordinator::receive(&settings, message, &mut self.record, &mut self.memory);
        assert_eq!(black_box(outgoing).refusal, 0);
    }

    fn receive_proved(&mut self, kind: u32) {
        let message = message_of(self.next(kind));
        let settings = settings_of(black_box(self.settings));
        let sent = calls::desk_message(&settings, &mut self.desk, &mut self.memory, &message);
        assert!(black_box(sent).is_ok());
    }

    fn list(&mut self) {
        let settings = Settings::from_numbers(black_box(self.settings));
        let memory = &self.memory;
        let count =
            coordinator::list_heavy_hitters(&settings, &self.record, memory, &mut self.list);
        assert!(black_box(count).is_ok());
    }

    fn list_proved(&mut self) {
        let settings = settings_of(black_box(self.settings));
        let listed = calls::desk_list(&settings, &self.desk, &self.memory, &mut self.list);
        assert!(black_box(listed).is_ok());
    }

    fn quantile(&mut self) {
        let settings = Settings::from_numbers(black_box(self.settings));
        let quantile = coordinator::read_quantile(&settings, &self.record, &self.memory);
        assert!(black_box(quantile).is_ok());
    }

    fn quantile_proved(&mut self) {
        let settings = settings_of(black_box(self.settings));
        let class = calls::desk_class(&settings, &self.desk, &self.memory);
        assert!(black_box(class).is_ok());
    }
}

/// The record as the proved calls take it.
fn desk_of(record: &CoordinatorRecord) -> DeskRecord {
    let numbers = record.to_numbers();
    let [total, base, threshold, signals, class, phase, site, low, high, sum] = numbers;
    DeskRecord {
        total,
        base,
        threshold,
        signals,
        class,
        phase,
        phase_deck: site,
        phase_low: low,
        phase_high: high,
        phase_sum: sum,
    }
}

/// The rows for a universe of so many items.
pub fn measure(universe: u32, table: &mut Table) {
    let start = Coordinator::with(universe);
    for (name, kind) in
        [("item report (kind 1)", ITEM_REPORT), ("count report (kind 2)", COUNT_REPORT)]
    {
        let (mut proved, mut reference) = (start.clone(), start.clone());
        let times = timing::measure(|| proved.receive_proved(kind), || reference.receive(kind));
        table.add(format!("{name}, u {universe}"), times);
        // Both sides did the same.
        assert_eq!(proved.desk, desk_of(&reference.record));
        assert!(proved.memory == reference.memory);
    }
    let (mut proved, mut reference) = (start.clone(), start.clone());
    let times = timing::measure(|| proved.list_proved(), || reference.list());
    table.add(format!("list, u {universe}"), times);
    assert!(proved.list == reference.list);
    let (mut proved, mut reference) = (start.clone(), start);
    let times = timing::measure(|| proved.quantile_proved(), || reference.quantile());
    table.add(format!("quantile from the record, u {universe}"), times);
}
