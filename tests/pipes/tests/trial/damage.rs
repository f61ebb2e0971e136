//! Damaged arrivals and messages, each with the number that document 01 gives for it.

use draw_tracker::Message;

const UNKNOWN_SITE: u32 = 5;
const UNKNOWN_ITEM: u32 = 6;
const UNKNOWN_VALUE: u32 = 7;
const NOT_DUE: u32 = 9;
const AMOUNT: u32 = 10;

/// What whoever carries the messages knows of the network: its settings, and the thresholds that
/// were announced.
pub struct Known {
    sites: u32,
    universe: u32,
    /// The threshold of each site.
    thresholds: Vec<u64>,
    /// The threshold of the last close that was announced.
    announced: u64,
}

impl Known {
    pub fn start(settings: [u32; 6]) -> Known {
        let thresholds = vec![1; settings[0] as usize];
        Known { sites: settings[0], universe: settings[5], thresholds, announced: 1 }
    }

    /// A message that is carried. Only kind 7 tells anything.
    pub fn see(&mut self, message: Message) {
        if message.kind == 7 {
            self.thresholds[message.deck as usize] = message.a;
            self.announced = message.a;
        }
    }

    /// A report that is due between arrivals: kind 1, or kind 2.
    pub fn report(&self, site: u32, item: u32, value: u32, of_item: bool) -> Message {
        let threshold = self.announced;
        if of_item {
            return Message { kind: 1, deck: u64::from(site), a: u64::from(item), b: threshold };
        }
        let value = if threshold == 1 { u64::from(value) } else { 0 };
        Message { kind: 2, deck: u64::from(site), a: threshold, b: value }
    }
}

/// Arrivals at a site that are refused.
pub fn damaged_arrivals(known: &Known, [site, item, value]: [u32; 3]) -> Vec<([u32; 3], u32)> {
    let Known { sites, universe, .. } = *known;
    vec![
        ([sites, item, value], UNKNOWN_SITE),
        ([u32::MAX, universe, 1024], UNKNOWN_SITE),
        ([site, universe, value], UNKNOWN_ITEM),
        ([site, u32::MAX, 1024], UNKNOWN_ITEM),
        ([site, item, 1024], UNKNOWN_VALUE),
        ([site, item, u32::MAX], UNKNOWN_VALUE),
    ]
}

/// Messages that are refused by the process for which `due` is due next.
pub fn damaged_messages(known: &Known, due: Message) -> Vec<(Message, u32)> {
    let mut damaged = Vec::new();
    let mut add = |number: u32, change: &dyn Fn(&mut Message)| {
        let mut message = due;
        change(&mut message);
        damaged.push((message, number));
    };
    // Unknown kinds; those that go the other way, or are not due in this phase.
    let wrong: &[u64] = match due.kind {
        1 | 2 => &[0, 3, 4, 5, 6, 7, 8, u32::MAX as u64],
        4 => &[0, 1, 2, 3, 5, 6, 7, 8],
        6 => &[0, 1, 2, 3, 4, 5, 7, 8],
        _ => &[0, 1, 2, 4, 6, 8, 255],
    };
    for &kind in wrong {
        add(NOT_DUE, &|message| message.kind = kind);
    }
    let sites = u64::from(known.sites);
    for site in [sites, u64::from(u32::MAX)] {
        add(UNKNOWN_SITE, &|message| message.deck = site);
        // 5 comes before 9.
        add(UNKNOWN_SITE, &|message| (message.deck, message.kind) = (site, 0));
    }
    // Reports are due from every site, all else from one or for one only.
    if sites > 1 && due.kind > 2 {
        add(NOT_DUE, &|message| message.deck = (message.deck + 1) % sites);
    }
    match due.kind {
        1 => {
            let unknown = u64::from(known.universe);
            add(UNKNOWN_ITEM, &|message| message.a = unknown);
            // 6 comes before 10.
            add(UNKNOWN_ITEM, &|message| (message.a, message.b) = (u64::MAX, 0));
            add(AMOUNT, &|message| message.b += 1);
            add(AMOUNT, &|message| message.b -= 1);
            add(AMOUNT, &|message| message.b = u64::MAX);
        }
        2 => {
            add(AMOUNT, &|message| message.a += 1);
            add(AMOUNT, &|message| message.a -= 1);
            if due.a == 1 {
                add(UNKNOWN_VALUE, &|message| message.b = 1024);
                // 7 comes before 10.
                add(UNKNOWN_VALUE, &|message| (message.a, message.b) = (0, u64::MAX));
            } else {
                add(AMOUNT, &|message| message.b = 1);
                add(AMOUNT, &|message| message.b = 1024);
            }
        }
        3 => {
            add(AMOUNT, &|message| message.a = 1);
            add(AMOUNT, &|message| message.b = 1);
        }
        4 => {
            add(AMOUNT, &|message| message.a = known.announced);
            add(AMOUNT, &|message| message.a = u64::MAX);
            add(AMOUNT, &|message| message.b = 1);
        }
        5 => {
            add(UNKNOWN_VALUE, &|message| message.a = 1024);
            add(UNKNOWN_VALUE, &|message| (message.a, message.b) = (u64::MAX, 1));
            add(AMOUNT, &|message| message.b = 1);
        }
        6 => {
            add(UNKNOWN_VALUE, &|message| message.a = 1024);
            // The middle of an interval is below its high end, so there is a class above it.
            add(AMOUNT, &|message| message.a += 1);
            add(AMOUNT, &|message| message.b = 1_000_000_001);
        }
        _ => {
            let present = known.thresholds[due.deck as usize];
            add(AMOUNT, &|message| message.a = present - 1);
            add(AMOUNT, &|message| message.a = 1_000_000_001);
        }
    }
    damaged
}
