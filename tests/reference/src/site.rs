//! A site: it counts its arrivals with Space-Saving counters and a histogram,
//! reports to the coordinator and answers it.

use crate::message::{self, Arrival, Message, Outgoing};
use crate::refusal;
use crate::settings::{settings_refusal, Settings, COUNTER_NUMBERS, MAX_SITES, MAX_VALUE, VALUES};

/// Most draws that one site takes, and so the largest threshold.
pub const MAX_ARRIVALS: u64 = 1_000_000_000;

// Places of a counter's numbers.
/// Document 01's code of a slot.
const ITEM: usize = 0;
/// Document 01's count of a slot.
const COUNT: usize = 1;
/// Document 01's overcount of a slot.
const OVERESTIMATE: usize = 2;
/// Document 01's sent number of a slot.
const REPORTED: usize = 3;

/// Numbers of a site's record.
pub const SITE_NUMBERS: usize = 5;

/// A site: document 01's deck. This is its record of single numbers.
#[derive(Clone, Copy, Debug, PartialEq, Eq)]
pub struct SiteRecord {
    /// Document 01's draws of the deck.
    pub arrivals: u64,
    /// Document 01's pending.
    pub pending: u64,
    /// Document 01's threshold.
    pub threshold: u64,
    /// Document 01's slots in use.
    pub used: u64,
    /// Request N1's forgotten draws: the unsent draws of all codes that lost
    /// their slot.
    pub dropped: u64,
}

impl SiteRecord {
    /// The record of a site started fresh.
    pub const FRESH: SiteRecord =
        SiteRecord { arrivals: 0, pending: 0, threshold: 1, used: 0, dropped: 0 };

    /// Draws, pending, threshold, slots in use, forgotten draws as plain numbers.
    pub fn to_numbers(self) -> [u64; SITE_NUMBERS] {
        [self.arrivals, self.pending, self.threshold, self.used, self.dropped]
    }

    /// The record of these plain numbers.
    pub fn from_numbers(numbers: [u64; SITE_NUMBERS]) -> SiteRecord {
        let [arrivals, pending, threshold, used, dropped] = numbers;
        SiteRecord { arrivals, pending, threshold, used, dropped }
    }
}

/// The records of up to 32 sites in one value: document 01's bench holds them.
#[derive(Clone, Copy, Debug, PartialEq, Eq)]
pub struct Sites {
    pub records: [SiteRecord; MAX_SITES as usize],
    /// For each site the messages since the start that name it, either way, to
    /// which the batch call alone adds.
    pub messages: [u64; MAX_SITES as usize],
}

/// Numbers of the records of all sites.
const RECORDS_NUMBERS: usize = SITE_NUMBERS * MAX_SITES as usize;

/// Numbers of all sites: their records, then their counts of messages.
pub const SITES_NUMBERS: usize = RECORDS_NUMBERS + MAX_SITES as usize;

impl Sites {
    /// All records fresh and no message counted.
    pub const FRESH: Sites = Sites {
        records: [SiteRecord::FRESH; MAX_SITES as usize],
        messages: [0; MAX_SITES as usize],
    };

    /// All records one after another, then the counts of messages.
    pub fn to_numbers(&self) -> [u64; SITES_NUMBERS] {
        let mut numbers = [0; SITES_NUMBERS];
        let (records, messages) = numbers.split_at_mut(RECORDS_NUMBERS);
        for (place, record) in records.chunks_exact_mut(SITE_NUMBERS).zip(&self.records) {
            place.copy_from_slice(&record.to_numbers());
        }
        messages.copy_from_slice(&self.messages);
        numbers
    }

    /// The records and the counts of these plain numbers.
    pub fn from_numbers(numbers: &[u64; SITES_NUMBERS]) -> Sites {
        let (records, messages) = numbers.split_at(RECORDS_NUMBERS);
        let mut sites = Sites::FRESH;
        for (record, place) in sites.records.iter_mut().zip(records.chunks_exact(SITE_NUMBERS)) {
            *record = SiteRecord::from_numbers(place.try_into().expect("a record's numbers"));
        }
        sites.messages.copy_from_slice(messages);
        sites
    }

    /// Messages of the network: request N5's bench total, the sum over the first
    /// k sites. It has no limit of its own. In a network that any call accepts it
    /// is far from the largest number.
    pub fn all_messages(&self, settings: &Settings) -> u64 {
        self.messages[..settings.sites as usize].iter().sum()
    }
}

/// An item that lost its counter, and the unreported arrivals that went with it,
/// of which there may be none: request N1's "which code left and how many unsent
/// draws went".
#[derive(Clone, Copy, Debug, PartialEq, Eq)]
pub struct Departure {
    pub item: u32,
    pub unreported: u64,
}

/// Starts all sites: their memory becomes 0 and all 32 records fresh. A refusal
/// (1 to 4) leaves the memory alone; the records answered are fresh even so.
pub fn start_sites(settings: &Settings, memory: &mut [u32]) -> (u8, Sites) {
    let refusal = memory_refusal(settings, settings.sites_memory_len(), memory);
    if refusal == refusal::ACCEPTED {
        memory[..settings.sites_memory_len()].fill(0);
    }
    (refusal, Sites::FRESH)
}

/// Takes one arrival at a site with its own record and memory. At most two
/// messages go out: an item report and then a count report; after a touch none.
pub fn observe(
    settings: &Settings,
    arrival: Arrival,
    record: &mut SiteRecord,
    memory: &mut [u32],
) -> Outgoing<2> {
    observe_with_departure(settings, arrival, record, memory, &mut None)
}

/// The same; `left` gets the item that lost its counter to the arrival, or none.
pub fn observe_with_departure(
    settings: &Settings,
    arrival: Arrival,
    record: &mut SiteRecord,
    memory: &mut [u32],
    left: &mut Option<Departure>,
) -> Outgoing<2> {
    let refusal = refusal::first_of(call_refusal(settings, record, memory), || {
        arrival_refusal(settings, &arrival, record)
    });
    if refusal == refusal::ACCEPTED && arrival.is_draw() {
        step_draw(settings, arrival, record, memory, left)
    } else {
        *left = None;
        Outgoing::none(refusal)
    }
}

/// Hands a message to the site with number `site`. At most one answer goes out.
pub fn receive(
    settings: &Settings,
    site: u32,
    message: Message,
    record: &mut SiteRecord,
    memory: &[u32],
) -> Outgoing<1> {
    let refusal = refusal::first_of(call_refusal(settings, record, memory), || {
        message_refusal(settings, site, &message, record)
    });
    if refusal == refusal::ACCEPTED {
        step_message(settings, message, record, memory).into()
    } else {
        Outgoing::none(refusal)
    }
}

/// What every call at a site tests first: refusals 1, 2, 3, 4 and 11, or 0.
pub fn call_refusal(settings: &Settings, record: &SiteRecord, memory: &[u32]) -> u8 {
    let refusal = memory_refusal(settings, settings.site_memory_len(), memory);
    if refusal == refusal::ACCEPTED && inconsistent(settings, record, memory) {
        refusal::INCONSISTENT
    } else {
        refusal
    }
}

/// Refusals 1, 2, 3 and 4, for memory that must hold `needed` numbers.
fn memory_refusal(settings: &Settings, needed: usize, memory: &[u32]) -> u8 {
    match settings_refusal(settings) {
        refusal::ACCEPTED if memory.len() < needed => refusal::SHORT_MEMORY,
        number => number,
    }
}

/// Whether a site's record and memory are inconsistent. The settings pass their
/// test and the memory is long enough. Counters not in use are not looked at.
pub(crate) fn inconsistent(settings: &Settings, record: &SiteRecord, memory: &[u32]) -> bool {
    record.used > u64::from(settings.capacity)
        || record.arrivals > MAX_ARRIVALS
        || !(1..=MAX_ARRIVALS).contains(&record.threshold)
        || record.pending >= record.threshold
        || record.dropped > record.arrivals
        || histogram_sum(settings, memory, MAX_VALUE) != record.arrivals
        || counters(memory, record)
            .any(|counter| counter_inconsistent(settings.universe, record, counter))
}

fn counter_inconsistent(universe: u32, record: &SiteRecord, counter: &[u32]) -> bool {
    let count = u64::from(counter[COUNT]);
    let accounted = u64::from(counter[OVERESTIMATE]) + u64::from(counter[REPORTED]);
    counter[ITEM] >= universe
        || accounted > count
        || count > record.arrivals
        || count - accounted >= record.threshold
}

/// The counters in use, lowest first.
fn counters<'a>(memory: &'a [u32], record: &SiteRecord) -> impl Iterator<Item = &'a [u32]> {
    memory[..COUNTER_NUMBERS * record.used as usize].chunks_exact(COUNTER_NUMBERS)
}

/// Arrivals at or below a value. The histogram: document 01's class counts.
fn histogram_sum(settings: &Settings, memory: &[u32], value: u32) -> u64 {
    let start = settings.counters_len();
    memory[start..=start + value as usize].iter().map(|&count| u64::from(count)).sum()
}

/// Refusals 5 to 8 of an arrival, or 0. A touch takes no room, so it is no 8.
pub(crate) fn arrival_refusal(settings: &Settings, arrival: &Arrival, record: &SiteRecord) -> u8 {
    if arrival.site >= settings.sites {
        refusal::UNKNOWN_SITE
    } else if arrival.item >= settings.universe {
        refusal::UNKNOWN_ITEM
    } else if arrival.value > MAX_VALUE {
        refusal::UNKNOWN_VALUE
    } else if arrival.is_draw() && record.arrivals >= MAX_ARRIVALS {
        refusal::SITE_FULL
    } else {
        refusal::ACCEPTED
    }
}

/// Takes a draw that nothing speaks against. `left` gets the item that lost
/// its counter to it, or none.
pub(crate) fn step_draw(
    settings: &Settings,
    draw: Arrival,
    record: &mut SiteRecord,
    memory: &mut [u32],
    left: &mut Option<Departure>,
) -> Outgoing<2> {
    record.arrivals += 1;
    record.pending += 1;
    memory[settings.counters_len() + draw.value as usize] += 1;
    let (place, departure) = count_item(settings, draw.item, record, memory);
    *left = departure;
    // In memory that never arose the sum may pass the arrivals here: then the
    // next call that looks at the site is refused.
    record.dropped += departure.map_or(0, |departure| departure.unreported);
    let mut outgoing = Outgoing::none(refusal::ACCEPTED);
    let start = COUNTER_NUMBERS * place;
    let counter = &mut memory[start..start + COUNTER_NUMBERS];
    let unreported = unreported(counter);
    if unreported >= record.threshold {
        // It was below the threshold before, so it is the threshold now.
        counter[REPORTED] += unreported as u32;
        let item = u64::from(draw.item);
        outgoing.push(Message::new(message::ITEM_REPORT, draw.site, item, unreported));
    }
    if record.pending >= record.threshold {
        let value = if record.threshold == 1 { u64::from(draw.value) } else { 0 };
        outgoing.push(Message::new(message::COUNT_REPORT, draw.site, record.pending, value));
        record.pending = 0;
    }
    outgoing
}

/// Unreported: document 01's unsent. The overestimate is other items' arrivals,
/// so it is never reported, and is nothing that this item could lose.
fn unreported(counter: &[u32]) -> u64 {
    u64::from(counter[COUNT] - counter[OVERESTIMATE] - counter[REPORTED])
}

/// The slot step: counts an item. Answers the place of its counter, and what
/// left that counter if the item replaced another.
fn count_item(
    settings: &Settings,
    item: u32,
    record: &mut SiteRecord,
    memory: &mut [u32],
) -> (usize, Option<Departure>) {
    let found = counters(memory, record).position(|counter| counter[ITEM] == item);
    if let Some(place) = found {
        memory[COUNTER_NUMBERS * place + COUNT] += 1;
        return (place, None);
    }
    if record.used < u64::from(settings.capacity) {
        let place = record.used as usize;
        record.used += 1;
        let start = COUNTER_NUMBERS * place;
        memory[start..start + COUNTER_NUMBERS].copy_from_slice(&[item, 1, 0, 0]);
        return (place, None);
    }
    let place = least_counter(memory, record);
    let start = COUNTER_NUMBERS * place;
    let counter = &mut memory[start..start + COUNTER_NUMBERS];
    let departure = Departure { item: counter[ITEM], unreported: unreported(counter) };
    let count = counter[COUNT];
    counter.copy_from_slice(&[item, count + 1, count, 0]);
    (place, Some(departure))
}

/// The place of the counter to replace: the least count, of equals the least
/// item, of equals the lowest place. There is at least one.
fn least_counter(memory: &[u32], record: &SiteRecord) -> usize {
    let mut least = (memory[COUNT], memory[ITEM]);
    let mut least_place = 0;
    for (place, counter) in counters(memory, record).enumerate() {
        let candidate = (counter[COUNT], counter[ITEM]);
        if candidate < least {
            least = candidate;
            least_place = place;
        }
    }
    least_place
}

/// Refusals 5, 9, 7 and 10 of a message for the site with number `site`, or 0.
pub(crate) fn message_refusal(
    settings: &Settings,
    site: u32,
    message: &Message,
    record: &SiteRecord,
) -> u8 {
    if site >= settings.sites || message.site >= settings.sites {
        return refusal::UNKNOWN_SITE;
    }
    if message.site != site {
        return refusal::MESSAGE_NOT_DUE;
    }
    let amount_due = match message.kind {
        message::POLL => message.a == 0 && message.b == 0,
        message::PROBE if message.a > u64::from(MAX_VALUE) => return refusal::UNKNOWN_VALUE,
        message::PROBE => message.b == 0,
        message::ANNOUNCEMENT => (record.threshold..=MAX_ARRIVALS).contains(&message.a),
        _ => return refusal::MESSAGE_NOT_DUE,
    };
    if amount_due {
        refusal::ACCEPTED
    } else {
        refusal::AMOUNT_NOT_DUE
    }
}

/// Takes a message that is due, and answers it if it asks for something.
pub(crate) fn step_message(
    settings: &Settings,
    message: Message,
    record: &mut SiteRecord,
    memory: &[u32],
) -> Option<Message> {
    match message.kind {
        message::POLL => {
            let pending = std::mem::take(&mut record.pending);
            Some(Message::new(message::POLL_ANSWER, message.site, pending, 0))
        }
        message::PROBE => {
            let below = histogram_sum(settings, memory, message.a as u32);
            Some(Message::new(message::PROBE_ANSWER, message.site, message.a, below))
        }
        _ => {
            // An announcement. What is unreported survives the close.
            record.threshold = message.a;
            None
        }
    }
}

/// A counter: document 01's slot, for whoever looks into a site's memory.
#[derive(Clone, Copy, Debug, PartialEq, Eq)]
pub struct Counter {
    pub item: u32,
    pub count: u32,
    pub overestimate: u32,
    pub reported: u32,
}

impl Counter {
    /// Document 01's unsent; 0 where overcount and sent are above the count.
    pub fn unreported(&self) -> u64 {
        let accounted = u64::from(self.overestimate) + u64::from(self.reported);
        u64::from(self.count).saturating_sub(accounted)
    }
}

/// The counter at a place of a site's memory, if the memory reaches that far.
pub fn counter_at(memory: &[u32], place: usize) -> Option<Counter> {
    let counter = memory.chunks_exact(COUNTER_NUMBERS).nth(place)?;
    Some(Counter {
        item: counter[ITEM],
        count: counter[COUNT],
        overestimate: counter[OVERESTIMATE],
        reported: counter[REPORTED],
    })
}

// A site's memory ends in one number for each value.
const _: () = assert!(VALUES == MAX_VALUE as usize + 1);
