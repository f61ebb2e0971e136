//! The coordinator: it adds up the reports, closes a round after k count
//! reports, and answers which items are heavy and which value is the quantile.

use crate::message::{self, Message, Outgoing};
use crate::refusal;
use crate::settings::{settings_refusal, threshold_of, Settings, MAX_VALUE, VALUES};
use crate::site::MAX_ARRIVALS;

/// Largest number of the coordinator's record and memory.
pub const MAX_NUMBER: u64 = 100_000_000_000;

/// Numbers of the coordinator's record, its phase being five of them.
pub const COORDINATOR_NUMBERS: usize = 10;

/// What the coordinator is waiting for: document 01's phase.
#[derive(Clone, Copy, Debug, PartialEq, Eq)]
pub enum Phase {
    /// Reports of the sites are due.
    Idle,
    /// The poll's answer of this site is due.
    Collecting { site: u64 },
    /// This site's arrivals at or below the middle of low to high are due; the
    /// sites before it have `sum` of them.
    Probing { site: u64, low: u64, high: u64, sum: u64 },
    /// The announcement to this site is the next to be handed out.
    Announcing { site: u64 },
}

/// The coordinator: document 01's desk. This is its record.
#[derive(Clone, Copy, Debug, PartialEq, Eq)]
pub struct CoordinatorRecord {
    pub total: u64,
    pub base: u64,
    pub threshold: u64,
    pub signals: u64,
    /// Document 01's class in the desk's record.
    pub quantile: u64,
    pub phase: Phase,
}

impl CoordinatorRecord {
    /// The record of a coordinator started fresh.
    pub const FRESH: CoordinatorRecord = CoordinatorRecord {
        total: 0,
        base: 0,
        threshold: 1,
        signals: 0,
        quantile: 0,
        phase: Phase::Idle,
    };

    /// Total, base, threshold, signals, class, then the phase as five numbers.
    pub fn to_numbers(self) -> [u64; COORDINATOR_NUMBERS] {
        let [phase, site, low, high, sum] = self.phase.to_numbers();
        let quantile = self.quantile;
        [self.total, self.base, self.threshold, self.signals, quantile, phase, site, low, high, sum]
    }

    /// The record of these plain numbers, or `None` where the phase is no phase.
    pub fn from_numbers(numbers: [u64; COORDINATOR_NUMBERS]) -> Option<CoordinatorRecord> {
        let [total, base, threshold, signals, quantile, phase, site, low, high, sum] = numbers;
        let phase = Phase::from_numbers([phase, site, low, high, sum])?;
        Some(CoordinatorRecord { total, base, threshold, signals, quantile, phase })
    }
}

impl Phase {
    /// The phase's number (0 idle, 1 collecting, 2 probing, 3 announcing), then
    /// deck, low, high and sum, of which those the phase has not are 0.
    pub fn to_numbers(self) -> [u64; 5] {
        match self {
            Phase::Idle => [0; 5],
            Phase::Collecting { site } => [1, site, 0, 0, 0],
            Phase::Probing { site, low, high, sum } => [2, site, low, high, sum],
            Phase::Announcing { site } => [3, site, 0, 0, 0],
        }
    }

    /// The phase of these plain numbers; those it has not are not looked at.
    pub fn from_numbers(numbers: [u64; 5]) -> Option<Phase> {
        let [phase, site, low, high, sum] = numbers;
        match phase {
            0 => Some(Phase::Idle),
            1 => Some(Phase::Collecting { site }),
            2 => Some(Phase::Probing { site, low, high, sum }),
            3 => Some(Phase::Announcing { site }),
            _ => None,
        }
    }
}

/// Starts the coordinator: its memory becomes 0. A refusal (1 to 4) leaves the
/// memory alone; the record answered is fresh even so.
pub fn start_coordinator(settings: &Settings, memory: &mut [u64]) -> (u8, CoordinatorRecord) {
    let refusal = memory_refusal(settings, memory);
    if refusal == refusal::ACCEPTED {
        memory[..settings.coordinator_memory_len()].fill(0);
    }
    (refusal, CoordinatorRecord::FRESH)
}

/// Hands a message to the coordinator. At most one message goes out.
pub fn receive(
    settings: &Settings,
    message: Message,
    record: &mut CoordinatorRecord,
    memory: &mut [u64],
) -> Outgoing<1> {
    let refusal = refusal::first_of(call_refusal(settings, record, memory), || {
        message_refusal(settings, &message, record)
    });
    if refusal == refusal::ACCEPTED {
        step_message(settings, message, record, memory).into()
    } else {
        Outgoing::none(refusal)
    }
}

/// Hands out the next announcement; refusal 9 where the coordinator isn't
/// announcing.
pub fn next_announcement(
    settings: &Settings,
    record: &mut CoordinatorRecord,
    memory: &[u64],
) -> Outgoing<1> {
    let refusal = call_refusal(settings, record, memory);
    if refusal != refusal::ACCEPTED {
        return Outgoing::none(refusal);
    }
    match step_announcement(settings, record) {
        Some(announcement) => Some(announcement).into(),
        None => Outgoing::none(refusal::MESSAGE_NOT_DUE),
    }
}

/// What every call at the coordinator tests first: 1, 2, 3, 4 and 11, or 0.
pub fn call_refusal(settings: &Settings, record: &CoordinatorRecord, memory: &[u64]) -> u8 {
    let refusal = memory_refusal(settings, memory);
    if refusal == refusal::ACCEPTED && inconsistent(settings, record, memory) {
        refusal::INCONSISTENT
    } else {
        refusal
    }
}

/// Refusals 1, 2, 3 and 4.
fn memory_refusal(settings: &Settings, memory: &[u64]) -> u8 {
    match settings_refusal(settings) {
        refusal::ACCEPTED if memory.len() < settings.coordinator_memory_len() => {
            refusal::SHORT_MEMORY
        }
        number => number,
    }
}

/// Whether the record and memory are inconsistent. The settings pass their test
/// and the memory is long enough.
pub(crate) fn inconsistent(
    settings: &Settings,
    record: &CoordinatorRecord,
    memory: &[u64],
) -> bool {
    let numbers = [record.total, record.base, record.threshold, record.signals, record.quantile];
    let tested = &memory[..settings.coordinator_memory_len()];
    numbers.iter().chain(tested).any(|&number| number > MAX_NUMBER)
        || record.threshold != threshold_of(settings, record.base)
        || record.base > record.total
        || record.quantile > u64::from(MAX_VALUE)
        || phase_inconsistent(settings, record)
        || (record.threshold == 1 && histogram_sum(settings, memory) != u128::from(record.total))
}

fn phase_inconsistent(settings: &Settings, record: &CoordinatorRecord) -> bool {
    let sites = u64::from(settings.sites);
    let outside = match record.phase {
        Phase::Idle => return record.signals >= sites,
        Phase::Collecting { site } | Phase::Announcing { site } => site >= sites,
        Phase::Probing { site, low, high, sum } => {
            site >= sites || low >= high || high > u64::from(MAX_VALUE) || sum > MAX_NUMBER
        }
    };
    outside || record.signals != sites
}

/// The coordinator's histogram: document 01's class counts at the desk.
fn histogram<'a>(settings: &Settings, memory: &'a [u64]) -> &'a [u64] {
    let start = settings.universe as usize;
    &memory[start..start + VALUES]
}

fn histogram_sum(settings: &Settings, memory: &[u64]) -> u128 {
    histogram(settings, memory).iter().map(|&count| u128::from(count)).sum()
}

/// Refusals 5, 9, 6, 7 and 10 of a message, or 0.
pub(crate) fn message_refusal(
    settings: &Settings,
    message: &Message,
    record: &CoordinatorRecord,
) -> u8 {
    if message.site >= settings.sites {
        return refusal::UNKNOWN_SITE;
    }
    let (a, b, threshold) = (message.a, message.b, record.threshold);
    let from = u64::from(message.site);
    let amount_due = match (message.kind, record.phase) {
        (message::ITEM_REPORT, Phase::Idle) => {
            if a >= u64::from(settings.universe) {
                return refusal::UNKNOWN_ITEM;
            }
            b == threshold
        }
        (message::COUNT_REPORT, Phase::Idle) => {
            // Only while the threshold is 1 does this message carry a value.
            if threshold == 1 && b > u64::from(MAX_VALUE) {
                return refusal::UNKNOWN_VALUE;
            }
            a == threshold && (threshold == 1 || b == 0)
        }
        (message::POLL_ANSWER, Phase::Collecting { site }) if site == from => {
            a < threshold && b == 0
        }
        (message::PROBE_ANSWER, Phase::Probing { site, low, high, .. }) if site == from => {
            if a > u64::from(MAX_VALUE) {
                return refusal::UNKNOWN_VALUE;
            }
            a == middle(low, high) && b <= MAX_ARRIVALS
        }
        _ => return refusal::MESSAGE_NOT_DUE,
    };
    if amount_due {
        refusal::ACCEPTED
    } else {
        refusal::AMOUNT_NOT_DUE
    }
}

fn middle(low: u64, high: u64) -> u64 {
    (low + high) / 2
}

/// Takes a message that is due, and answers the message that goes out.
pub(crate) fn step_message(
    settings: &Settings,
    message: Message,
    record: &mut CoordinatorRecord,
    memory: &mut [u64],
) -> Option<Message> {
    match (message.kind, record.phase) {
        (message::ITEM_REPORT, _) => {
            // Estimates: document 01's number for each code.
            memory[message.a as usize] += message.b;
            None
        }
        (message::COUNT_REPORT, _) => {
            if record.threshold == 1 {
                memory[settings.universe as usize + message.b as usize] += 1;
            }
            take_count_report(settings, message.a, record)
        }
        (message::POLL_ANSWER, Phase::Collecting { site }) => {
            record.total += message.a;
            poll_from(settings, site + 1, record)
        }
        (message::PROBE_ANSWER, Phase::Probing { site, low, high, sum }) => {
            let asked = Phase::Probing { site: site + 1, low, high, sum: sum + message.b };
            probe_from(settings, asked, record)
        }
        _ => None,
    }
}

fn take_count_report(
    settings: &Settings,
    amount: u64,
    record: &mut CoordinatorRecord,
) -> Option<Message> {
    record.total += amount;
    record.signals += 1;
    if record.signals == u64::from(settings.sites) {
        poll_from(settings, 0, record)
    } else {
        None
    }
}

/// Polls the given site, or, after the last one, sets the base and threshold.
fn poll_from(settings: &Settings, site: u64, record: &mut CoordinatorRecord) -> Option<Message> {
    if site < u64::from(settings.sites) {
        record.phase = Phase::Collecting { site };
        return Some(Message::new(message::POLL, site as u32, 0, 0));
    }
    record.base = record.total;
    record.threshold = threshold_of(settings, record.base);
    if record.threshold >= 2 {
        probe_interval(0, u64::from(MAX_VALUE), record)
    } else {
        // The quantile is still read from the coordinator's own histogram.
        record.phase = Phase::Announcing { site: 0 };
        None
    }
}

/// Asks the first site about an interval, or, at its end, sets the quantile.
fn probe_interval(low: u64, high: u64, record: &mut CoordinatorRecord) -> Option<Message> {
    if low < high {
        record.phase = Phase::Probing { site: 0, low, high, sum: 0 };
        return Some(Message::new(message::PROBE, 0, middle(low, high), 0));
    }
    record.quantile = low;
    record.phase = Phase::Announcing { site: 0 };
    None
}

/// Goes on in a probing phase: asks its site, or halves after the last one.
fn probe_from(
    settings: &Settings,
    phase: Phase,
    record: &mut CoordinatorRecord,
) -> Option<Message> {
    let Phase::Probing { site, low, high, sum } = phase else {
        return None;
    };
    let middle = middle(low, high);
    if site < u64::from(settings.sites) {
        record.phase = phase;
        Some(Message::new(message::PROBE, site as u32, middle, 0))
    } else if 1000 * sum >= u64::from(settings.rank) * record.base {
        probe_interval(low, middle, record)
    } else {
        probe_interval(middle + 1, high, record)
    }
}

/// Hands out the next announcement of a coordinator that is announcing.
pub(crate) fn step_announcement(
    settings: &Settings,
    record: &mut CoordinatorRecord,
) -> Option<Message> {
    let Phase::Announcing { site } = record.phase else {
        return None;
    };
    if site + 1 < u64::from(settings.sites) {
        record.phase = Phase::Announcing { site: site + 1 };
    } else {
        record.phase = Phase::Idle;
        record.signals = 0;
    }
    Some(Message::new(message::ANNOUNCEMENT, site as u32, record.threshold, record.base))
}

/// Writes the heavy hitters (document 01's listed codes) in rising order and
/// answers how many; refusal 12 where `out` has too few places.
pub fn list_heavy_hitters(
    settings: &Settings,
    record: &CoordinatorRecord,
    memory: &[u64],
    out: &mut [u32],
) -> Result<usize, u8> {
    refusal::check(call_refusal(settings, record, memory))?;
    let heavy = |item: &u32| record.total >= 1 && margin(settings, record, memory, *item) >= 0;
    let count = (0..settings.universe).filter(heavy).count();
    if count > out.len() {
        return Err(refusal::SHORT_LIST);
    }
    for (place, item) in out.iter_mut().zip((0..settings.universe).filter(heavy)) {
        *place = item;
    }
    Ok(count)
}

/// The margin of an item: 2000 × its estimate - (2 × phi - epsilon) × total.
pub fn read_margin(
    settings: &Settings,
    record: &CoordinatorRecord,
    memory: &[u64],
    item: u32,
) -> Result<i64, u8> {
    refusal::check(call_refusal(settings, record, memory))?;
    if item >= settings.universe {
        return Err(refusal::UNKNOWN_ITEM);
    }
    Ok(margin(settings, record, memory, item))
}

/// Both products are at most 2 × 10^14, since a consistent coordinator has no
/// number above 10^11 and phi is not below epsilon.
fn margin(settings: &Settings, record: &CoordinatorRecord, memory: &[u64], item: u32) -> i64 {
    let share = 2 * u64::from(settings.phi) - u64::from(settings.epsilon);
    (2000 * memory[item as usize]) as i64 - (share * record.total) as i64
}

/// The quantile (document 01's class as an answer), `None` before any draw.
pub fn read_quantile(
    settings: &Settings,
    record: &CoordinatorRecord,
    memory: &[u64],
) -> Result<Option<u32>, u8> {
    refusal::check(call_refusal(settings, record, memory))?;
    if record.threshold > 1 {
        return Ok(Some(record.quantile as u32));
    }
    if record.total == 0 {
        return Ok(None);
    }
    let mut below = 0;
    let wanted = u64::from(settings.rank) * record.total;
    let place = histogram(settings, memory).iter().position(|&count| {
        below += count;
        1000 * below >= wanted
    });
    Ok(place.map(|value| value as u32))
}
