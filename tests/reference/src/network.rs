//! The network: the sites and the coordinator together, and the batch call
//! that takes many arrivals and delivers all messages between them.

use crate::coordinator::{self, CoordinatorRecord, Phase};
use crate::message::{Arrival, Message};
use crate::refusal;
use crate::settings::{settings_refusal, Settings};
use crate::site;

pub use crate::site::Sites;

/// Largest message count of a site in a consistent network.
pub const MAX_MESSAGES: u64 = 100_000_000_000_000;

/// What the batch call answers: document 01's draws accepted, messages written
/// and the refusal that stopped it, 0 if none did. `accepted` counts touches too.
#[derive(Clone, Copy, Debug, PartialEq, Eq)]
pub struct BatchAnswer {
    pub accepted: usize,
    pub written: usize,
    pub refusal: u8,
}

/// The network: document 01's bench, with what it was lent for one call.
struct Network<'a> {
    settings: &'a Settings,
    sites: &'a mut Sites,
    site_memory: &'a mut [u32],
    coordinator: &'a mut CoordinatorRecord,
    coordinator_memory: &'a mut [u64],
    log: &'a mut [Message],
    written: usize,
}

/// Takes the arrivals in order until one is refused, and delivers everything
/// between them. Each message is written to the log and counted in `sites`, at
/// the site that it names.
pub fn run_batch(
    settings: &Settings,
    sites: &mut Sites,
    site_memory: &mut [u32],
    coordinator: &mut CoordinatorRecord,
    coordinator_memory: &mut [u64],
    arrivals: &[Arrival],
    log: &mut [Message],
) -> BatchAnswer {
    let refusal = call_refusal(settings, sites, site_memory, coordinator, coordinator_memory);
    if refusal != refusal::ACCEPTED {
        return BatchAnswer { accepted: 0, written: 0, refusal };
    }
    let mut network =
        Network { settings, sites, site_memory, coordinator, coordinator_memory, log, written: 0 };
    let (accepted, refusal) = network.run(arrivals);
    BatchAnswer { accepted, written: network.written, refusal }
}

/// What the batch call tests first: refusals 1, 2, 3, 4 and 11, or 0.
pub fn call_refusal(
    settings: &Settings,
    sites: &Sites,
    site_memory: &[u32],
    coordinator: &CoordinatorRecord,
    coordinator_memory: &[u64],
) -> u8 {
    let refusal = settings_refusal(settings);
    if refusal != refusal::ACCEPTED {
        return refusal;
    }
    if memory_short(settings, site_memory.len(), coordinator_memory.len()) {
        return refusal::SHORT_MEMORY;
    }
    if inconsistent(settings, sites, site_memory, coordinator, coordinator_memory)
        || not_at_rest(settings, sites, coordinator)
    {
        refusal::INCONSISTENT
    } else {
        refusal::ACCEPTED
    }
}

/// Whether memory of so many numbers, the sites' and the coordinator's, is too
/// short for a network with these settings.
pub(crate) fn memory_short(settings: &Settings, of_sites: usize, of_coordinator: usize) -> bool {
    of_sites < settings.sites_memory_len() || of_coordinator < settings.coordinator_memory_len()
}

/// Whether a network is inconsistent wherever its messages stand: each part by
/// itself, and the counts. The settings pass and the memory is long enough.
pub(crate) fn inconsistent(
    settings: &Settings,
    sites: &Sites,
    site_memory: &[u32],
    coordinator: &CoordinatorRecord,
    coordinator_memory: &[u64],
) -> bool {
    counts_inconsistent(settings, sites)
        || coordinator::inconsistent(settings, coordinator, coordinator_memory)
        || sites_inconsistent(settings, sites, site_memory)
}

/// Whether one of the first k sites cannot have counted so many messages. Their
/// sum has no limit.
pub(crate) fn counts_inconsistent(settings: &Settings, sites: &Sites) -> bool {
    sites.messages[..settings.sites as usize].iter().any(|&count| count > MAX_MESSAGES)
}

/// Whether one of the first k sites is inconsistent by itself.
fn sites_inconsistent(settings: &Settings, sites: &Sites, site_memory: &[u32]) -> bool {
    let memories = site_memory.chunks_exact(settings.site_memory_len());
    sites.records[..settings.sites as usize]
        .iter()
        .zip(memories)
        .any(|(record, memory)| site::inconsistent(settings, record, memory))
}

/// Whether the parts, each consistent, do not fit together: coordinator not
/// idle, thresholds unequal, total plus all pendings other than all arrivals.
fn not_at_rest(settings: &Settings, sites: &Sites, coordinator: &CoordinatorRecord) -> bool {
    let records = &sites.records[..settings.sites as usize];
    let pending: u64 = records.iter().map(|record| record.pending).sum();
    let arrivals: u64 = records.iter().map(|record| record.arrivals).sum();
    coordinator.phase != Phase::Idle
        || records.iter().any(|record| record.threshold != coordinator.threshold)
        || coordinator.total + pending != arrivals
}

impl Network<'_> {
    /// Answers how many arrivals were accepted, and what refused the next one.
    fn run(&mut self, arrivals: &[Arrival]) -> (usize, u8) {
        for (accepted, arrival) in arrivals.iter().enumerate() {
            let refusal = self.arrival_refusal(arrival);
            if refusal != refusal::ACCEPTED {
                return (accepted, refusal);
            }
            if arrival.is_draw() {
                self.take_draw(*arrival);
            }
        }
        (arrivals.len(), refusal::ACCEPTED)
    }

    /// Refusals 5 to 8 and 14, or 0. A touch writes nothing, so it is no 14.
    fn arrival_refusal(&self, arrival: &Arrival) -> u8 {
        let Some(record) = self.sites.records.get(arrival.site as usize) else {
            return refusal::UNKNOWN_SITE;
        };
        match site::arrival_refusal(self.settings, arrival, record) {
            refusal::ACCEPTED if arrival.is_draw() && self.log_is_short() => refusal::SHORT_LOG,
            number => number,
        }
    }

    fn log_is_short(&self) -> bool {
        self.log.len() - self.written < self.settings.messages_per_arrival()
    }

    /// Takes a draw and delivers all that it sets off, in the order of going
    /// out. An item report sets off nothing, so the count report that went out
    /// behind it is always next, and from there on one message at a time is on
    /// its way.
    fn take_draw(&mut self, draw: Arrival) {
        let settings = self.settings;
        let (record, memory) = self.site(draw.site);
        let outgoing = site::step_draw(settings, draw, record, memory, &mut None);
        for &report in outgoing.sent() {
            self.deliver(report);
        }
        while let Some(announcement) =
            coordinator::step_announcement(self.settings, self.coordinator)
        {
            self.hand_to_site(announcement);
        }
        debug_assert!(self.coordinator.phase == Phase::Idle);
    }

    /// Hands a site's message to the coordinator, what goes out to its site,
    /// the answer to the coordinator, and so on until nothing goes out.
    fn deliver(&mut self, report: Message) {
        let mut waiting = Some(report);
        while let Some(message) = waiting {
            let request = self.hand_to_coordinator(message);
            waiting = request.and_then(|request| self.hand_to_site(request));
        }
    }

    fn hand_to_coordinator(&mut self, message: Message) -> Option<Message> {
        self.write(message);
        debug_assert_eq!(
            coordinator::message_refusal(self.settings, &message, self.coordinator),
            refusal::ACCEPTED
        );
        let memory = &mut *self.coordinator_memory;
        coordinator::step_message(self.settings, message, self.coordinator, memory)
    }

    fn hand_to_site(&mut self, message: Message) -> Option<Message> {
        self.write(message);
        let settings = self.settings;
        let (record, memory) = self.site(message.site);
        debug_assert_eq!(
            site::message_refusal(settings, message.site, &message, record),
            refusal::ACCEPTED
        );
        site::step_message(settings, message, record, memory)
    }

    /// The record and memory of a site below k.
    fn site(&mut self, site: u32) -> (&mut site::SiteRecord, &mut [u32]) {
        let length = self.settings.site_memory_len();
        let start = length * site as usize;
        let memory = &mut self.site_memory[start..start + length];
        (&mut self.sites.records[site as usize], memory)
    }

    /// Writes a message to the log, which had places enough before the arrival,
    /// and counts it at the site that it comes from or goes to. A count may pass
    /// its limit here: then the next call that looks at it is refused.
    fn write(&mut self, message: Message) {
        self.log[self.written] = message;
        self.written += 1;
        self.sites.messages[message.site as usize] += 1;
    }
}
