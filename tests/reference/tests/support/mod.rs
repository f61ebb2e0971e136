//! What the tests share: random numbers, a network with its memory, and the
//! true counts that its answers are held against.

// Each test file uses a part of this module only.
#![allow(dead_code)]

pub mod account;
pub mod causes;
pub mod counts;
pub mod defects;
pub mod files;
pub mod firm;
pub mod full;
pub mod never_arose;
pub mod plain;
pub mod saved;
pub mod sha256;
pub mod streams;
pub mod touches;
pub mod truth;

use std::collections::VecDeque;

use reference::coordinator::{self, CoordinatorRecord, Phase};
use reference::message::{Arrival, Message, COUNT_REPORT, ITEM_REPORT, POLL_ANSWER, PROBE_ANSWER};
use reference::network::{self, BatchAnswer, Sites};
use reference::refusal;
use reference::settings::Settings;
use reference::site;

/// Document 01's settings A.
pub const A: [u32; 6] = [1, 1000, 1000, 500, 6, 10];

/// The generator splitmix64.
pub struct Random(u64);

impl Random {
    /// A generator with this seed, which a failing test shows.
    pub fn new(seed: u64) -> Random {
        println!("seed {seed}");
        Random(seed)
    }

    pub fn next(&mut self) -> u64 {
        self.0 = self.0.wrapping_add(0x9e37_79b9_7f4a_7c15);
        let mut mixed = self.0;
        mixed = (mixed ^ (mixed >> 30)).wrapping_mul(0xbf58_476d_1ce4_e5b9);
        mixed = (mixed ^ (mixed >> 27)).wrapping_mul(0x94d0_49bb_1331_11eb);
        mixed ^ (mixed >> 31)
    }

    /// A number below `bound`, which is at least 1.
    pub fn below(&mut self, bound: u64) -> u64 {
        self.next() % bound
    }

    pub fn below32(&mut self, bound: u32) -> u32 {
        self.below(u64::from(bound)) as u32
    }

    /// A number from `low` to `high`, both included.
    pub fn between(&mut self, low: u32, high: u32) -> u32 {
        low + self.below32(high - low + 1)
    }

    /// True once in `times`.
    pub fn one_in(&mut self, times: u64) -> bool {
        self.below(times) == 0
    }

    /// One of a few numbers, so that bounds are met often.
    pub fn pick<T: Copy>(&mut self, choices: &[T]) -> T {
        choices[self.below(choices.len() as u64) as usize]
    }

    /// This value of a draw, or that of a touch: one arrival in ten is one.
    pub fn value_or_touch(&mut self, value: u32) -> u32 {
        touches::value_or_touch(self.next(), value)
    }
}

pub fn arrival(site: u32, item: u32, value: u32) -> Arrival {
    Arrival { site, item, value }
}

pub fn message(kind: u32, site: u32, a: u64, b: u64) -> Message {
    Message { kind, site, a, b }
}

/// A network with the memory it is lent. Comparing two of them compares every
/// record and every place of memory.
#[derive(Clone, Debug, PartialEq)]
pub struct TestNetwork {
    pub settings: Settings,
    pub sites: Sites,
    pub site_memory: Vec<u32>,
    pub coordinator: CoordinatorRecord,
    pub coordinator_memory: Vec<u64>,
}

impl TestNetwork {
    /// A network started fresh over memory that held something else.
    pub fn start(numbers: [u32; 6]) -> TestNetwork {
        let settings = Settings::from_numbers(numbers);
        let mut site_memory = vec![77; settings.sites_memory_len()];
        let mut coordinator_memory = vec![77; settings.coordinator_memory_len()];
        let (refusal, sites) = site::start_sites(&settings, &mut site_memory);
        assert_eq!(refusal, refusal::ACCEPTED);
        let (refusal, coordinator) =
            coordinator::start_coordinator(&settings, &mut coordinator_memory);
        assert_eq!(refusal, refusal::ACCEPTED);
        TestNetwork { settings, sites, site_memory, coordinator, coordinator_memory }
    }

    /// The batch call with a log of the caller's. Each site's count grows by the
    /// messages in the log that name it, and by nothing else.
    pub fn run_batch(&mut self, arrivals: &[Arrival], log: &mut [Message]) -> BatchAnswer {
        let counts = self.sites.messages;
        let answer = network::run_batch(
            &self.settings,
            &mut self.sites,
            &mut self.site_memory,
            &mut self.coordinator,
            &mut self.coordinator_memory,
            arrivals,
            log,
        );
        assert_eq!(self.sites.messages, counts::counted_up(counts, &log[..answer.written]));
        answer
    }

    /// The messages of a batch that must be accepted whole.
    pub fn take(&mut self, arrivals: &[Arrival]) -> Vec<Message> {
        let places = self.settings.messages_per_arrival() * arrivals.len();
        let mut log = vec![Message::default(); places];
        let answer = self.run_batch(arrivals, &mut log);
        assert_eq!((answer.accepted, answer.refusal), (arrivals.len(), refusal::ACCEPTED));
        log.truncate(answer.written);
        log
    }

    /// What the batch call would say of this network before any arrival.
    pub fn refusal(&self) -> u8 {
        network::call_refusal(
            &self.settings,
            &self.sites,
            &self.site_memory,
            &self.coordinator,
            &self.coordinator_memory,
        )
    }

    pub fn heavy_hitters(&self) -> Vec<u32> {
        let mut items = vec![0; self.settings.universe as usize];
        let count = coordinator::list_heavy_hitters(
            &self.settings,
            &self.coordinator,
            &self.coordinator_memory,
            &mut items,
        )
        .expect("the list is as long as the universe");
        items.truncate(count);
        items
    }

    pub fn quantile(&self) -> Option<u32> {
        coordinator::read_quantile(&self.settings, &self.coordinator, &self.coordinator_memory)
            .expect("the coordinator is consistent")
    }

    pub fn margin(&self, item: u32) -> Result<i64, u8> {
        coordinator::read_margin(&self.settings, &self.coordinator, &self.coordinator_memory, item)
    }

    /// The memory of one site.
    pub fn memory_of(&self, site: u32) -> &[u32] {
        let length = self.settings.site_memory_len();
        &self.site_memory[length * site as usize..][..length]
    }

    /// The single-arrival call: its refusal and the messages that go out.
    pub fn observe(&mut self, arrival: Arrival) -> (u8, Vec<Message>) {
        let length = self.settings.site_memory_len();
        let site = (arrival.site as usize).min(self.settings.sites as usize - 1);
        let memory = &mut self.site_memory[length * site..][..length];
        let record = &mut self.sites.records[site];
        let outgoing = site::observe(&self.settings, arrival, record, memory);
        (outgoing.refusal, outgoing.sent().to_vec())
    }

    /// Hands a message to the coordinator.
    pub fn tell_coordinator(&mut self, message: Message) -> (u8, Vec<Message>) {
        let memory = &mut self.coordinator_memory;
        let outgoing = coordinator::receive(&self.settings, message, &mut self.coordinator, memory);
        (outgoing.refusal, outgoing.sent().to_vec())
    }

    /// Hands a message to the site that it names, or to the last one.
    pub fn tell_site(&mut self, message: Message) -> (u8, Vec<Message>) {
        let site = message.site.min(self.settings.sites - 1);
        let length = self.settings.site_memory_len();
        let memory = &self.site_memory[length * site as usize..][..length];
        let record = &mut self.sites.records[site as usize];
        let outgoing = site::receive(&self.settings, site, message, record, memory);
        (outgoing.refusal, outgoing.sent().to_vec())
    }

    pub fn next_announcement(&mut self) -> (u8, Vec<Message>) {
        let outgoing = coordinator::next_announcement(
            &self.settings,
            &mut self.coordinator,
            &self.coordinator_memory,
        );
        (outgoing.refusal, outgoing.sent().to_vec())
    }

    /// Hands a message to whom it is for.
    pub fn hand_over(&mut self, message: Message) -> (u8, Vec<Message>) {
        match message.kind {
            ITEM_REPORT | COUNT_REPORT | POLL_ANSWER | PROBE_ANSWER => {
                self.tell_coordinator(message)
            }
            _ => self.tell_site(message),
        }
    }

    /// A single arrival with full delivery by a queue, as document 01 words it.
    /// Announcements are asked for at once or after others were handed over, as
    /// chance has it. After each call `between` may look at the network, and at
    /// the messages that have gone out.
    pub fn observe_and_deliver(
        &mut self,
        arrival: Arrival,
        random: &mut Random,
        mut between: impl FnMut(&mut TestNetwork, &[Message]),
    ) -> Vec<Message> {
        let (refusal, mut all) = self.observe(arrival);
        assert_eq!(refusal, refusal::ACCEPTED);
        let mut waiting = VecDeque::from(all.clone());
        loop {
            between(self, &all);
            let announcing = matches!(self.coordinator.phase, Phase::Announcing { .. });
            let (refusal, sent) = if announcing && (waiting.is_empty() || random.one_in(2)) {
                self.next_announcement()
            } else if let Some(message) = waiting.pop_front() {
                self.hand_over(message)
            } else {
                return all;
            };
            assert_eq!(refusal, refusal::ACCEPTED, "after {all:?}");
            all.extend(&sent);
            waiting.extend(sent);
        }
    }
}
