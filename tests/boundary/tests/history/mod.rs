//! A history of calls from a fresh start: batches and single arrivals with full delivery, touches
//! and junk calls anywhere, every call made on the proved code and on the separate implementation.
//! Beside it stand the same rules written as plain loops, which name the messages and what lost its
//! counter, and the true counts. Request N1 is checked after every call.

// Each test file uses a part of this module only.
#![allow(dead_code)]

pub mod junk;

use std::collections::VecDeque;

use reference::coordinator::Phase;
use reference::message::{Arrival, Message, COUNT_REPORT, TOUCH};
use reference::refusal::*;
use reference::settings::Settings;

use crate::both::batch::numbers_of;
use crate::both::Both;
use crate::support::account::Account;
use crate::support::counts::{counted_up, Counts};
use crate::support::plain::PlainNetwork;
use crate::support::truth::Truth;
use crate::support::{arrival, Random, TestNetwork};

/// When a coordinator that announces is asked for its next kind 7.
#[derive(Clone, Copy, PartialEq)]
enum Asked {
    /// After the one before has been handed over.
    InTurn,
    /// All at once, before the first is handed over.
    AllAtOnce,
    /// Now and then.
    Anyhow,
}

pub struct History {
    pub network: TestNetwork,
    pub truth: Truth,
    pub plain: PlainNetwork,
    account: Account,
    random: Random,
    /// Messages that batches wrote, by the site that they name: the network's own counts.
    written: Counts,
}

impl History {
    /// A network started fresh over memory that held something else. The counts of sites from k on
    /// are filled with anything.
    pub fn start(both: &mut Both, numbers: [u32; 6], seed: u64) -> History {
        println!("settings {numbers:?}");
        let mut network = TestNetwork::start(numbers);
        network.site_memory.fill(77);
        network.coordinator_memory.fill(77);
        assert_eq!(both.start_sites(numbers, &mut network.site_memory), ACCEPTED);
        assert_eq!(both.start_coordinator(numbers, &mut network.coordinator_memory), ACCEPTED);
        let truth = Truth::new(&network.settings);
        let plain = PlainNetwork::start(network.settings);
        let account = Account::start(&network.settings);
        let mut random = Random::new(seed);
        network.fill_unused_counts(&mut random);
        let written = network.sites.messages;
        History { network, truth, plain, account, random, written }
    }

    /// A batch with a log of so many numbers: what it must do follows from the arrivals alone.
    pub fn batch(&mut self, both: &mut Both, arrivals: &[Arrival], log_numbers: usize) {
        let (accepted, messages, refusal) = self.expected(arrivals, log_numbers / 4);
        let (answer, written) = both.run_batch(&mut self.network, arrivals, log_numbers);
        assert_eq!((answer.accepted, answer.refusal), (accepted, refusal));
        assert_eq!(written, messages);
        self.written = counted_up(self.written, &messages);
        assert_eq!(self.network.sites.messages, self.written);
        self.check_forgotten(&messages);
    }

    /// Request N1 after a call, given the messages that went out since the last check: for each
    /// site the equation, and what it forgot is the sum over the replacements by the plain loops.
    fn check_forgotten(&mut self, sent: &[Message]) {
        self.account.add(sent);
        self.account.check(&self.network);
        for (record, plain) in self.network.sites.records.iter().zip(&self.plain.sites) {
            assert_eq!(record.dropped, plain.dropped(), "site {}", plain.site);
        }
    }

    /// How many arrivals a batch accepts, the messages that follow, and what stops it.
    fn expected(&mut self, arrivals: &[Arrival], places: usize) -> (usize, Vec<Message>, u8) {
        let settings = self.network.settings;
        let mut messages = Vec::new();
        for (accepted, next) in arrivals.iter().enumerate() {
            let refusal = if next.site >= settings.sites {
                UNKNOWN_SITE
            } else if next.item >= settings.universe {
                UNKNOWN_ITEM
            } else if next.value > 1023 {
                UNKNOWN_VALUE
            } else if next.is_draw() && places < messages.len() + 23 * settings.sites as usize + 2 {
                SHORT_LOG
            } else {
                messages.extend(self.count(next));
                continue;
            };
            return (accepted, messages, refusal);
        }
        (arrivals.len(), messages, ACCEPTED)
    }

    /// Counts an accepted arrival. Its messages by the plain loops are answered, and what these
    /// list then has a firm share: request N10 after each arrival, inside a batch too.
    fn count(&mut self, next: &Arrival) -> Vec<Message> {
        let settings = self.network.settings;
        let sent = self.plain.take(*next);
        self.truth.count(&settings, next, sent.len());
        let Truth { items, draws, leeway_used, .. } = &mut self.truth;
        for item in self.plain.listed() {
            leeway_used.listed(&settings, items[item], *draws);
        }
        sent
    }

    /// A single arrival with full delivery by the public calls, and touches and junk on the way.
    pub fn single(&mut self, both: &mut Both, next: Arrival) {
        let asked = self.random.pick(&[Asked::InTurn, Asked::AllAtOnce, Asked::Anyhow]);
        let expected = self.count(&next);
        let mut sent = self.observe(both, next);
        self.check_forgotten(&sent);
        let mut waiting = VecDeque::from(sent.clone());
        loop {
            let seen = self.seen_by_a_batch(&waiting);
            if self.random.one_in(8) {
                self.try_junk(both, seen);
            }
            if self.random.one_in(8) {
                self.touch(both, seen);
            }
            let announcing = matches!(self.network.coordinator.phase, Phase::Announcing { .. });
            let now = match asked {
                Asked::InTurn => waiting.is_empty(),
                Asked::AllAtOnce => true,
                Asked::Anyhow => waiting.is_empty() || self.random.one_in(2),
            };
            let more = if announcing && now {
                self.next_announcement(both)
            } else if let Some(message) = waiting.pop_front() {
                self.hand_over(both, message)
            } else {
                break;
            };
            self.check_forgotten(&more);
            sent.extend(&more);
            waiting.extend(more);
        }
        assert_eq!(sent, expected);
        // Single arrivals don't count in the network's own counts.
        assert_eq!(self.network.sites.messages, self.written);
    }

    /// Whether a batch sees that a delivery is under way. It doesn't where only a kind 1 waits, or
    /// kinds 7 that leave the threshold as it is.
    fn seen_by_a_batch(&self, waiting: &VecDeque<Message>) -> bool {
        let records = &self.network.sites.records[..self.network.settings.sites as usize];
        let threshold = self.network.coordinator.threshold;
        self.network.coordinator.phase != Phase::Idle
            || waiting.iter().any(|message| message.kind == COUNT_REPORT)
            || records.iter().any(|record| record.threshold != threshold)
    }

    /// A touch, and a batch of touches without a log, which is 11 where it sees that a delivery is
    /// under way. [`Both`] holds that nothing changes by them, and nothing goes out.
    pub fn touch(&mut self, both: &mut Both, delivering: bool) {
        let Settings { sites, universe, .. } = self.network.settings;
        let touch = arrival(self.random.below32(sites), self.random.below32(universe), TOUCH);
        assert_eq!(self.observe(both, touch), []);
        let (answer, _) = both.run_batch(&mut self.network, &[touch; 3], 0);
        let expected = if delivering { (0, INCONSISTENT) } else { (3, ACCEPTED) };
        assert_eq!((answer.accepted, answer.refusal), expected);
    }

    fn observe(&mut self, both: &mut Both, next: Arrival) -> Vec<Message> {
        let numbers = numbers_of(&self.network.settings);
        let from = self.network.settings.site_memory_len() * next.site as usize;
        let record = &mut self.network.sites.records[next.site as usize];
        let memory = &mut self.network.site_memory[from..];
        let outgoing = both.observe(numbers, next, record, memory);
        assert_eq!(outgoing.refusal, ACCEPTED);
        outgoing.sent().to_vec()
    }

    fn hand_over(&mut self, both: &mut Both, message: Message) -> Vec<Message> {
        let numbers = numbers_of(&self.network.settings);
        let outgoing = if matches!(message.kind, 3 | 5 | 7) {
            let from = self.network.settings.site_memory_len() * message.site as usize;
            let record = &mut self.network.sites.records[message.site as usize];
            let memory = &self.network.site_memory[from..];
            both.receive_at_site(numbers, message.site, message, record, memory)
        } else {
            let TestNetwork { coordinator, coordinator_memory, .. } = &mut self.network;
            both.receive_at_coordinator(numbers, message, coordinator, coordinator_memory)
        };
        assert_eq!(outgoing.refusal, ACCEPTED, "{message:?}");
        outgoing.sent().to_vec()
    }

    fn next_announcement(&mut self, both: &mut Both) -> Vec<Message> {
        let numbers = numbers_of(&self.network.settings);
        let TestNetwork { coordinator, coordinator_memory, .. } = &mut self.network;
        let outgoing = both.next_announcement(numbers, coordinator, coordinator_memory);
        assert_eq!(outgoing.refusal, ACCEPTED);
        outgoing.sent().to_vec()
    }

    /// At rest: list, margins and quantile are read, and the demands held against true counts.
    pub fn read(&mut self, both: &mut Both) {
        let TestNetwork { settings, coordinator, coordinator_memory, .. } = &self.network;
        let numbers = numbers_of(settings);
        let universe = settings.universe;
        let listed = both.list(numbers, coordinator, coordinator_memory, universe as usize);
        let count = listed.expect("the list is as long as the universe");
        assert_eq!(both.list(numbers, coordinator, coordinator_memory, count), listed);
        if count > 0 {
            let short = both.list(numbers, coordinator, coordinator_memory, count - 1);
            assert_eq!(short, Err(SHORT_LIST));
        }
        for _ in 0..4 {
            let item = self.random.below32(universe + 1);
            let margin = both.margin(numbers, coordinator, coordinator_memory, item);
            assert_eq!(margin.is_err(), item == universe);
        }
        assert!(both.quantile(numbers, coordinator, coordinator_memory).is_ok());
        self.check_plain();
        self.truth.check(&self.network);
    }

    /// The coordinator's numbers are those of the plain loops.
    fn check_plain(&self) {
        let TestNetwork { settings, coordinator, coordinator_memory, .. } = &self.network;
        let PlainNetwork { total, base, threshold, signals, quantile, .. } = self.plain;
        let record = (coordinator.total, coordinator.base, coordinator.threshold);
        assert_eq!(record, (total, base, threshold));
        assert_eq!((coordinator.signals, coordinator.quantile), (signals, quantile));
        assert_eq!(coordinator_memory[..settings.universe as usize], self.plain.estimates);
    }
}
