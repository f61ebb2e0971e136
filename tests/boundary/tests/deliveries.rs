//! Whole runs from a fresh start by single calls, every one of them made on the proved code and on
//! the separate implementation, with request N1's equation after each. In mid-delivery junk calls
//! and damaged memory are tried on copies.

mod both;
mod forge;
#[path = "../../reference/tests/support/mod.rs"]
mod support;

use std::collections::VecDeque;

use both::Both;
use forge::{any, damage_coordinator, damage_site, Coordinator, Site};
use reference::coordinator::Phase;
use reference::message::{Arrival, Message, COUNT_REPORT, ITEM_REPORT, POLL_ANSWER, PROBE_ANSWER};
use reference::refusal::ACCEPTED;
use support::account::Account;
use support::streams::{Source, ALL};
use support::{arrival, message, Random, TestNetwork};

/// A network with the calls that are made on it.
struct Run {
    numbers: [u32; 6],
    network: TestNetwork,
    account: Account,
    both: Both,
    random: Random,
}

impl Run {
    fn start(numbers: [u32; 6], seed: u64) -> Run {
        let mut both = Both::new();
        let mut network = TestNetwork::start(numbers);
        network.site_memory.fill(77);
        network.coordinator_memory.fill(77);
        assert_eq!(both.start_sites(numbers, &mut network.site_memory), ACCEPTED);
        assert_eq!(both.start_coordinator(numbers, &mut network.coordinator_memory), ACCEPTED);
        let account = Account::start(&network.settings);
        Run { numbers, network, account, both, random: Random::new(seed) }
    }

    /// A site's memory, which reaches to the end of all sites' memory.
    fn memory_from(&self, site: u32) -> usize {
        self.network.settings.site_memory_len() * site as usize
    }

    fn observe(&mut self, next: Arrival) -> Vec<Message> {
        let from = self.memory_from(next.site);
        let record = &mut self.network.sites.records[next.site as usize];
        let memory = &mut self.network.site_memory[from..];
        let outgoing = self.both.observe(self.numbers, next, record, memory);
        assert_eq!(outgoing.refusal, ACCEPTED);
        outgoing.sent().to_vec()
    }

    fn hand_over(&mut self, sent: Message) -> Vec<Message> {
        let outgoing = match sent.kind {
            ITEM_REPORT | COUNT_REPORT | POLL_ANSWER | PROBE_ANSWER => {
                let record = &mut self.network.coordinator;
                let memory = &mut self.network.coordinator_memory;
                self.both.receive_at_coordinator(self.numbers, sent, record, memory)
            }
            _ => {
                let from = self.memory_from(sent.site);
                let record = &mut self.network.sites.records[sent.site as usize];
                let memory = &self.network.site_memory[from..];
                self.both.receive_at_site(self.numbers, sent.site, sent, record, memory)
            }
        };
        assert_eq!(outgoing.refusal, ACCEPTED, "{sent:?}");
        outgoing.sent().to_vec()
    }

    fn next_announcement(&mut self) -> Vec<Message> {
        let record = &mut self.network.coordinator;
        let memory = &self.network.coordinator_memory;
        let outgoing = self.both.next_announcement(self.numbers, record, memory);
        assert_eq!(outgoing.refusal, ACCEPTED);
        outgoing.sent().to_vec()
    }

    /// Calls on copies, good and damaged, with anything for an arrival and a message.
    fn try_junk(&mut self) {
        let random = &mut self.random;
        let site = random.below32(self.numbers[0]);
        let near = |random: &mut Random, bound: u32| random.below32(bound + 2);
        let value = random.between(1, 1024);
        let next = arrival(
            near(random, self.numbers[0]),
            near(random, self.numbers[5]),
            random.value_or_touch(value),
        );
        let (threshold, base) = (self.network.coordinator.threshold, self.network.coordinator.base);
        let some = any(random);
        let a = random.pick(&[0, 1, threshold, base, some]);
        let sent = message(random.below32(9), near(random, self.numbers[0]), a, any(random));
        let from = self.network.settings.site_memory_len() * site as usize;
        let mut at_site = Site {
            settings: self.numbers,
            record: self.network.sites.records[site as usize],
            memory: self.network.site_memory[from..].to_vec(),
        };
        let mut coordinator = Coordinator {
            settings: self.numbers,
            record: self.network.coordinator,
            memory: self.network.coordinator_memory.clone(),
        };
        if random.one_in(2) {
            damage_site(&mut at_site, random);
            damage_coordinator(&mut coordinator, random);
        }
        let Site { settings, mut record, mut memory } = at_site;
        self.both.receive_at_site(settings, site, sent, &mut record, &memory);
        self.both.observe(settings, next, &mut record, &mut memory);
        let Coordinator { settings, mut record, mut memory } = coordinator;
        let places = random.below(4) as usize;
        let _ = self.both.list(settings, &record, &memory, places);
        let _ = self.both.margin(settings, &record, &memory, next.item);
        let _ = self.both.quantile(settings, &record, &memory);
        self.both.next_announcement(settings, &mut record.clone(), &memory);
        self.both.receive_at_coordinator(settings, sent, &mut record, &mut memory);
    }

    /// Request N1 after a call, and the messages that went out in it.
    fn adding_up(&mut self, sent: Vec<Message>) -> Vec<Message> {
        self.account.add(&sent);
        self.account.check(&self.network);
        sent
    }

    /// An arrival with full delivery; junk is tried now and then.
    fn take(&mut self, next: Arrival) {
        let sent = self.observe(next);
        let mut waiting = VecDeque::from(self.adding_up(sent));
        loop {
            if self.random.one_in(10) {
                self.try_junk();
            }
            let announcing = matches!(self.network.coordinator.phase, Phase::Announcing { .. });
            let sent = if announcing && (waiting.is_empty() || self.random.one_in(2)) {
                self.next_announcement()
            } else if let Some(sent) = waiting.pop_front() {
                self.hand_over(sent)
            } else {
                return;
            };
            waiting.extend(self.adding_up(sent));
        }
    }
}

#[test]
fn runs_agree() {
    let settings = [
        [1, 1000, 1000, 500, 6, 10],
        [2, 600, 700, 250, 10, 40],
        [3, 400, 400, 900, 15, 300],
        [32, 1000, 1000, 1, 6, 20],
    ];
    let mut calls = 0;
    for (place, &numbers) in settings.iter().enumerate() {
        for (kind, &stream) in ALL.iter().enumerate() {
            let seed = 920 + 10 * place as u64 + kind as u64;
            let mut run = Run::start(numbers, seed);
            let mut source = Source::new(stream, seed);
            for _ in 0..if numbers[0] == 32 { 400 } else { 3000 } {
                let next = source.next(&run.network);
                run.take(next);
            }
            // The network that the proved calls leave is at rest, as the batch call would have it.
            assert_eq!(run.network.refusal(), ACCEPTED);
            calls += run.both.calls;
        }
    }
    println!("{calls} calls");
    assert!(calls > 100_000);
}
