//! Request N3, with request N5's counts of messages, on the proved code and on the separate
//! implementation: the same bytes wherever in a history a network is saved, the same records and
//! memory from every file, and the same refusal of every file that is none. A network that is
//! closed and read goes on as one that never was.

mod both;
#[path = "../../reference/tests/support/mod.rs"]
mod support;

use std::collections::VecDeque;
use std::fs;

use both::batch::numbers_of;
use both::Both;
use reference::coordinator::Phase;
use reference::message::{Arrival, Message};
use reference::refusal::*;
use reference::site::SiteRecord;
use support::causes::in_phase;
use support::counts::LIMIT;
use support::defects::{for_all_sets, Defect};
use support::files::{files, older_files, path};
use support::never_arose::{any_network, spoil};
use support::saved::{announcing, enough, mend, patched, Places};
use support::streams::{Source, ALL};
use support::{arrival, message, Random, TestNetwork, A};

/// Bytes of a file of settings A, and where its settings and parts begin.
const LENGTH: usize = 12_632;
const E: usize = 8;
const P: usize = 16;
const Q: usize = 24;
const C: usize = 32;
const U: usize = 40;
const RECORD: usize = 48 + 8 * (10 + 1024);
const SIGNALS: usize = RECORD + 8 * 3;
const PHASE: usize = RECORD + 8 * 5;
const DECKS: usize = 8408;
const TRAILER: usize = LENGTH - 12;
const WIDTH: usize = LENGTH - 4;
const SUM: usize = LENGTH - 2;
/// The numbers of its two memories.
const SITE_PLACES: usize = 4 * 6 + 1024;
const COORDINATOR_PLACES: usize = 10 + 1024;

/// Memory for settings A, with some numbers to spare.
const SPARE: Places = (SITE_PLACES + 3, COORDINATOR_PLACES + 2);

/// Settings A after seven draws: the threshold is 2, and something is pending.
fn at_rest() -> TestNetwork {
    let mut network = TestNetwork::start(A);
    network.take(&[arrival(0, 7, 3); 7]);
    network
}

/// Settings A at rest, in mid-delivery and in the middle of a halving.
fn small_networks() -> [TestNetwork; 4] {
    let mut probing = at_rest();
    in_phase(&mut probing, Phase::Probing { site: 0, low: 2, high: 3, sum: 5 }, 1);
    [TestNetwork::start(A), at_rest(), announcing(), probing]
}

fn small_files(both: &mut Both) -> [Vec<u8>; 4] {
    small_networks().map(|network| both.save(&network).expect("it can be saved"))
}

/// Reads a file on both sides. What is read has the same bytes when it is saved again.
fn read(both: &mut Both, file: &[u8], places: Places) -> Result<TestNetwork, u8> {
    let network = both.load(file, places)?;
    assert!(both.save(&network).as_deref() == Ok(file), "other bytes than those read");
    Ok(network)
}

fn random_settings(random: &mut Random) -> [u32; 6] {
    let sites = random.pick(&[1, 2, 3, 8]);
    let epsilon = random.pick(&[300, 600, 1000]);
    let capacity = 6000_u32.div_ceil(epsilon) + random.below32(3);
    let rank = random.between(1, 1000);
    [sites, epsilon, random.between(epsilon, 1000), rank, capacity, random.pick(&[1, 3, 25])]
}

/// Two networks with the same history, every call made on both sides: one is closed and read again
/// and again.
struct Trial {
    both: Both,
    open: TestNetwork,
    closing: TestNetwork,
    random: Random,
    /// How often it was closed in each phase, and with messages waiting.
    closed: [u32; 4],
    with_waiting: u32,
}

impl Trial {
    fn close(&mut self, waiting: usize) {
        self.closed[self.closing.coordinator.phase.to_numbers()[0] as usize] += 1;
        self.with_waiting += u32::from(waiting > 0);
        self.closing = self.both.reopened(&self.closing);
        assert!(self.closing == self.open);
    }

    fn batch(&mut self, arrivals: &[Arrival]) {
        let log_numbers = 4 * self.open.settings.messages_per_arrival() * arrivals.len();
        let (answer, sent) = self.both.run_batch(&mut self.open, arrivals, log_numbers);
        let (same, also_sent) = self.both.run_batch(&mut self.closing, arrivals, log_numbers);
        assert_eq!(answer.refusal, ACCEPTED);
        assert_eq!((same, also_sent), (answer, sent));
    }

    /// An arrival, and all that follows call by call. It may be closed before each of them: what
    /// waits then is the caller's.
    fn single(&mut self, next: Arrival) {
        let mut waiting: VecDeque<Message> =
            self.on_both(|both, network| both.observe_in(network, next).sent().to_vec()).into();
        loop {
            if self.random.one_in(4) {
                self.close(waiting.len());
            }
            let announcing = matches!(self.open.coordinator.phase, Phase::Announcing { .. });
            let sent = if announcing && (waiting.is_empty() || self.random.one_in(2)) {
                self.on_both(next_announcement)
            } else if let Some(message) = waiting.pop_front() {
                self.on_both(|both, network| hand_over(both, network, message))
            } else {
                return;
            };
            waiting.extend(sent);
        }
    }

    /// The same call on both networks, with the same answer.
    fn on_both<T: PartialEq>(&mut self, call: impl Fn(&mut Both, &mut TestNetwork) -> T) -> T {
        let answer = call(&mut self.both, &mut self.open);
        assert!(call(&mut self.both, &mut self.closing) == answer);
        assert!(self.closing == self.open);
        answer
    }

    fn read(&mut self) {
        let numbers = numbers_of(&self.open.settings);
        let universe = self.open.settings.universe;
        let (list, quantile) = self.on_both(|both, network| {
            let TestNetwork { coordinator, coordinator_memory, .. } = network;
            let list = both.list(numbers, coordinator, coordinator_memory, universe as usize);
            (list, both.quantile(numbers, coordinator, coordinator_memory))
        });
        assert!(list.is_ok() && quantile.is_ok());
        assert_eq!(self.closing.heavy_hitters(), self.open.heavy_hitters());
    }
}

fn next_announcement(both: &mut Both, network: &mut TestNetwork) -> Vec<Message> {
    let numbers = numbers_of(&network.settings);
    let TestNetwork { coordinator, coordinator_memory, .. } = network;
    let outgoing = both.next_announcement(numbers, coordinator, coordinator_memory);
    assert_eq!(outgoing.refusal, ACCEPTED);
    outgoing.sent().to_vec()
}

fn hand_over(both: &mut Both, network: &mut TestNetwork, message: Message) -> Vec<Message> {
    let outgoing = if matches!(message.kind, 3 | 5 | 7) {
        both.receive_in(network, message)
    } else {
        let numbers = numbers_of(&network.settings);
        let TestNetwork { coordinator, coordinator_memory, .. } = network;
        both.receive_at_coordinator(numbers, message, coordinator, coordinator_memory)
    };
    assert_eq!(outgoing.refusal, ACCEPTED, "{message:?}");
    outgoing.sent().to_vec()
}

#[test]
fn histories_go_on() {
    let mut random = Random::new(931);
    let (mut closed, mut with_waiting) = ([0; 4], 0);
    for stream in ALL.into_iter().cycle().take(2 * ALL.len()) {
        let numbers = random_settings(&mut random);
        println!("settings {numbers:?}");
        let mut trial = Trial {
            both: Both::new(),
            open: TestNetwork::start(numbers),
            closing: TestNetwork::start(numbers),
            random: Random::new(random.next()),
            closed: [0; 4],
            with_waiting: 0,
        };
        assert_eq!(trial.both.file_length(numbers), Ok(trial.open.file().len()));
        let mut source = Source::new(stream, random.next());
        for _ in 0..60 {
            if random.one_in(3) {
                let next = [(); 3].map(|()| source.next(&trial.open));
                trial.batch(&next);
            } else {
                trial.single(source.next(&trial.open));
            }
            if random.one_in(4) {
                trial.close(0);
            }
            trial.read();
        }
        for (all, times) in closed.iter_mut().zip(trial.closed) {
            *all += times;
        }
        with_waiting += trial.with_waiting;
        trial.both.enough(500, &[], 0);
    }
    println!("closed {closed:?}, {with_waiting} times with messages waiting");
    assert!(closed.iter().all(|&times| times > 20) && with_waiting > 50);
}

/// The largest network, with every counter in use.
#[test]
fn a_full_network() {
    let mut both = Both::new();
    let mut network = TestNetwork::start([32, 2, 2, 500, 3000, 65_536]);
    let mut random = Random::new(932);
    for site in 0..32 {
        let draws: Vec<_> = (0..3000)
            .map(|item| arrival(site, 20 * item + site, random.between(1, 1023)))
            .collect();
        network.take(&draws);
    }
    assert_eq!(both.save(&network).map(|file| file.len()), Ok(2_200_588));
    assert!(both.reopened(&network) == network);
    both.enough(4, &[], 0);
}

/// Every byte of small files changed, with the sum as it was and mended.
#[test]
fn one_byte_changed() {
    let mut random = Random::new(933);
    let mut both = Both::new();
    for file in small_files(&mut both) {
        let mut changed = file.clone();
        for place in 0..LENGTH {
            let any = random.between(1, 255) as u8;
            changed[place] ^= random.pick(&[1, 2, 0x80, 255, any]);
            let refusal = if (WIDTH..SUM).contains(&place) { 15 } else { 16 };
            assert_eq!(both.load(&changed, SPARE), Err(refusal), "byte {place}");
            if place < SUM {
                mend(&mut changed);
                let _ = read(&mut both, &changed, SPARE);
            }
            changed[place] = file[place];
            changed[SUM..].copy_from_slice(&file[SUM..]);
        }
    }
    both.enough(2 * 4 * LENGTH as u64, &[0, 1, 11, 15, 16], 100);
    assert_eq!(both.refusals[usize::from(SHORT_MEMORY)], 0);
}

/// Every length from none on, and longer ones, as they are and with the trailer at their end.
#[test]
fn cut_and_extended() {
    let mut both = Both::new();
    let [_, at_rest, announcing, _] = small_files(&mut both);
    for file in [at_rest, announcing] {
        let short = (0..80).chain((80..LENGTH - 80).step_by(97)).chain(LENGTH - 80..LENGTH);
        let long = (1..20).chain([100, 4096, LENGTH]).map(|more| LENGTH + more);
        for length in short.chain(long) {
            let mut bytes = file.clone();
            bytes.resize(length, 0);
            let refusal = both.load(&bytes, SPARE).unwrap_err();
            assert!(refusal == MALFORMED_FILE || refusal == SUM_DIFFERS, "{length}");
            if length >= 12 {
                bytes[length - 12..].copy_from_slice(&file[TRAILER..]);
                mend(&mut bytes);
                // The trailer may stand in the settings, where it is under 60 bytes.
                assert_eq!(both.load(&bytes, SPARE), Err(MALFORMED_FILE), "{length}");
                assert_eq!(both.load(&bytes, (0, 0)), Err(MALFORMED_FILE), "{length}");
            }
        }
    }
    both.enough(1000, &[15], 100);
}

/// Any bytes are read or refused alike, most of them with the width and the sum made right.
#[test]
fn any_bytes() {
    let mut random = Random::new(934);
    let mut both = Both::new();
    let files = small_files(&mut both);
    for _ in 0..4000 {
        let mut bytes: Vec<u8> = if random.one_in(4) {
            (0..random.below(200)).map(|_| random.next() as u8).collect()
        } else {
            random.pick(&[0, 1, 2, 3].map(|place| &files[place])).clone()
        };
        for _ in 0..random.below(4) {
            if let Some(last) = bytes.len().checked_sub(1) {
                let wide = random.below(1 + last as u64 / 8) as usize * 8;
                let place = random.pick(&[wide, wide, last - last.min(wide % 13)]);
                bytes[place] = random.pick(&[0, 1, 2, 4, 8, 255]);
            }
        }
        if random.one_in(8) {
            bytes.truncate(random.below(1 + bytes.len() as u64) as usize);
        }
        if bytes.len() >= 12 && !random.one_in(5) {
            let width = bytes.len() - 4;
            bytes[width..width + 2].copy_from_slice(&[4, 0]);
            mend(&mut bytes);
        }
        let sites = random.pick(&[SITE_PLACES, SITE_PLACES - 1]);
        let _ = read(&mut both, &bytes, (sites, COORDINATOR_PLACES));
    }
    both.enough(4000, &[0, 1, 4, 11, 15, 16], 10);
}

/// A file, and the memory lent for it. Where `other_sum`, the sum is not mended.
#[derive(Clone)]
struct LoadCall {
    file: Vec<u8>,
    other_sum: bool,
    places: Places,
}

fn patch(call: &mut LoadCall, place: usize, number: u64, width: usize) {
    call.file = patched(&call.file, place, number, width);
}

/// Each refusal of reading alone and with others.
#[test]
fn reading_in_order() {
    let defects: [Defect<LoadCall>; 10] = [
        (MALFORMED_FILE, |call| patch(call, WIDTH, 8, 2)),
        (SUM_DIFFERS, |call| call.other_sum = true),
        (SETTING_RANGE, |call| patch(call, Q, 0, 8)),
        (PHI_BELOW_EPSILON, |call| patch(call, P, 999, 8)),
        (TOO_FEW_COUNTERS, |call| patch(call, C, 5, 8)),
        (MALFORMED_FILE, |call| patch(call, TRAILER + 4, DECKS as u64 + 4, 4)),
        (MALFORMED_FILE, |call| patch(call, PHASE, 4, 8)),
        (SHORT_MEMORY, |call| call.places.0 = SITE_PLACES - 1),
        (SHORT_MEMORY, |call| call.places.1 = COORDINATOR_PLACES - 1),
        (INCONSISTENT, |call| patch(call, SIGNALS, 2, 8)),
    ];
    let mut both = Both::new();
    for file in small_files(&mut both) {
        let places = (SITE_PLACES, COORDINATOR_PLACES);
        let good = LoadCall { file, other_sum: false, places };
        for_all_sets(&good, &defects, |mut call, refusal| {
            if call.other_sum {
                call.file[SUM] ^= 1;
            }
            assert_eq!(both.load(&call.file, call.places), Err(refusal));
        });
        assert!(read(&mut both, &good.file, good.places).is_ok());
    }
    both.enough(4000, &[1, 2, 3, 4, 11, 15, 16], 4);
}

#[derive(Clone)]
struct SaveCall {
    network: TestNetwork,
    room: usize,
}

/// Each refusal of saving alone and with others.
#[test]
fn saving_in_order() {
    let defects: [Defect<SaveCall>; 9] = [
        (SETTING_RANGE, |call| call.network.settings.rank = 0),
        (PHI_BELOW_EPSILON, |call| call.network.settings.phi = 999),
        (TOO_FEW_COUNTERS, |call| call.network.settings.capacity = 5),
        (SHORT_MEMORY, |call| call.network.site_memory.truncate(SITE_PLACES - 1)),
        (SHORT_MEMORY, |call| call.network.coordinator_memory.truncate(COORDINATOR_PLACES - 1)),
        (SHORT_MEMORY, |call| call.room = LENGTH - 1),
        (INCONSISTENT, |call| call.network.coordinator.signals = 2),
        (INCONSISTENT, |call| call.network.sites.records[0].dropped = 1 << 32),
        (INCONSISTENT, |call| call.network.sites.messages[0] = 100_000_000_000_001),
    ];
    let mut both = Both::new();
    for network in small_networks() {
        let good = SaveCall { network, room: LENGTH };
        for_all_sets(&good, &defects, |call, refusal| {
            assert_eq!(both.save_to(&call.network, call.room), Err(refusal));
            let settings = numbers_of(&call.network.settings);
            assert!(refusal > TOO_FEW_COUNTERS || both.file_length(settings) == Err(refusal));
        });
        assert!(both.save_to(&good.network, good.room).is_ok());
        assert_eq!(both.save_to(&good.network, 0), Err(SHORT_MEMORY));
    }
    both.enough(2000, &[1, 2, 3, 4, 11], 4);
}

/// Numbers of 8 bytes are taken whole, and each phase number, offset and setting is tested.
#[test]
fn numbers_patched() {
    let mut both = Both::new();
    for file in small_files(&mut both) {
        let desk = (0..11).map(|number| RECORD + 8 * number);
        for place in [0, E, P, Q, C, U, 48].into_iter().chain(desk) {
            let now = u64::from_le_bytes(file[place..place + 8].try_into().unwrap());
            let most =
                [1 << 32, (1 << 32) + now, 1 << 63, u64::MAX, 100_000_000_001, LIMIT, LIMIT + 1];
            for number in most.into_iter().chain(now.saturating_sub(1)..now + 3) {
                let _ = read(&mut both, &patched(&file, place, number, 8), SPARE);
            }
        }
        for place in [TRAILER, TRAILER + 4] {
            for number in [0, 1, 47, 48, 49, 8407, 8408, 8409, u64::from(u32::MAX)] {
                let _ = read(&mut both, &patched(&file, place, number, 4), SPARE);
            }
        }
        for width in [0, 1, 2, 3, 4, 5, 8, 4 + 256, 4 * 256, 65_535] {
            let _ = read(&mut both, &patched(&file, WIDTH, width, 2), SPARE);
        }
    }
    both.enough(700, &[0, 1, 2, 3, 11, 15], 1);
}

/// Networks that never arose are saved and read alike, and such as have a number spoilt refused
/// alike.
#[test]
fn networks_that_never_arose() {
    let mut random = Random::new(935);
    let mut both = Both::new();
    for _ in 0..100 {
        let mut network = any_network(&mut random);
        let sites = u64::from(network.settings.sites);
        let site = random.below(sites);
        if let Some(phase) = random.pick(&[
            None,
            Some(Phase::Collecting { site }),
            Some(Phase::Probing { site, low: 3, high: 4, sum: 100_000_000_000 }),
            Some(Phase::Announcing { site }),
        ]) {
            network.coordinator.phase = phase;
            network.coordinator.signals = sites;
        }
        for count in &mut network.sites.messages[..sites as usize] {
            *count = random.pick(&[0, 1 << 32, LIMIT]);
        }
        let unused = network.sites.records[0].used as usize;
        network.site_memory[4 * unused..40].fill(random.next() as u32);
        assert!(both.reopened(&network) == network.without_unused_counts());
    }
    let mut start = TestNetwork::start([3, 1000, 1000, 400, 6, 8]);
    for round in 0..30 {
        for _ in 0..30 {
            let mut network = start.clone();
            spoil(&mut network, &mut random);
            if both.save(&network).is_ok() {
                let reopened = both.reopened(&network);
                network.sites.records[3..].fill(SiteRecord::FRESH);
                assert!(reopened == network.clone().without_unused_counts());
            }
            // What saving refuses may stand in a file all the same.
            let _ = both.load(&network.plain_file(), enough(&network.settings));
        }
        start.take(&[arrival(round % 3, round % 8, 1 + round)]);
    }
    both.enough(2000, &[0, 11], 100);
    assert!(both.wide > 10);
}

/// The files that the separate implementation made: read by the proved code, and saved again. Those
/// of one site are of requests N3 and N4 too.
#[test]
fn files_of_the_repository() {
    let mut both = Both::new();
    for (name, network) in files() {
        let bytes = fs::read(path(name)).expect(name);
        let settings = network.settings;
        assert!(read(&mut both, &bytes, enough(&settings)) == Ok(network.clone()), "{name}");
        // The least memory and the least bytes are enough; less is 4.
        let least = (settings.sites_memory_len(), settings.coordinator_memory_len());
        assert!(both.load(&bytes, least) == Ok(network.clone()), "{name}");
        for places in [(least.0 - 1, least.1), (least.0, least.1 - 1), (least.0, 0), (0, 0)] {
            assert_eq!(both.load(&bytes, places), Err(SHORT_MEMORY), "{name} {places:?}");
        }
        let length = bytes.len();
        assert!(both.save_to(&network, length) == Ok(bytes), "{name}");
        assert_eq!(both.save_to(&network, length - 1), Err(SHORT_MEMORY), "{name}");
    }
    let mut reopened = both.reopened(&announcing());
    assert_eq!(next_announcement(&mut both, &mut reopened), [message(7, 0, 1, 1)]);
    // Those of two and more sites with one count of messages.
    for (name, network) in older_files() {
        let bytes = fs::read(path(name)).expect(name);
        for places in [enough(&network.settings), (0, 0)] {
            assert_eq!(both.load(&bytes, places), Err(MALFORMED_FILE), "{name}");
        }
    }
}
