//! The batch call on the proved code and on the separate implementation, through a lent slice of
//! arrivals as C lays them out.

use boundary::{Batch, SITES_NUMBERS};
use reference::coordinator::CoordinatorRecord;
use reference::message::{Arrival, Message};
use reference::network::BatchAnswer;
use reference::refusal;
use reference::settings::Settings;
use reference::site::Sites;

use super::{is_wide, with_junk, Both, JUNK};
use crate::support::TestNetwork;

/// What stands in the separate implementation's log before a call.
const UNWRITTEN: Message = Message { kind: 99, site: 98, a: 97, b: 96 };

/// What stands in the proved code's log before a call: another number at each place.
fn canary(place: usize) -> u64 {
    1_000_000_007 * (place as u64 + 1)
}

/// The settings as the boundary takes them.
pub fn numbers_of(settings: &Settings) -> [u32; 6] {
    let Settings { sites, epsilon, phi, rank, capacity, universe } = *settings;
    [sites, epsilon, phi, rank, capacity, universe]
}

/// Both records as the boundary takes them, each with some numbers more.
pub struct Records {
    pub sites: [u64; SITES_NUMBERS + 2],
    pub coordinator: [u64; 12],
}

impl Records {
    pub fn of(network: &TestNetwork) -> Records {
        let sites = with_junk(network.sites.to_numbers());
        Records { sites, coordinator: with_junk(network.coordinator.to_numbers()) }
    }

    /// After a call: the records go to the network, and nothing else has changed.
    pub fn hand_back(&self, network: &mut TestNetwork) {
        assert_eq!(self.sites[SITES_NUMBERS..], [JUNK; 2]);
        assert_eq!(self.coordinator[10..], [JUNK; 2]);
        let mut numbers = [0; SITES_NUMBERS];
        numbers.copy_from_slice(&self.sites[..SITES_NUMBERS]);
        network.sites = Sites::from_numbers(&numbers);
        let mut numbers = [0; 10];
        numbers.copy_from_slice(&self.coordinator[..10]);
        network.coordinator = CoordinatorRecord::from_numbers(numbers).expect("a phase");
        // Numbers that the phase has not are 0.
        assert_eq!(network.coordinator.to_numbers(), numbers);
    }
}

impl Both {
    /// The batch call with a log of so many numbers, which need not be a whole number of records.
    /// Records, both memories, the answer and every place of the log are the same on both sides;
    /// on each, the counts of messages grow by what its log says, those from k on not at all; a
    /// call that accepts no draw changes nothing. Answers what was written as well.
    pub fn run_batch(
        &mut self,
        network: &mut TestNetwork,
        arrivals: &[Arrival],
        log_numbers: usize,
    ) -> (BatchAnswer, Vec<Message>) {
        let before = network.clone();
        let mut proved = network.clone();
        let mut log: Vec<u64> = (0..log_numbers).map(canary).collect();
        let (number, out) = proved_batch(&mut proved, arrivals, &mut log);

        let mut written = vec![UNWRITTEN; log_numbers / 4];
        self.wide += u64::from(is_wide(&network.coordinator));
        let answer = network.run_batch(arrivals, &mut written);
        self.count(number, answer.refusal, "run_batch");
        let call = || format!("run_batch {:?} {arrivals:?}", before.settings);
        // The counts are written whatever the answer.
        assert_eq!(out, [answer.accepted as u64, answer.written as u64, JUNK], "{}", call());
        let logged = log.chunks_exact(4).take(out[1] as usize).map(|message| message[1]);
        assert_eq!(proved.sites.messages, counted_up(before.sites.messages, logged), "{}", call());
        assert!(proved == *network, "{}", call());
        let numbers: Vec<u64> =
            written[..answer.written].iter().flat_map(|message| message.to_numbers()).collect();
        let kept = (4 * answer.written..log_numbers).map(canary);
        assert!(log.iter().copied().eq(numbers.into_iter().chain(kept)), "{}", call());
        assert!(written[answer.written..].iter().all(|place| *place == UNWRITTEN));
        if stopped_at_start(answer.refusal) {
            assert_eq!((answer.accepted, answer.written), (0, 0), "{}", call());
        }
        if !arrivals[..answer.accepted].iter().any(Arrival::is_draw) {
            assert!(answer.written == 0 && *network == before, "{}", call());
        }
        written.truncate(answer.written);
        (answer, written)
    }
}

/// The counts with one more for each message, given the site that it names: request N5's, from the
/// log alone.
fn counted_up(mut counts: [u64; 32], sites: impl Iterator<Item = u64>) -> [u64; 32] {
    sites.for_each(|site| counts[site as usize] += 1);
    counts
}

/// Whether a refusal is tested once, when a batch starts.
fn stopped_at_start(refusal: u8) -> bool {
    let at_arrivals = [
        refusal::ACCEPTED,
        refusal::UNKNOWN_SITE,
        refusal::UNKNOWN_ITEM,
        refusal::UNKNOWN_VALUE,
        refusal::SITE_FULL,
        refusal::SHORT_LOG,
    ];
    !at_arrivals.contains(&refusal)
}

/// The call on the proved code: its refusal, and what it left in three numbers.
fn proved_batch(
    network: &mut TestNetwork,
    arrivals: &[Arrival],
    log: &mut [u64],
) -> (u32, [u64; 3]) {
    let lent: Vec<boundary::Arrival> = arrivals
        .iter()
        .map(|&Arrival { site, item, value }| boundary::Arrival { site, item, value })
        .collect();
    let mut records = Records::of(network);
    let mut out = [JUNK; 3];
    let batch = Batch {
        sites: &mut records.sites,
        coordinator: &mut records.coordinator,
        site_memory: &mut network.site_memory,
        coordinator_memory: &mut network.coordinator_memory,
        log,
        out: &mut out,
    };
    let refusal = boundary::run_batch(&numbers_of(&network.settings), &lent, batch);
    records.hand_back(network);
    (refusal, out)
}
