//! Every call made on the proved code and on the separate implementation, with the same numbers:
//! answers, records and every place of lent memory are the same afterwards. What is lent has some
//! numbers more than a call needs, which must keep what they held; where a call is refused, all
//! numbers must.

// Each test file uses a part of this module only.
#![allow(dead_code)]

pub mod batch;
pub mod delivery;
pub mod snapshot;
pub mod whole;

use boundary::{COORDINATOR_NUMBERS, SITES_NUMBERS, SITE_NUMBERS};
use reference::coordinator::{self, CoordinatorRecord};
use reference::message::{Arrival, Message, Outgoing};
use reference::refusal;
use reference::settings::Settings;
use reference::site::{self, SiteRecord};

use crate::support::account::{check_draw, counters_of};

/// What stands in lent numbers before a call, and stays where the call has nothing to say.
const JUNK: u64 = 77;

/// How many calls were made, how often each refusal was met, and how many calls were given a record
/// of the coordinator with a number that four bytes don't hold.
pub struct Both {
    pub calls: u64,
    pub refusals: [u64; 17],
    pub wide: u64,
}

impl Both {
    pub fn new() -> Both {
        Both { calls: 0, refusals: [0; 17], wide: 0 }
    }

    /// Fails unless there were so many calls, with each of these refusals met often enough.
    pub fn enough(&self, calls: u64, refusals: &[u8], often: u64) {
        println!("{} calls, refusals {:?}, {} wide", self.calls, self.refusals, self.wide);
        assert!(self.calls >= calls, "{} calls only", self.calls);
        for &number in refusals {
            let times = self.refusals[usize::from(number)];
            assert!(times >= often, "refusal {number} was met {times} times");
        }
    }

    fn count(&mut self, proved: u32, refusal: u8, call: &str) {
        self.calls += 1;
        self.refusals[usize::from(refusal)] += 1;
        assert_eq!(proved, u32::from(refusal), "{call}");
    }

    pub fn start_sites(&mut self, settings: [u32; 6], memory: &mut [u32]) -> u8 {
        let mut proved_memory = memory.to_vec();
        let mut numbers = [JUNK; SITES_NUMBERS + 2];
        let proved = boundary::start_sites(&settings, &mut proved_memory, &mut numbers);
        let (refusal, sites) = site::start_sites(&Settings::from_numbers(settings), memory);
        self.count(proved, refusal, "start_sites");
        let started = refusal == refusal::ACCEPTED;
        assert_eq!(numbers, if started { with_junk(sites.to_numbers()) } else { [JUNK; _] });
        assert!(proved_memory == memory, "start_sites {settings:?}");
        refusal
    }

    /// An accepted draw also adds up as request N1 has it, and what left its counter is what the
    /// memory shows to have left. A touch, as a refused arrival, changes nothing and sends nothing.
    pub fn observe(
        &mut self,
        settings: [u32; 6],
        arrival: Arrival,
        record: &mut SiteRecord,
        memory: &mut [u32],
    ) -> Outgoing<2> {
        let before = *record;
        let counters = counters_of(record, memory);
        let given = memory.to_vec();
        let mut proved_memory = given.clone();
        let mut numbers = site_numbers(record);
        let mut out = [JUNK; 11];
        let numbers_of_arrival = [arrival.site, arrival.item, arrival.value];
        let proved = boundary::observe(
            &settings,
            &mut numbers,
            numbers_of_arrival,
            &mut proved_memory,
            &mut out,
        );
        let rules = Settings::from_numbers(settings);
        let mut departure = None;
        let outgoing =
            site::observe_with_departure(&rules, arrival, record, memory, &mut departure);
        self.count(proved, outgoing.refusal, "observe");
        let call = || format!("observe {settings:?} {arrival:?} {before:?}");
        assert_eq!(numbers, site_numbers(record), "{}", call());
        assert_eq!(out, messages_out(&outgoing), "{}", call());
        assert!(proved_memory == memory, "{}", call());
        if outgoing.refusal == refusal::ACCEPTED && arrival.is_draw() {
            let after = counters_of(record, memory);
            check_draw((&before, &counters), (record, &after), departure, outgoing.sent());
        } else {
            assert_eq!((*record, outgoing.count, departure), (before, 0, None), "{}", call());
            assert!(memory == given, "{}", call());
        }
        outgoing
    }

    pub fn receive_at_site(
        &mut self,
        settings: [u32; 6],
        which: u32,
        message: Message,
        record: &mut SiteRecord,
        memory: &[u32],
    ) -> Outgoing<1> {
        let before = *record;
        let mut numbers = site_numbers(record);
        let mut out = [JUNK; 6];
        let sent = sent(message);
        let proved =
            boundary::receive_at_site(&settings, &mut numbers, which, sent, memory, &mut out);
        let rules = Settings::from_numbers(settings);
        let outgoing = site::receive(&rules, which, message, record, memory);
        self.count(proved, outgoing.refusal, "receive at a site");
        let call = || format!("receive {settings:?} {which} {message:?} {before:?}");
        assert_eq!(numbers, site_numbers(record), "{}", call());
        assert_eq!(record.dropped, before.dropped, "{}", call());
        assert_eq!(out, messages_out(&outgoing), "{}", call());
        outgoing
    }

    pub fn start_coordinator(&mut self, settings: [u32; 6], memory: &mut [u64]) -> u8 {
        let mut proved_memory = memory.to_vec();
        let mut numbers = [JUNK; COORDINATOR_NUMBERS + 1];
        let proved = boundary::start_coordinator(&settings, &mut proved_memory, &mut numbers);
        let rules = Settings::from_numbers(settings);
        let (refusal, record) = coordinator::start_coordinator(&rules, memory);
        self.count(proved, refusal, "start_coordinator");
        let started = refusal == refusal::ACCEPTED;
        assert_eq!(numbers, if started { with_junk(record.to_numbers()) } else { [JUNK; _] });
        assert!(proved_memory == memory, "start_coordinator {settings:?}");
        refusal
    }

    pub fn receive_at_coordinator(
        &mut self,
        settings: [u32; 6],
        message: Message,
        record: &mut CoordinatorRecord,
        memory: &mut [u64],
    ) -> Outgoing<1> {
        let before = *record;
        let mut proved_memory = memory.to_vec();
        let mut numbers = with_junk::<10, 11>(record.to_numbers());
        let mut out = [JUNK; 6];
        let proved = boundary::receive_at_coordinator(
            &settings,
            &mut numbers,
            sent(message),
            &mut proved_memory,
            &mut out,
        );
        self.wide += u64::from(is_wide(record));
        let rules = Settings::from_numbers(settings);
        let outgoing = coordinator::receive(&rules, message, record, memory);
        self.count(proved, outgoing.refusal, "receive at the coordinator");
        let call = || format!("receive {settings:?} {message:?} {before:?}");
        assert_eq!(out, messages_out(&outgoing), "{}", call());
        assert_eq!(numbers, with_junk(record.to_numbers()), "{}", call());
        assert!(proved_memory == memory, "{}", call());
        outgoing
    }

    pub fn next_announcement(
        &mut self,
        settings: [u32; 6],
        record: &mut CoordinatorRecord,
        memory: &[u64],
    ) -> Outgoing<1> {
        let before = *record;
        let mut numbers = with_junk::<10, 11>(record.to_numbers());
        let mut out = [JUNK; 6];
        let proved = boundary::next_announcement(&settings, &mut numbers, memory, &mut out);
        self.wide += u64::from(is_wide(record));
        let rules = Settings::from_numbers(settings);
        let outgoing = coordinator::next_announcement(&rules, record, memory);
        assert_eq!(out, messages_out(&outgoing), "{settings:?} {before:?}");
        self.count(proved, outgoing.refusal, "next_announcement");
        assert_eq!(numbers, with_junk(record.to_numbers()), "{settings:?} {before:?}");
        outgoing
    }

    /// The list with so many places, and how many items it wrote.
    pub fn list(
        &mut self,
        settings: [u32; 6],
        record: &CoordinatorRecord,
        memory: &[u64],
        places: usize,
    ) -> Result<usize, u8> {
        let mut proved_list = vec![JUNK as u32; places];
        let mut list = proved_list.clone();
        let mut out = [JUNK; 2];
        let numbers = record.to_numbers();
        let proved =
            boundary::list_heavy_hitters(&settings, &numbers, memory, &mut proved_list, &mut out);
        let rules = Settings::from_numbers(settings);
        self.wide += u64::from(is_wide(record));
        let listed = coordinator::list_heavy_hitters(&rules, record, memory, &mut list);
        self.count(proved, listed.err().unwrap_or(refusal::ACCEPTED), "list");
        let written = listed.map_or(JUNK, |count| count as u64);
        assert_eq!(out, [written, JUNK], "list {settings:?} {record:?}");
        assert!(proved_list == list, "list {settings:?} {record:?}");
        listed
    }

    pub fn margin(
        &mut self,
        settings: [u32; 6],
        record: &CoordinatorRecord,
        memory: &[u64],
        item: u32,
    ) -> Result<i64, u8> {
        let (proved, value) = boundary::read_margin(&settings, &record.to_numbers(), item, memory);
        let rules = Settings::from_numbers(settings);
        self.wide += u64::from(is_wide(record));
        let margin = coordinator::read_margin(&rules, record, memory, item);
        self.count(proved, margin.err().unwrap_or(refusal::ACCEPTED), "margin");
        assert_eq!(value, margin.unwrap_or(0), "margin {settings:?} {record:?} {item}");
        margin
    }

    pub fn quantile(
        &mut self,
        settings: [u32; 6],
        record: &CoordinatorRecord,
        memory: &[u64],
    ) -> Result<Option<u32>, u8> {
        let mut out = [JUNK; 3];
        let proved = boundary::read_quantile(&settings, &record.to_numbers(), memory, &mut out);
        let rules = Settings::from_numbers(settings);
        self.wide += u64::from(is_wide(record));
        let quantile = coordinator::read_quantile(&rules, record, memory);
        self.count(proved, quantile.err().unwrap_or(refusal::ACCEPTED), "quantile");
        let expected = match quantile {
            Ok(Some(value)) => [1, u64::from(value), JUNK],
            Ok(None) => [0, 0, JUNK],
            Err(_) => [JUNK; 3],
        };
        assert_eq!(out, expected, "quantile {settings:?} {record:?}");
        quantile
    }
}

/// Whether a number is wide that the rules hold in four bytes: then the record is inconsistent.
fn is_wide(record: &CoordinatorRecord) -> bool {
    let [_, _, _, signals, quantile, _, site, low, high, _] = record.to_numbers();
    [signals, quantile, site, low, high].iter().any(|&number| u32::try_from(number).is_err())
}

fn with_junk<const FEW: usize, const MORE: usize>(numbers: [u64; FEW]) -> [u64; MORE] {
    let mut all = [JUNK; MORE];
    all[..FEW].copy_from_slice(&numbers);
    all
}

/// A site's record as the boundary takes it, with a number more.
fn site_numbers(record: &SiteRecord) -> [u64; SITE_NUMBERS + 1] {
    with_junk(record.to_numbers())
}

fn sent(message: Message) -> boundary::Message {
    let Message { kind, site, a, b } = message;
    boundary::Message { kind, site, a, b }
}

/// What a call leaves in lent numbers of which the last are none of its own: the number of messages
/// and all its places for them, where it accepts; nothing else.
fn messages_out<const PLACES: usize, const NUMBERS: usize>(
    outgoing: &Outgoing<PLACES>,
) -> [u64; NUMBERS] {
    let mut out = [JUNK; NUMBERS];
    if outgoing.refusal == refusal::ACCEPTED {
        out[0] = outgoing.count as u64;
        for (place, message) in out[1..].chunks_exact_mut(4).zip(&outgoing.messages) {
            place.copy_from_slice(&message.to_numbers());
        }
    }
    out
}
