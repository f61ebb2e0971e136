//! Document 01's program `drawtrack`: settings and a worklist in, the messages
//! and the coordinator's answers out.

use std::fmt::Write;

use crate::coordinator::{self, CoordinatorRecord};
use crate::message::{Arrival, Message};
use crate::network::{self, Sites};
use crate::refusal;
use crate::settings::{settings_refusal, Settings};
use crate::site;
use crate::worklist::{read_settings_line, Reader};

/// Most sites that the program's memory serves.
const SERVED_SITES: u32 = 4;
/// Most counters of a site that the program's memory serves.
const SERVED_CAPACITY: u32 = 100;
/// Largest universe that the program's memory serves.
const SERVED_UNIVERSE: u32 = 1000;
/// Longest worklist in bytes that the program's memory serves.
const SERVED_WORKLIST: usize = 8192;

/// What the program writes for this input.
pub fn transcript(input: &[u8]) -> Vec<u8> {
    let mut text = String::new();
    if let Err(number) = write_transcript(input, &mut text) {
        write_text(&mut text, format_args!("refused {number}\n"));
    }
    text.into_bytes()
}

/// Writes everything but a refusal, which it answers.
fn write_transcript(input: &[u8], text: &mut String) -> Result<(), u8> {
    let (settings, used) = read_settings_line(input)?;
    let worklist = &input[used..];
    refusal::check(settings_refusal(&settings))?;
    refusal::check(size_refusal(&settings, worklist))?;
    let mut tracker = Tracker::start(settings)?;
    let mut reader = Reader::new(worklist);
    while let Some(arrival) = reader.next_arrival().map_err(|malformed| malformed.refusal)? {
        tracker.take(arrival, text)?;
    }
    tracker.write_answers(text)
}

fn size_refusal(settings: &Settings, worklist: &[u8]) -> u8 {
    let served = settings.sites <= SERVED_SITES
        && settings.capacity <= SERVED_CAPACITY
        && settings.universe <= SERVED_UNIVERSE
        && worklist.len() <= SERVED_WORKLIST;
    if served {
        refusal::ACCEPTED
    } else {
        refusal::SHORT_MEMORY
    }
}

/// A network with the memory that the program lends it.
struct Tracker {
    settings: Settings,
    sites: Sites,
    site_memory: Vec<u32>,
    coordinator: CoordinatorRecord,
    coordinator_memory: Vec<u64>,
    log: Vec<Message>,
}

impl Tracker {
    fn start(settings: Settings) -> Result<Tracker, u8> {
        let mut site_memory = vec![0; settings.sites_memory_len()];
        let mut coordinator_memory = vec![0; settings.coordinator_memory_len()];
        let (refusal, sites) = site::start_sites(&settings, &mut site_memory);
        refusal::check(refusal)?;
        let (refusal, coordinator) =
            coordinator::start_coordinator(&settings, &mut coordinator_memory);
        refusal::check(refusal)?;
        let log = vec![Message::default(); settings.messages_per_arrival()];
        Ok(Tracker { settings, sites, site_memory, coordinator, coordinator_memory, log })
    }

    /// Takes one arrival and writes the messages that it sets off.
    fn take(&mut self, arrival: Arrival, text: &mut String) -> Result<(), u8> {
        let answer = network::run_batch(
            &self.settings,
            &mut self.sites,
            &mut self.site_memory,
            &mut self.coordinator,
            &mut self.coordinator_memory,
            &[arrival],
            &mut self.log,
        );
        for message in &self.log[..answer.written] {
            let [kind, site, a, b] = message.to_numbers();
            write_text(text, format_args!("{kind} {site} {a} {b}\n"));
        }
        refusal::check(answer.refusal)
    }

    /// Writes the heavy hitters, the quantile and the network's message count.
    fn write_answers(&self, text: &mut String) -> Result<(), u8> {
        let (settings, record) = (&self.settings, &self.coordinator);
        let memory = &self.coordinator_memory;
        let mut items = vec![0; settings.universe as usize];
        let count = coordinator::list_heavy_hitters(settings, record, memory, &mut items)?;
        text.push_str("listed");
        for item in &items[..count] {
            write_text(text, format_args!(" {item}"));
        }
        match coordinator::read_quantile(settings, record, memory)? {
            Some(value) => write_text(text, format_args!("\nclass {value}\n")),
            None => text.push_str("\nclass none\n"),
        }
        write_text(text, format_args!("messages {}\n", self.sites.all_messages(settings)));
        Ok(())
    }
}

/// Writing to a string cannot fail.
fn write_text(text: &mut String, arguments: std::fmt::Arguments) {
    text.write_fmt(arguments).expect("a string takes all text");
}
