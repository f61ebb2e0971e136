//! The calls at a site with all sites' records and memory lent, and the start of one site, beside
//! the separate implementation, which has a site's own calls: the site is looked up after its
//! number was tested. What is not that site's stays as it was.

use boundary::SITE_NUMBERS;
use reference::message::{Arrival, Message, Outgoing};
use reference::refusal::{ACCEPTED, SHORT_MEMORY, UNKNOWN_SITE};
use reference::settings::{settings_refusal, Settings};
use reference::site::{self, SiteRecord, Sites};

use super::batch::{numbers_of, Records};
use super::{messages_out, sent, Both, JUNK};
use crate::support::TestNetwork;

/// Refusals 1 to 4 of all sites' memory, then 5.
fn lookup_refusal(network: &TestNetwork, site: u32) -> u8 {
    let settings = &network.settings;
    match settings_refusal(settings) {
        ACCEPTED if network.site_memory.len() < settings.sites_memory_len() => SHORT_MEMORY,
        ACCEPTED if site >= settings.sites => UNKNOWN_SITE,
        number => number,
    }
}

impl Both {
    pub fn observe_in(&mut self, network: &mut TestNetwork, next: Arrival) -> Outgoing<2> {
        let before = network.clone();
        let mut proved = network.clone();
        let mut records = Records::of(&proved);
        let mut out = [JUNK; 11];
        let number = boundary::observe_in(
            &numbers_of(&proved.settings),
            &mut records.sites,
            [next.site, next.item, next.value],
            &mut proved.site_memory,
            &mut out,
        );
        records.hand_back(&mut proved);
        let outgoing = match lookup_refusal(network, next.site) {
            ACCEPTED => {
                let (settings, at) = (network.settings, next.site as usize);
                let memory = part_of(&mut network.site_memory, &settings, at);
                site::observe(&settings, next, &mut network.sites.records[at], memory)
            }
            refusal => Outgoing::none(refusal),
        };
        self.count(number, outgoing.refusal, "observe in all sites");
        let call = || format!("observe_in {:?} {next:?}", before.settings);
        assert_eq!(out, messages_out(&outgoing), "{}", call());
        assert!(proved == *network, "{}", call());
        assert!(outgoing.refusal == ACCEPTED || *network == before, "{}", call());
        outgoing
    }

    pub fn receive_in(&mut self, network: &mut TestNetwork, message: Message) -> Outgoing<1> {
        let before = network.clone();
        let mut proved = network.clone();
        let mut records = Records::of(&proved);
        let mut out = [JUNK; 6];
        let number = boundary::receive_in(
            &numbers_of(&proved.settings),
            &mut records.sites,
            sent(message),
            &proved.site_memory,
            &mut out,
        );
        records.hand_back(&mut proved);
        let outgoing = match lookup_refusal(network, message.site) {
            ACCEPTED => {
                let (settings, at) = (network.settings, message.site as usize);
                let memory = part_of(&mut network.site_memory, &settings, at);
                let record = &mut network.sites.records[at];
                site::receive(&settings, message.site, message, record, memory)
            }
            refusal => Outgoing::none(refusal),
        };
        self.count(number, outgoing.refusal, "receive in all sites");
        let call = || format!("receive_in {:?} {message:?}", before.settings);
        assert_eq!(out, messages_out(&outgoing), "{}", call());
        assert!(proved == *network, "{}", call());
        assert!(outgoing.refusal == ACCEPTED || *network == before, "{}", call());
        outgoing
    }

    /// One site's start, whose record and memory are those of a start of all sites.
    pub fn start_site(&mut self, settings: [u32; 6], which: u32, memory: &mut [u32]) -> u8 {
        let mut proved_memory = memory.to_vec();
        let mut numbers = [JUNK; SITE_NUMBERS + 1];
        let proved = boundary::start_site(&settings, which, &mut proved_memory, &mut numbers);
        let rules = Settings::from_numbers(settings);
        let refusal = match settings_refusal(&rules) {
            ACCEPTED if memory.len() < rules.site_memory_len() => SHORT_MEMORY,
            ACCEPTED if which >= rules.sites => UNKNOWN_SITE,
            number => number,
        };
        if refusal == ACCEPTED {
            // With one site there is no other memory.
            let alone = Settings { sites: 1, ..rules };
            assert_eq!(site::start_sites(&alone, memory), (ACCEPTED, Sites::FRESH));
            assert_eq!(numbers, super::site_numbers(&SiteRecord::FRESH));
        } else {
            assert_eq!(numbers, [JUNK; SITE_NUMBERS + 1]);
        }
        self.count(proved, refusal, "start_site");
        assert!(proved_memory == memory, "start_site {settings:?} {which}");
        refusal
    }
}

/// A site's own part of all sites' memory.
fn part_of<'a>(memory: &'a mut [u32], settings: &Settings, site: usize) -> &'a mut [u32] {
    let length = settings.site_memory_len();
    &mut memory[length * site..][..length]
}
