//! Sites that have taken all the draws they may, more than a test can hand them; and a touch at
//! one, with all that it is still tested for.

use reference::message::{Arrival, TOUCH};
use reference::refusal::*;
use reference::settings::Settings;
use reference::site::{SiteRecord, MAX_ARRIVALS};

use super::defects::Defect;
use super::{arrival, TestNetwork};

/// The value of the draws that fill a site.
const VALUE: usize = 1;

/// Fills a site up to its limit, and answers with how many draws.
pub fn fill_site(settings: &Settings, record: &mut SiteRecord, memory: &mut [u32]) -> u64 {
    let more = MAX_ARRIVALS - record.arrivals;
    memory[settings.counters_len() + VALUE] += more as u32;
    record.arrivals = MAX_ARRIVALS;
    more
}

impl TestNetwork {
    /// Fills a site, with what the coordinator must know of it.
    pub fn fill(&mut self, site: u32) {
        let TestNetwork { settings, sites, site_memory, coordinator, coordinator_memory } = self;
        let memory = &mut site_memory[settings.site_memory_len() * site as usize..];
        let more = fill_site(settings, &mut sites.records[site as usize], memory);
        coordinator.total += more;
        coordinator_memory[settings.universe as usize + VALUE] += more;
    }
}

/// Where the memory of site 1 begins, in the network of a [`TouchCall`].
pub const SITE_1: usize = 40 + 1024;

/// An arrival at site 1 of two.
#[derive(Clone, Debug, PartialEq)]
pub struct TouchCall {
    pub network: TestNetwork,
    pub arrival: Arrival,
}

/// A touch at site 1, which is full.
pub fn touch_at_a_full_site() -> TouchCall {
    let mut network = TestNetwork::start([2, 600, 700, 500, 10, 10]);
    network.take(&[arrival(1, 2, 3), arrival(0, 5, 6)]);
    network.fill(1);
    TouchCall { network, arrival: arrival(1, 9, TOUCH) }
}

/// What a touch is tested for, in order, by the single call and by a batch. A value above 1023 is
/// no touch, but 7 comes before 8 and 14.
pub const TOUCH_DEFECTS: [Defect<TouchCall>; 8] = [
    (SETTING_RANGE, |call| call.network.settings.rank = 0),
    (PHI_BELOW_EPSILON, |call| call.network.settings.phi = 599),
    (TOO_FEW_COUNTERS, |call| call.network.settings.capacity = 9),
    (SHORT_MEMORY, |call| call.network.site_memory.truncate(2 * SITE_1 - 1)),
    (INCONSISTENT, |call| call.network.sites.records[1].pending = 1),
    (UNKNOWN_SITE, |call| call.arrival.site = 2),
    (UNKNOWN_ITEM, |call| call.arrival.item = 10),
    (UNKNOWN_VALUE, |call| call.arrival.value = 1024),
];
