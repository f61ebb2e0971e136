//! A whole network twice: as the calls of the proved code on a whole network take it, and as those
//! of the other implementation do.

use boundary::snapshot::{self, ToLoad, ToSave};
use boundary::Batch;
use reference::coordinator::{self, CoordinatorRecord};
use reference::message::{Arrival, Message};
use reference::network;
use reference::settings::Settings;
use reference::site::{self, Sites, SITES_NUMBERS};

/// The network of the separate implementation.
#[derive(Clone)]
pub struct Reference {
    /// k, e, p, q, c, u.
    numbers: [u32; 6],
    pub settings: Settings,
    pub sites: Sites,
    pub site_memory: Vec<u32>,
    pub coordinator: CoordinatorRecord,
    pub coordinator_memory: Vec<u64>,
    pub log: Vec<Message>,
}

impl Reference {
    /// A network started fresh, with a log of so many records.
    pub fn start(numbers: [u32; 6], places: usize) -> Reference {
        let settings = Settings::from_numbers(numbers);
        let mut site_memory = vec![0; settings.sites_memory_len()];
        let mut coordinator_memory = vec![0; settings.coordinator_memory_len()];
        let (refusal, sites) = site::start_sites(&settings, &mut site_memory);
        assert_eq!(refusal, 0);
        let (refusal, coordinator) =
            coordinator::start_coordinator(&settings, &mut coordinator_memory);
        assert_eq!(refusal, 0);
        let log = vec![Message::default(); places];
        Reference { numbers, settings, sites, site_memory, coordinator, coordinator_memory, log }
    }

    /// A batch that must be taken whole; answers the messages written. One function of its own, as
    /// the proved side's is, however many places call it.
    #[inline(never)]
    pub fn run(&mut self, arrivals: &[Arrival]) -> usize {
        let answer = network::run_batch(
            &self.settings,
            &mut self.sites,
            &mut self.site_memory,
            &mut self.coordinator,
            &mut self.coordinator_memory,
            arrivals,
            &mut self.log,
        );
        assert_eq!((answer.accepted, answer.refusal), (arrivals.len(), 0));
        answer.written
    }

    /// Saves the network, which must be accepted; answers the file's length.
    #[inline(never)]
    pub fn save(&self, bytes: &mut [u8]) -> usize {
        let memory = &self.coordinator_memory;
        let (sites, coordinator) = (&self.sites, &self.coordinator);
        let rules = &self.settings;
        reference::snapshot::save(rules, sites, &self.site_memory, coordinator, memory, bytes)
            .expect("it can be saved")
    }

    /// Reads a file, which must be accepted and of the same settings.
    #[inline(never)]
    pub fn load(&mut self, file: &[u8]) {
        let loaded =
            reference::snapshot::load(file, &mut self.site_memory, &mut self.coordinator_memory);
        assert_eq!((loaded.refusal, loaded.settings), (0, self.settings));
        self.sites = loaded.sites;
        self.coordinator = loaded.coordinator;
    }

    /// Makes this network the other one again, without another place in memory.
    pub fn restore(&mut self, other: &Reference) {
        self.sites = other.sites;
        self.coordinator = other.coordinator;
        self.site_memory.copy_from_slice(&other.site_memory);
        self.coordinator_memory.copy_from_slice(&other.coordinator_memory);
    }
}

/// The network of the proved code.
#[derive(Clone)]
pub struct Proved {
    settings: [u32; 6],
    pub sites: [u64; SITES_NUMBERS],
    pub site_memory: Vec<u32>,
    pub coordinator: [u64; 10],
    pub coordinator_memory: Vec<u64>,
    pub log: Vec<u64>,
}

impl Proved {
    /// The same network as the other.
    pub fn of(other: &Reference) -> Proved {
        let mut proved = Proved {
            settings: other.numbers,
            sites: [0; SITES_NUMBERS],
            site_memory: other.site_memory.clone(),
            coordinator: other.coordinator.to_numbers(),
            coordinator_memory: other.coordinator_memory.clone(),
            log: vec![0; 4 * other.log.len()],
        };
        proved.restore(other);
        proved
    }

    /// A batch that must be taken whole; answers the messages written.
    pub fn run(&mut self, arrivals: &[boundary::Arrival]) -> usize {
        let mut out = [0; 2];
        let batch = Batch {
            sites: &mut self.sites,
            coordinator: &mut self.coordinator,
            site_memory: &mut self.site_memory,
            coordinator_memory: &mut self.coordinator_memory,
            log: &mut self.log,
            out: &mut out,
        };
        let refusal = boundary::run_batch(&self.settings, arrivals, batch);
        assert_eq!((out[0], refusal), (arrivals.len() as u64, 0));
        out[1] as usize
    }

    /// Saves the network, which must be accepted; answers the file's length.
    pub fn save(&self, bytes: &mut [u8]) -> usize {
        let network = ToSave {
            sites: &self.sites,
            coordinator: &self.coordinator,
            site_memory: &self.site_memory,
            coordinator_memory: &self.coordinator_memory,
        };
        snapshot::save(&self.settings, network, bytes).expect("it can be saved")
    }

    /// Reads a file, which must be accepted and of the same settings.
    pub fn load(&mut self, file: &[u8]) {
        let mut settings = [0; 6];
        let network = ToLoad {
            settings: &mut settings,
            sites: &mut self.sites,
            coordinator: &mut self.coordinator,
            site_memory: &mut self.site_memory,
            coordinator_memory: &mut self.coordinator_memory,
        };
        assert_eq!((snapshot::load(file, network), settings), (0, self.settings));
    }

    /// Makes this network the other one again, without another place in memory.
    pub fn restore(&mut self, other: &Reference) {
        self.sites = other.sites.to_numbers();
        self.coordinator = other.coordinator.to_numbers();
        self.site_memory.copy_from_slice(&other.site_memory);
        self.coordinator_memory.copy_from_slice(&other.coordinator_memory);
    }

    /// Fails unless records, memory and the messages written last are the same.
    pub fn check(&self, other: &Reference, written: usize) {
        assert_eq!(self.sites, other.sites.to_numbers());
        assert_eq!(self.coordinator, other.coordinator.to_numbers());
        assert!(self.site_memory == other.site_memory);
        assert!(self.coordinator_memory == other.coordinator_memory);
        let messages = other.log[..written].iter().flat_map(|message| message.to_numbers());
        assert!(messages.eq(self.log[..4 * written].iter().copied()));
    }
}

/// The same arrivals as the proved code takes them.
pub fn lent(arrivals: &[Arrival]) -> Vec<boundary::Arrival> {
    arrivals
        .iter()
        .map(|&Arrival { site, item, value }| boundary::Arrival { site, item, value })
        .collect()
}
