//! Request N3's files with request N5's counts: saving and reading with places to spare, which keep
//! what they held; and a writer and a reader written out number by number, to hold the others
//! against. The writer also makes the older layout, with one count of messages.

use reference::coordinator::{self, CoordinatorRecord, Phase};
use reference::network::Sites;
use reference::refusal::*;
use reference::settings::Settings;
use reference::site::{self, SiteRecord};
use reference::snapshot::{self, Loaded};

use super::{message, TestNetwork, A};

/// What a lent byte or place holds before the call.
const BYTE: u8 = 0xa5;
const NARROW: u32 = 0xa5a5_a5a5;
const WIDE: u64 = 0xa5a5_a5a5_a5a5_a5a5;
/// Bytes and places to spare.
const SPARE: usize = 13;

/// Numbers of the two memories: the sites' and the coordinator's.
pub type Places = (usize, usize);

/// The places that settings need, and some to spare.
pub fn enough(settings: &Settings) -> Places {
    (settings.sites_memory_len() + SPARE, settings.coordinator_memory_len() + SPARE)
}

/// Settings A after `0;7;3` by single calls up to kind 4: the desk has kind 7 to hand out.
pub fn announcing() -> TestNetwork {
    let mut network = TestNetwork::start(A);
    let (_, reports) = network.observe(super::arrival(0, 7, 3));
    assert_eq!(reports, [message(1, 0, 7, 1), message(2, 0, 1, 3)]);
    let mut sent = vec![];
    for report in reports {
        sent = network.hand_over(report).1;
    }
    assert_eq!(sent, [message(3, 0, 0, 0)]);
    let (_, answer) = network.hand_over(sent[0]);
    assert_eq!(network.hand_over(answer[0]), (ACCEPTED, vec![]));
    assert_eq!(network.coordinator.phase, Phase::Announcing { site: 0 });
    network
}

impl TestNetwork {
    /// Saves the network to these bytes.
    pub fn save(&self, bytes: &mut [u8]) -> Result<usize, u8> {
        let (sites, coordinator) = (&self.sites, &self.coordinator);
        let memory = &self.coordinator_memory;
        snapshot::save(&self.settings, sites, &self.site_memory, coordinator, memory, bytes)
    }

    /// The file of a network whose settings pass, or the refusal. What saving leaves of longer
    /// bytes is as it was, and so are all of them where it is refused.
    pub fn saved(&self) -> Result<Vec<u8>, u8> {
        let length = snapshot::file_len(&self.settings);
        let mut bytes = vec![BYTE; length + SPARE];
        let answer = self.save(&mut bytes);
        let written = answer.unwrap_or(0);
        assert!(bytes[written..].iter().all(|&byte| byte == BYTE), "{answer:?}");
        bytes.truncate(written);
        answer.map(|answered| {
            assert_eq!(answered, length);
            bytes
        })
    }

    /// The file of a network that can be saved, the same from both writers.
    pub fn file(&self) -> Vec<u8> {
        let bytes = self.saved().expect("the network can be saved");
        assert!(bytes == self.plain_file(), "{:?}", self.settings);
        bytes
    }

    /// The network closed and read from its file, into other memory.
    pub fn reopened(&self) -> TestNetwork {
        load(&self.file(), enough(&self.settings)).expect("the file can be read")
    }

    /// The file of a network, whatever is in it: request N3's table number by number, and request
    /// N5's counts of the k sites.
    pub fn plain_file(&self) -> Vec<u8> {
        self.file_with_counts(&self.sites.messages[..self.settings.sites as usize])
    }

    /// The file of the layout before request N5, which has one count of messages for the network.
    pub fn older_file(&self, messages: u64) -> Vec<u8> {
        self.file_with_counts(&[messages])
    }

    /// The file with these counts of messages at the end of its desk part; offsets, length and sum
    /// follow from it.
    fn file_with_counts(&self, counts: &[u64]) -> Vec<u8> {
        let (settings, record) = (&self.settings, &self.coordinator);
        let mut file = PlainFile(vec![]);
        for setting in [settings.sites, settings.epsilon, settings.phi, settings.rank] {
            file.push(u64::from(setting), 8);
        }
        file.push(u64::from(settings.capacity), 8);
        file.push(u64::from(settings.universe), 8);
        let desk = file.0.len();
        for place in 0..settings.universe as usize + 1024 {
            file.push(self.coordinator_memory[place], 8);
        }
        for number in [record.total, record.base, record.threshold, record.signals] {
            file.push(number, 8);
        }
        file.push(record.quantile, 8);
        let phase = match record.phase {
            Phase::Idle => [0, 0, 0, 0, 0],
            Phase::Collecting { site } => [1, site, 0, 0, 0],
            Phase::Probing { site, low, high, sum } => [2, site, low, high, sum],
            Phase::Announcing { site } => [3, site, 0, 0, 0],
        };
        phase.into_iter().for_each(|number| file.push(number, 8));
        counts.iter().for_each(|&count| file.push(count, 8));
        let first_deck = file.0.len();
        for site in 0..settings.sites {
            for &number in self.memory_of(site) {
                file.push(u64::from(number), 4);
            }
            let record = &self.sites.records[site as usize];
            for number in [record.arrivals, record.pending, record.threshold] {
                file.push(number, 4);
            }
            file.push(record.used, 4);
            file.push(record.dropped, 4);
        }
        file.push(desk as u64, 4);
        file.push(first_deck as u64, 4);
        file.push(4, 2);
        file.push(0, 2);
        mend(&mut file.0);
        file.0
    }
}

/// Bytes to which numbers are added.
struct PlainFile(Vec<u8>);

impl PlainFile {
    /// The lowest bytes of a number, the lowest first.
    fn push(&mut self, number: u64, width: u32) {
        for place in 0..width {
            self.0.push((number >> (8 * place)) as u8);
        }
    }
}

/// Makes the sum right again.
pub fn mend(bytes: &mut [u8]) {
    let end = bytes.len() - 2;
    let mut sum = 0;
    for &byte in &bytes[..end] {
        sum = (sum + u32::from(byte)) % 65_536;
    }
    bytes[end] = (sum % 256) as u8;
    bytes[end + 1] = (sum / 256) as u8;
}

/// The file with a number of so many bytes at this place, and the sum mended.
pub fn patched(bytes: &[u8], place: usize, number: u64, width: usize) -> Vec<u8> {
    let mut bytes = bytes.to_vec();
    bytes[place..place + width].copy_from_slice(&number.to_le_bytes()[..width]);
    mend(&mut bytes);
    bytes
}

/// The number of so many bytes at this place.
pub fn number_at(bytes: &[u8], place: usize, width: usize) -> u64 {
    bytes[place..place + width].iter().rev().fold(0, |number, &byte| 256 * number + u64::from(byte))
}

/// Reads a file into memory of so many places. What reading leaves of it is as it was, and so is
/// all of it where the file is refused; it is not in the network answered.
pub fn load(bytes: &[u8], places: Places) -> Result<TestNetwork, u8> {
    let mut site_memory = vec![NARROW; places.0];
    let mut coordinator_memory = vec![WIDE; places.1];
    let answer = snapshot::load(bytes, &mut site_memory, &mut coordinator_memory);
    let Loaded { refusal, settings, sites, coordinator } = answer;
    let (of_sites, of_coordinator) = if refusal == ACCEPTED {
        (settings.sites_memory_len(), settings.coordinator_memory_len())
    } else {
        assert_eq!(settings, Settings::from_numbers([0; 6]));
        assert_eq!((sites, coordinator), (Sites::FRESH, CoordinatorRecord::FRESH));
        (0, 0)
    };
    let rest = (site_memory.split_off(of_sites), coordinator_memory.split_off(of_coordinator));
    assert!(rest.0.iter().all(|&place| place == NARROW), "refusal {refusal}");
    assert!(rest.1.iter().all(|&place| place == WIDE), "refusal {refusal}");
    let records = &sites.records[settings.sites as usize..];
    assert!(records.iter().all(|record| record.to_numbers() == [0, 0, 1, 0, 0]));
    assert!(sites.messages[settings.sites as usize..].iter().all(|&count| count == 0));
    if refusal == ACCEPTED {
        Ok(TestNetwork { settings, sites, site_memory, coordinator, coordinator_memory })
    } else {
        Err(refusal)
    }
}

/// Reads bytes that may be a file by both readers, which must answer the same. A file that is read
/// and saved again has the same bytes.
pub fn load_beside_plain(bytes: &[u8], places: Places) -> Result<TestNetwork, u8> {
    let answer = load(bytes, places);
    let expected = plain_load(bytes, places);
    assert_eq!(answer.as_ref().err(), expected.as_ref().err());
    assert!(answer == expected, "another network than {expected:?}");
    if let Ok(network) = &answer {
        assert!(network.file() == bytes, "other bytes than those read");
    }
    answer
}

/// Request N3's reading, one test after another in its order.
fn plain_load(bytes: &[u8], places: Places) -> Result<TestNetwork, u8> {
    let length = bytes.len();
    let at = |place, width| number_at(bytes, place, width);
    if length < 60 || at(length - 4, 2) != 4 {
        return Err(15);
    }
    let sum: u64 = bytes[..length - 2].iter().map(|&byte| u64::from(byte)).sum();
    if sum % 65_536 != at(length - 2, 2) {
        return Err(16);
    }
    let settings = plain_settings([0, 1, 2, 3, 4, 5].map(|place| at(8 * place, 8)))?;
    let [k, c, u] =
        [settings.sites, settings.capacity, settings.universe].map(|setting| setting as usize);
    let decks = 48 + 8 * (u + 1034 + k);
    let deck = 4 * (4 * c + 1029);
    let laid_out = at(length - 12, 4) == 48 && at(length - 8, 4) == decks as u64;
    if !laid_out || length != decks + k * deck + 12 {
        return Err(15);
    }
    let record = 48 + 8 * (u + 1024);
    let phase = plain_phase([5, 6, 7, 8, 9].map(|place| at(record + 8 * place, 8)))?;
    if places.0 < k * (4 * c + 1024) || places.1 < u + 1024 {
        return Err(4);
    }
    let mut network = TestNetwork {
        settings,
        sites: Sites::FRESH,
        site_memory: vec![],
        coordinator: CoordinatorRecord {
            total: at(record, 8),
            base: at(record + 8, 8),
            threshold: at(record + 16, 8),
            signals: at(record + 24, 8),
            quantile: at(record + 32, 8),
            phase,
        },
        coordinator_memory: (0..u + 1024).map(|place| at(48 + 8 * place, 8)).collect(),
    };
    for place in 0..k {
        network.sites.messages[place] = at(decks - 8 * (k - place), 8);
        let start = decks + place * deck;
        let memory = (0..4 * c + 1024).map(|number| at(start + 4 * number, 4) as u32);
        network.site_memory.extend(memory);
        let record = start + deck - 20;
        network.sites.records[place] = SiteRecord {
            arrivals: at(record, 4),
            pending: at(record + 4, 4),
            threshold: at(record + 8, 4),
            used: at(record + 12, 4),
            dropped: at(record + 16, 4),
        };
    }
    network.memory_rules()?;
    Ok(network)
}

/// Refusals 1, 2 and 3 of numbers that may be too wide for settings.
fn plain_settings(numbers: [u64; 6]) -> Result<Settings, u8> {
    let limits = [(1, 32), (2, 1000), (1, 1000), (1, 1000), (1, 3000), (1, 65_536)];
    for (number, (least, most)) in numbers.into_iter().zip(limits) {
        if number < least || number > most {
            return Err(1);
        }
    }
    let [_, e, p, _, c, _] = numbers;
    if p < e {
        return Err(2);
    }
    if c * e < 6000 {
        return Err(3);
    }
    Ok(Settings::from_numbers(numbers.map(|number| number as u32)))
}

/// A phase of five numbers, of which those not in use are 0; else refusal 15.
fn plain_phase(numbers: [u64; 5]) -> Result<Phase, u8> {
    match numbers {
        [0, 0, 0, 0, 0] => Ok(Phase::Idle),
        [1, site, 0, 0, 0] => Ok(Phase::Collecting { site }),
        [2, site, low, high, sum] => Ok(Phase::Probing { site, low, high, sum }),
        [3, site, 0, 0, 0] => Ok(Phase::Announcing { site }),
        _ => Err(15),
    }
}

impl TestNetwork {
    /// Refusal 11 of a network whose settings and memory's lengths pass: what each part's own
    /// calls say of it, and the limit of each site's message count.
    pub fn memory_rules(&self) -> Result<(), u8> {
        let settings = &self.settings;
        let mut refusals =
            vec![coordinator::call_refusal(settings, &self.coordinator, &self.coordinator_memory)];
        for site in 0..settings.sites {
            let record = &self.sites.records[site as usize];
            refusals.push(site::call_refusal(settings, record, self.memory_of(site)));
        }
        if self.counts_too_much() {
            refusals.push(INCONSISTENT);
        }
        match refusals.into_iter().find(|&refusal| refusal != ACCEPTED) {
            Some(refusal) => Err(refusal),
            None => Ok(()),
        }
    }
}
