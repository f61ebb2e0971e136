//! Saving and reading on the proved code and on the separate implementation. Behind every end of
//! what is lent stand places that are not lent: they keep what they held, and so does whatever is
//! lent and not written.

use boundary::snapshot::{ToLoad, ToSave};
use boundary::SITES_NUMBERS;
use reference::refusal::ACCEPTED;
use reference::settings::{settings_refusal, Settings};
use reference::snapshot;

use super::batch::{numbers_of, Records};
use super::{is_wide, with_junk, Both, JUNK};
use crate::support::saved::{enough, Places};
use crate::support::TestNetwork;

/// Bytes and numbers behind what is lent.
const BEHIND: usize = 5;

/// What stands in lent bytes and numbers before a call: others at each place.
fn canary(place: usize) -> u64 {
    0x9e37_79b9_7f4a_7c15_u64.wrapping_mul(place as u64 + 1)
}

fn byte_canaries(count: usize) -> Vec<u8> {
    (0..count).map(|place| (canary(place) >> 56) as u8).collect()
}

fn site_canaries(count: usize) -> Vec<u32> {
    (0..count).map(|place| (canary(place) >> 32) as u32).collect()
}

fn coordinator_canaries(count: usize) -> Vec<u64> {
    (0..count).map(canary).collect()
}

impl Both {
    /// The length of the file that settings have, or the refusal.
    pub fn file_length(&mut self, settings: [u32; 6]) -> Result<usize, u8> {
        let proved = boundary::snapshot::file_length(&settings);
        let rules = Settings::from_numbers(settings);
        let refusal = settings_refusal(&rules);
        self.count(proved.err().unwrap_or(0), refusal, "file_length");
        let length = snapshot::file_len(&rules);
        assert!(refusal != ACCEPTED || proved == Ok(length), "file_length {settings:?}");
        proved.map_err(|_| refusal)
    }

    /// Saves to so many lent bytes: the file, or the refusal. Every byte is the same on both sides,
    /// and all behind the file keep what they held; all of them where it is refused.
    pub fn save_to(&mut self, network: &TestNetwork, room: usize) -> Result<Vec<u8>, u8> {
        let before = byte_canaries(room + BEHIND);
        let (mut proved_bytes, mut bytes) = (before.clone(), before.clone());
        let records = Records::of(network);
        let to_save = ToSave {
            sites: &records.sites,
            coordinator: &records.coordinator,
            site_memory: &network.site_memory,
            coordinator_memory: &network.coordinator_memory,
        };
        let settings = numbers_of(&network.settings);
        let proved = boundary::snapshot::save(&settings, to_save, &mut proved_bytes[..room]);
        self.wide += u64::from(is_wide(&network.coordinator));
        let answer = network.save(&mut bytes[..room]);
        self.count(proved.err().unwrap_or(0), answer.err().unwrap_or(ACCEPTED), "save");
        let call = || format!("save {settings:?} to {room} bytes");
        assert_eq!(proved.ok(), answer.ok(), "{}", call());
        assert!(proved_bytes == bytes, "{}", call());
        let written = answer.unwrap_or(0);
        assert!(bytes[written..] == before[written..], "{}", call());
        bytes.truncate(written);
        answer.map(|_| bytes)
    }

    /// The same with some bytes to spare.
    pub fn save(&mut self, network: &TestNetwork) -> Result<Vec<u8>, u8> {
        let length = snapshot::file_len(&network.settings).min(1 << 24);
        self.save_to(network, length + 3)
    }

    /// Reads a file into memory of so many numbers: the network without what was lent beyond its
    /// own, or the refusal. Settings, records and every number are the same on both sides, and what
    /// the network doesn't have keeps what it held; all of it where it is refused.
    pub fn load(&mut self, file: &[u8], places: Places) -> Result<TestNetwork, u8> {
        let site_before = site_canaries(places.0 + BEHIND);
        let coordinator_before = coordinator_canaries(places.1 + BEHIND);
        let (mut proved_sites, mut site_memory) = (site_before.clone(), site_before.clone());
        let mut proved_coordinator = coordinator_before.clone();
        let mut coordinator_memory = coordinator_before.clone();
        let (mut settings, mut sites, mut coordinator) =
            ([JUNK as u32; 8], [JUNK; SITES_NUMBERS + 2], [JUNK; 12]);
        let to_load = ToLoad {
            settings: &mut settings,
            sites: &mut sites,
            coordinator: &mut coordinator,
            site_memory: &mut proved_sites[..places.0],
            coordinator_memory: &mut proved_coordinator[..places.1],
        };
        let proved = boundary::snapshot::load(file, to_load);
        let lent = &mut coordinator_memory[..places.1];
        let loaded = snapshot::load(file, &mut site_memory[..places.0], lent);
        self.count(proved, loaded.refusal, "load");
        assert!(proved_sites == site_memory, "the sites' memory, refusal {proved}");
        assert!(proved_coordinator == coordinator_memory, "the coordinator's, refusal {proved}");
        let (mut of_sites, mut of_coordinator) = (0, 0);
        if loaded.refusal == ACCEPTED {
            of_sites = loaded.settings.sites_memory_len();
            of_coordinator = loaded.settings.coordinator_memory_len();
            assert_eq!(settings[..6], numbers_of(&loaded.settings));
            assert_eq!(sites, with_junk(loaded.sites.to_numbers()));
            assert_eq!(coordinator, with_junk(loaded.coordinator.to_numbers()));
        } else {
            // The call hands out nothing, where the separate implementation answers fresh records.
            assert_eq!(settings, [JUNK as u32; 8]);
            assert_eq!((sites, coordinator), ([JUNK; _], [JUNK; _]));
        }
        assert_eq!(settings[6..], [JUNK as u32; 2]);
        assert!(site_memory[of_sites..] == site_before[of_sites..]);
        assert!(coordinator_memory[of_coordinator..] == coordinator_before[of_coordinator..]);
        site_memory.truncate(of_sites);
        coordinator_memory.truncate(of_coordinator);
        if loaded.refusal != ACCEPTED {
            return Err(loaded.refusal);
        }
        let (settings, sites, coordinator) = (loaded.settings, loaded.sites, loaded.coordinator);
        Ok(TestNetwork { settings, sites, site_memory, coordinator, coordinator_memory })
    }

    /// The network closed and read from its file, into other memory with some numbers to spare. It
    /// has the same records and counts of its own sites, the same memory, and again the same file.
    pub fn reopened(&mut self, network: &TestNetwork) -> TestNetwork {
        let file = self.save(network).expect("the network can be saved");
        let reopened = self.load(&file, enough(&network.settings)).expect("the file can be read");
        assert!(self.save(&reopened) == Ok(file), "another file than the one that was read");
        reopened
    }
}
