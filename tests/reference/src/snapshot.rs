//! Saving a network overnight and reading it back: request N3's file, with
//! request N5's message counts.
//!
//! Its numbers are little-endian. First the settings k, e, p, q, c, u, then the
//! coordinator's part (memory, record, the message counts of the k sites), 8
//! bytes a number; then each site's memory and record, 4 bytes a number; last the
//! trailer, which says where the two parts begin, the width of a site's numbers
//! and the sum of all bytes before the sum. Messages on their way are not in the
//! file: whoever saves in mid-delivery keeps them.

use crate::coordinator::{self, CoordinatorRecord, COORDINATOR_NUMBERS};
use crate::network::{self, Sites};
use crate::refusal;
use crate::settings::{settings_refusal, Settings, SETTINGS_NUMBERS};
use crate::site::{self, SiteRecord, SITE_NUMBERS};

/// Bytes of a number in the settings and in the coordinator's part.
const WIDE: usize = 8;
/// Bytes of a number of a site. The trailer says so.
const NARROW: usize = 4;
/// Bytes of the trailer: two offsets of 4 bytes, the width and the sum of 2.
const TRAILER: usize = 12;
/// Bytes of the trailer's width.
const WIDTH: usize = 2;
/// Bytes of the sum, which are the file's last and not summed themselves.
const SUM: usize = 2;
/// Bytes of the settings, and so the offset of the coordinator's part.
const SETTINGS: usize = WIDE * SETTINGS_NUMBERS;

/// Where the parts of a file begin, and its length.
struct Layout {
    coordinator: usize,
    sites: usize,
    /// Bytes of one site.
    site: usize,
    trailer: usize,
    length: usize,
}

impl Layout {
    /// The layout that settings give. Where they do not pass their test, numbers
    /// beyond the largest become the largest.
    fn of(settings: &Settings) -> Layout {
        let coordinator_numbers = settings
            .coordinator_memory_len()
            .saturating_add(COORDINATOR_NUMBERS)
            .saturating_add(settings.sites as usize);
        let site_numbers = settings.site_memory_len().saturating_add(SITE_NUMBERS);
        let coordinator = SETTINGS;
        let sites = coordinator.saturating_add(WIDE.saturating_mul(coordinator_numbers));
        let site = NARROW.saturating_mul(site_numbers);
        let trailer = sites.saturating_add(site.saturating_mul(settings.sites as usize));
        Layout { coordinator, sites, site, trailer, length: trailer.saturating_add(TRAILER) }
    }
}

/// Bytes of the file of a network with these settings.
pub fn file_len(settings: &Settings) -> usize {
    Layout::of(settings).length
}

/// Saves a network, in mid-delivery too, and answers the file's length, or
/// refusal 1, 2, 3, 4 or 11. Longer bytes keep what they held from there on.
pub fn save(
    settings: &Settings,
    sites: &Sites,
    site_memory: &[u32],
    coordinator: &CoordinatorRecord,
    coordinator_memory: &[u64],
    bytes: &mut [u8],
) -> Result<usize, u8> {
    refusal::check(settings_refusal(settings))?;
    let layout = Layout::of(settings);
    if network::memory_short(settings, site_memory.len(), coordinator_memory.len())
        || bytes.len() < layout.length
    {
        return Err(refusal::SHORT_MEMORY);
    }
    if network::inconsistent(settings, sites, site_memory, coordinator, coordinator_memory) {
        return Err(refusal::INCONSISTENT);
    }
    let file = &mut bytes[..layout.length];
    let rest = write_wide(file, &settings.to_numbers().map(u64::from));
    let rest = write_wide(rest, &coordinator_memory[..settings.coordinator_memory_len()]);
    let rest = write_wide(rest, &coordinator.to_numbers());
    let mut rest = write_wide(rest, &sites.messages[..settings.sites as usize]);
    let memories = site_memory.chunks_exact(settings.site_memory_len());
    for (record, memory) in sites.records[..settings.sites as usize].iter().zip(memories) {
        rest = write_narrow(rest, memory);
        // A consistent site has no number above 1,000,000,000.
        rest = write_narrow(rest, &record.to_numbers().map(|number| number as u32));
    }
    write_trailer(file, &layout);
    Ok(layout.length)
}

/// Writes numbers at the start of bytes that have places enough, and answers
/// the bytes after them.
fn write_wide<'a>(bytes: &'a mut [u8], numbers: &[u64]) -> &'a mut [u8] {
    let (places, rest) = bytes.split_at_mut(WIDE * numbers.len());
    for (place, number) in places.as_chunks_mut().0.iter_mut().zip(numbers) {
        *place = number.to_le_bytes();
    }
    rest
}

/// The same for a site's numbers.
fn write_narrow<'a>(bytes: &'a mut [u8], numbers: &[u32]) -> &'a mut [u8] {
    let (places, rest) = bytes.split_at_mut(NARROW * numbers.len());
    for (place, number) in places.as_chunks_mut().0.iter_mut().zip(numbers) {
        *place = number.to_le_bytes();
    }
    rest
}

/// Closes a file, the sum last.
fn write_trailer(file: &mut [u8], layout: &Layout) {
    let offsets = [layout.coordinator as u32, layout.sites as u32];
    let rest = write_narrow(&mut file[layout.trailer..], &offsets);
    rest[..WIDTH].copy_from_slice(&(NARROW as u16).to_le_bytes());
    let summed = layout.length - SUM;
    let sum = byte_sum(&file[..summed]);
    file[summed..].copy_from_slice(&sum.to_le_bytes());
}

/// The sum of all bytes modulo 65,536.
pub fn byte_sum(bytes: &[u8]) -> u16 {
    bytes.iter().fold(0, |sum: u16, &byte| sum.wrapping_add(u16::from(byte)))
}

/// What reading a file answers. The settings are 0 and the records fresh where
/// it was refused; the records from k on are always fresh, and their counts 0.
#[derive(Clone, Copy, Debug, PartialEq, Eq)]
pub struct Loaded {
    pub refusal: u8,
    pub settings: Settings,
    pub sites: Sites,
    pub coordinator: CoordinatorRecord,
}

impl Loaded {
    /// The answer to a file that is refused.
    pub fn refused(refusal: u8) -> Loaded {
        Loaded {
            refusal,
            settings: Settings::ZERO,
            sites: Sites::FRESH,
            coordinator: CoordinatorRecord::FRESH,
        }
    }
}

/// Reads a file, which is all of `bytes`, into lent memory. Longer memory keeps
/// what it held from where the network's ends; a refusal (15, 16, 1, 2, 3, 15,
/// 4 or 11, in this order) leaves all of it alone.
pub fn load(bytes: &[u8], site_memory: &mut [u32], coordinator_memory: &mut [u64]) -> Loaded {
    let loaded = match read(bytes, site_memory.len(), coordinator_memory.len()) {
        Ok(loaded) => loaded,
        Err(refusal) => return Loaded::refused(refusal),
    };
    // All tests are made: only now is the first number stored.
    let settings = &loaded.settings;
    let layout = Layout::of(settings);
    let memory = &mut coordinator_memory[..settings.coordinator_memory_len()];
    read_wide(&bytes[layout.coordinator..], memory);
    let memories = site_memory.chunks_exact_mut(settings.site_memory_len());
    for (site, memory) in site_parts(bytes, &layout).zip(memories) {
        read_narrow(site, memory);
    }
    loaded
}

/// Makes every test of a file and answers all that it holds but the memory, for
/// which so many places are lent.
fn read(bytes: &[u8], site_places: usize, coordinator_places: usize) -> Result<Loaded, u8> {
    let offsets = read_trailer(bytes)?;
    let settings = read_settings(bytes)?;
    let layout = Layout::of(&settings);
    if offsets != [layout.coordinator, layout.sites] || bytes.len() != layout.length {
        return Err(refusal::MALFORMED_FILE);
    }
    let mut coordinator_memory = vec![0; settings.coordinator_memory_len()];
    let rest = read_wide(&bytes[layout.coordinator..], &mut coordinator_memory);
    let (coordinator, rest) = read_record(rest)?;
    if network::memory_short(&settings, site_places, coordinator_places) {
        return Err(refusal::SHORT_MEMORY);
    }
    let mut sites = Sites::FRESH;
    read_wide(rest, &mut sites.messages[..settings.sites as usize]);
    if network::counts_inconsistent(&settings, &sites)
        || coordinator::inconsistent(&settings, &coordinator, &coordinator_memory)
    {
        return Err(refusal::INCONSISTENT);
    }
    let mut memory = vec![0; settings.site_memory_len()];
    for (record, site) in sites.records.iter_mut().zip(site_parts(bytes, &layout)) {
        *record = read_site(site, &mut memory);
        if site::inconsistent(&settings, record, &memory) {
            return Err(refusal::INCONSISTENT);
        }
    }
    Ok(Loaded { refusal: refusal::ACCEPTED, settings, sites, coordinator })
}

/// The two offsets in the trailer, or refusal 15 or 16.
fn read_trailer(bytes: &[u8]) -> Result<[usize; 2], u8> {
    if bytes.len() < SETTINGS + TRAILER {
        return Err(refusal::MALFORMED_FILE);
    }
    let mut offsets = [0; 2];
    let rest = read_narrow(&bytes[bytes.len() - TRAILER..], &mut offsets);
    let (width, sum) = rest.split_at(WIDTH);
    if width != (NARROW as u16).to_le_bytes() {
        return Err(refusal::MALFORMED_FILE);
    }
    if sum != byte_sum(&bytes[..bytes.len() - SUM]).to_le_bytes() {
        return Err(refusal::SUM_DIFFERS);
    }
    Ok(offsets.map(|offset| offset as usize))
}

/// The settings, or refusal 1, 2 or 3. They are tested before they are narrowed:
/// what does not fit is outside its range.
fn read_settings(bytes: &[u8]) -> Result<Settings, u8> {
    let mut wide = [0; SETTINGS_NUMBERS];
    read_wide(bytes, &mut wide);
    let mut numbers = [0; SETTINGS_NUMBERS];
    for (number, wide) in numbers.iter_mut().zip(wide) {
        *number = u32::try_from(wide).map_err(|_| refusal::SETTING_RANGE)?;
    }
    let settings = Settings::from_numbers(numbers);
    refusal::check(settings_refusal(&settings))?;
    Ok(settings)
}

/// The coordinator's record and the bytes after it, or refusal 15 where the phase
/// is no phase or a number that it has not is not 0.
fn read_record(bytes: &[u8]) -> Result<(CoordinatorRecord, &[u8]), u8> {
    let mut numbers = [0; COORDINATOR_NUMBERS];
    let rest = read_wide(bytes, &mut numbers);
    match CoordinatorRecord::from_numbers(numbers) {
        Some(record) if record.to_numbers() == numbers => Ok((record, rest)),
        _ => Err(refusal::MALFORMED_FILE),
    }
}

/// The bytes of each site, in a file of this layout.
fn site_parts<'a>(bytes: &'a [u8], layout: &Layout) -> impl Iterator<Item = &'a [u8]> {
    bytes[layout.sites..layout.trailer].chunks_exact(layout.site)
}

/// A site's memory and its record.
fn read_site(bytes: &[u8], memory: &mut [u32]) -> SiteRecord {
    let mut numbers = [0; SITE_NUMBERS];
    let rest = read_narrow(bytes, memory);
    read_narrow(rest, &mut numbers);
    SiteRecord::from_numbers(numbers.map(u64::from))
}

/// Reads numbers from the start of bytes that have as many, and answers the
/// bytes after them.
fn read_wide<'a>(bytes: &'a [u8], numbers: &mut [u64]) -> &'a [u8] {
    let (places, rest) = bytes.split_at(WIDE * numbers.len());
    for (number, place) in numbers.iter_mut().zip(places.as_chunks().0) {
        *number = u64::from_le_bytes(*place);
    }
    rest
}

/// The same for a site's numbers.
fn read_narrow<'a>(bytes: &'a [u8], numbers: &mut [u32]) -> &'a [u8] {
    let (places, rest) = bytes.split_at(NARROW * numbers.len());
    for (number, place) in numbers.iter_mut().zip(places.as_chunks().0) {
        *number = u32::from_le_bytes(*place);
    }
    rest
}
