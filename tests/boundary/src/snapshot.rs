//! A network saved to bytes and read back (request N3).

use draw_tracker::raw;

use crate::{coordinator_of, coordinator_to_read, settings_of, sites_of, SITES_NUMBERS, UNWRITTEN};

/// How many bytes the file of these settings has, or the refusal.
pub fn file_length(settings: &[u32]) -> Result<usize, u32> {
    let mut length = UNWRITTEN as usize;
    // SAFETY: as in lib.rs.
    let refusal = unsafe { raw::tracker_file_length(settings_of(settings), &mut length) };
    length_answered(refusal, length)
}

/// What is saved: all records and all lent memory.
pub struct ToSave<'a> {
    pub sites: &'a [u64],
    pub coordinator: &'a [u64],
    pub site_memory: &'a [u32],
    pub coordinator_memory: &'a [u64],
}

/// Saves a network to lent bytes; the file's length, or the refusal.
pub fn save(settings: &[u32], network: ToSave, bytes: &mut [u8]) -> Result<usize, u32> {
    let ToSave { sites, coordinator, site_memory, coordinator_memory } = network;
    let sites = sites.first_chunk::<SITES_NUMBERS>().expect("all sites' records");
    let mut length = UNWRITTEN as usize;
    // SAFETY: as in lib.rs.
    let refusal = unsafe {
        raw::tracker_save(
            settings_of(settings),
            sites.as_ptr().cast(),
            coordinator_to_read(coordinator),
            site_memory.as_ptr(),
            site_memory.len(),
            coordinator_memory.as_ptr(),
            coordinator_memory.len(),
            bytes.as_mut_ptr(),
            bytes.len(),
            &mut length,
        )
    };
    length_answered(refusal, length)
}

fn length_answered(refusal: u32, length: usize) -> Result<usize, u32> {
    if refusal == 0 {
        return Ok(length);
    }
    assert_eq!(length, UNWRITTEN as usize, "refused by {refusal}, a call changed its length");
    Err(refusal)
}

/// Where a file is read to: settings, all records and all lent memory.
pub struct ToLoad<'a> {
    pub settings: &'a mut [u32],
    pub sites: &'a mut [u64],
    pub coordinator: &'a mut [u64],
    pub site_memory: &'a mut [u32],
    pub coordinator_memory: &'a mut [u64],
}

/// Reads a network from a file, which is all of `file`.
pub fn load(file: &[u8], network: ToLoad) -> u32 {
    let ToLoad { settings, sites, coordinator, site_memory, coordinator_memory } = network;
    // SAFETY: as in lib.rs.
    unsafe {
        raw::tracker_load(
            file.as_ptr(),
            file.len(),
            settings.first_chunk_mut::<6>().expect("six settings").as_mut_ptr().cast(),
            sites_of(sites),
            coordinator_of(coordinator),
            site_memory.as_mut_ptr(),
            site_memory.len(),
            coordinator_memory.as_mut_ptr(),
            coordinator_memory.len(),
        )
    }
}
