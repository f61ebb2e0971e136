//! The batch call: many arrivals, with full delivery after each.

use draw_tracker::raw;

use crate::{coordinator_of, settings_of, sites_of};

/// An arrival as C lays it out, so that a run of them is lent as it stands.
#[repr(C)]
#[derive(Clone, Copy, Debug, PartialEq, Eq)]
pub struct Arrival {
    pub site: u32,
    pub item: u32,
    pub value: u32,
}

const _: () = assert!(size_of::<Arrival>() == size_of::<raw::tracker_draw>());

/// What a batch works on: all records and all lent memory, the log (four numbers a record) and
/// `out`, which gets the arrivals accepted and the messages written.
pub struct Batch<'a> {
    pub sites: &'a mut [u64],
    pub coordinator: &'a mut [u64],
    pub site_memory: &'a mut [u32],
    pub coordinator_memory: &'a mut [u64],
    pub log: &'a mut [u64],
    pub out: &'a mut [u64],
}

/// The batch call, on the records where they stand.
pub fn run_batch(settings: &[u32], arrivals: &[Arrival], batch: Batch) -> u32 {
    let Batch { sites, coordinator, site_memory, coordinator_memory, log, out } = batch;
    let out = out.first_chunk_mut::<2>().expect("two counts");
    // SAFETY: as in lib.rs. An arrival is the call's draw by another name, a message four numbers
    // of the log, of which there need not be a whole number, and `out` the call's counts.
    unsafe {
        raw::tracker_run(
            settings_of(settings),
            sites_of(sites),
            coordinator_of(coordinator),
            arrivals.as_ptr().cast(),
            arrivals.len(),
            site_memory.as_mut_ptr(),
            site_memory.len(),
            coordinator_memory.as_mut_ptr(),
            coordinator_memory.len(),
            log.as_mut_ptr().cast(),
            log.len(),
            out.as_mut_ptr().cast(),
        )
    }
}
