//! An arrival with full delivery, made of the public calls alone.

use draw_tracker::raw;

use crate::{coordinator_of, settings_of, sites_of};

/// What a delivery works on: all records and all lent memory, and `out`, which gets how many
/// messages went out, and the number of a call that stopped the delivery, or 0.
pub struct Delivery<'a> {
    pub sites: &'a mut [u64],
    pub coordinator: &'a mut [u64],
    pub site_memory: &'a mut [u32],
    pub coordinator_memory: &'a mut [u64],
    pub out: &'a mut [u64],
}

/// The arrival and its delivery, on the records where they stand.
pub fn deliver_arrival(settings: &[u32], [at, item, value]: [u32; 3], delivery: Delivery) -> u32 {
    let Delivery { sites, coordinator, site_memory, coordinator_memory, out } = delivery;
    let out = out.first_chunk_mut::<2>().expect("two numbers");
    let draw = raw::tracker_draw { deck: at, code: item, class: value };
    // SAFETY: as in lib.rs; `out` is the two numbers of the call's answer.
    unsafe {
        raw::tracker_deliver(
            settings_of(settings),
            sites_of(sites),
            coordinator_of(coordinator),
            site_memory.as_mut_ptr(),
            site_memory.len(),
            coordinator_memory.as_mut_ptr(),
            coordinator_memory.len(),
            &draw,
            out.as_mut_ptr().cast(),
        )
    }
}
