//! The calls at a site where one process holds all sites, and the start of one site alone.

use draw_tracker::raw;

use crate::{settings_of, site_of, sites_of, Message, Out};

/// Starts one site; its record goes to `site`.
pub fn start_site(settings: &[u32], which: u32, memory: &mut [u32], site: &mut [u64]) -> u32 {
    let (settings, site) = (settings_of(settings), site_of(site));
    // SAFETY: as in lib.rs.
    unsafe { raw::tracker_start_deck(settings, which, site, memory.as_mut_ptr(), memory.len()) }
}

/// An arrival at the site that it names, with all sites' records and memory; `out` gets the number
/// of messages, then two messages.
pub fn observe_in(
    settings: &[u32],
    sites: &mut [u64],
    [at, item, value]: [u32; 3],
    memory: &mut [u32],
    out: &mut [u64],
) -> u32 {
    let mut out = Out::of(out, 2);
    let messages = out.messages();
    let draw = raw::tracker_draw { deck: at, code: item, class: value };
    // SAFETY: as in lib.rs; two messages have their places.
    let refusal = unsafe {
        raw::tracker_decks_draw(
            settings_of(settings),
            sites_of(sites),
            memory.as_mut_ptr(),
            memory.len(),
            &draw,
            messages,
            &mut out.count,
        )
    };
    out.counted(refusal)
}

/// A message at the site that it names, with all sites' records and memory; `out` gets the number
/// of replies, then the reply.
pub fn receive_in(
    settings: &[u32],
    sites: &mut [u64],
    message: Message,
    memory: &[u32],
    out: &mut [u64],
) -> u32 {
    let mut out = Out::of(out, 1);
    let reply = out.messages();
    // SAFETY: as in lib.rs.
    let refusal = unsafe {
        raw::tracker_decks_message(
            settings_of(settings),
            sites_of(sites),
            memory.as_ptr(),
            memory.len(),
            &message.to_raw(),
            reply,
            &mut out.count,
        )
    };
    out.counted(refusal)
}
