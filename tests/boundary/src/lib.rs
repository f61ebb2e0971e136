//! The calls of `tracker.h` in the words of the tests, over plain numbers: settings six, a site's
//! record [`SITE_NUMBERS`], all sites [`SITES_NUMBERS`], the coordinator's record
//! [`COORDINATOR_NUMBERS`], a message four. Lent numbers may be more than that, and the rest must
//! stay; fewer are no call that C could make, and panic here. A call answers document 01's refusal.
//!
//! A refused call changes nothing: where a call writes to a number that no slice here holds, this
//! is checked here.

mod batch;
mod delivery;
pub mod snapshot;
mod whole;

use draw_tracker::raw;

pub use batch::{run_batch, Arrival, Batch};
pub use delivery::{deliver_arrival, Delivery};
pub use reference::site::{SITES_NUMBERS, SITE_NUMBERS};
pub use whole::{observe_in, receive_in, start_site};

/// Numbers of the coordinator's record.
pub const COORDINATOR_NUMBERS: usize = 10;

/// What a number that is handed out holds before the call.
const UNWRITTEN: u32 = 0x5a5a_5a5a;

/// A message's four numbers.
#[derive(Clone, Copy, Debug)]
pub struct Message {
    pub kind: u32,
    pub site: u32,
    pub a: u64,
    pub b: u64,
}

impl Message {
    fn to_raw(self) -> raw::tracker_message {
        let (kind, deck) = (u64::from(self.kind), u64::from(self.site));
        raw::tracker_message { kind, deck, a: self.a, b: self.b }
    }
}

// The first numbers of what is lent, as the records that the calls take. SAFETY, for all casts to
// them: such a record is a row of numbers of one width, so any numbers are one, at the same place
// and with the same alignment.

fn settings_of(numbers: &[u32]) -> *const raw::tracker_settings {
    numbers.first_chunk::<6>().expect("six settings").as_ptr().cast()
}

fn site_of(numbers: &mut [u64]) -> *mut raw::tracker_deck {
    numbers.first_chunk_mut::<SITE_NUMBERS>().expect("a site's record").as_mut_ptr().cast()
}

fn sites_of(numbers: &mut [u64]) -> *mut raw::tracker_decks {
    numbers.first_chunk_mut::<SITES_NUMBERS>().expect("all sites' records").as_mut_ptr().cast()
}

fn coordinator_of(numbers: &mut [u64]) -> *mut raw::tracker_desk {
    let record = numbers.first_chunk_mut::<COORDINATOR_NUMBERS>();
    record.expect("the coordinator's record").as_mut_ptr().cast()
}

fn coordinator_to_read(numbers: &[u64]) -> *const raw::tracker_desk {
    let record = numbers.first_chunk::<COORDINATOR_NUMBERS>();
    record.expect("the coordinator's record").as_ptr().cast()
}

/// So many messages that a call may write, and the number before them that gets their count.
struct Out<'a> {
    numbers: &'a mut [u64],
    count: u32,
}

impl Out<'_> {
    /// One number and so many messages.
    fn of(numbers: &mut [u64], messages: usize) -> Out<'_> {
        Out { numbers: &mut numbers[..1 + 4 * messages], count: UNWRITTEN }
    }

    fn messages(&mut self) -> *mut raw::tracker_message {
        self.numbers[1..].as_mut_ptr().cast()
    }

    /// After the call: its count stands before the messages, unless it was refused.
    fn counted(self, refusal: u32) -> u32 {
        if refusal == 0 {
            self.numbers[0] = u64::from(self.count);
        } else {
            assert_eq!(self.count, UNWRITTEN, "refused by {refusal}, a call changed its count");
        }
        refusal
    }
}

// SAFETY, for every call below and in the other files: each pointer and length are those of one
// slice that lives through the call, or a pointer is to a record within one; what is lent as `&mut`
// is separate from all else, since the types say so, and locals are.

/// Starts all sites; their records go to `sites`.
pub fn start_sites(settings: &[u32], memory: &mut [u32], sites: &mut [u64]) -> u32 {
    let (settings, sites) = (settings_of(settings), sites_of(sites));
    // SAFETY: see above.
    unsafe { raw::tracker_start_decks(settings, sites, memory.as_mut_ptr(), memory.len()) }
}

/// An arrival at a site with its own record and memory; `out` gets the number of messages, then two
/// messages.
pub fn observe(
    settings: &[u32],
    site: &mut [u64],
    [at, item, value]: [u32; 3],
    memory: &mut [u32],
    out: &mut [u64],
) -> u32 {
    let mut out = Out::of(out, 2);
    let messages = out.messages();
    // SAFETY: see above; two messages have their places.
    let refusal = unsafe {
        raw::tracker_deck_draw(
            settings_of(settings),
            at,
            site_of(site),
            memory.as_mut_ptr(),
            memory.len(),
            item,
            value,
            messages,
            &mut out.count,
        )
    };
    out.counted(refusal)
}

/// A message at site `which`; `out` gets the number of replies, then the reply.
pub fn receive_at_site(
    settings: &[u32],
    site: &mut [u64],
    which: u32,
    message: Message,
    memory: &[u32],
    out: &mut [u64],
) -> u32 {
    let mut out = Out::of(out, 1);
    let reply = out.messages();
    // SAFETY: see above.
    let refusal = unsafe {
        raw::tracker_deck_message(
            settings_of(settings),
            which,
            site_of(site),
            memory.as_ptr(),
            memory.len(),
            &message.to_raw(),
            reply,
            &mut out.count,
        )
    };
    out.counted(refusal)
}

/// Starts the coordinator; its record goes to `numbers`.
pub fn start_coordinator(settings: &[u32], memory: &mut [u64], numbers: &mut [u64]) -> u32 {
    let (settings, record) = (settings_of(settings), coordinator_of(numbers));
    // SAFETY: see above.
    unsafe { raw::tracker_start_desk(settings, record, memory.as_mut_ptr(), memory.len()) }
}

/// A message at the coordinator; `out` gets the number of messages, then the message.
pub fn receive_at_coordinator(
    settings: &[u32],
    numbers: &mut [u64],
    message: Message,
    memory: &mut [u64],
    out: &mut [u64],
) -> u32 {
    let mut out = Out::of(out, 1);
    let sent = out.messages();
    // SAFETY: see above.
    let refusal = unsafe {
        raw::tracker_desk_message(
            settings_of(settings),
            coordinator_of(numbers),
            memory.as_mut_ptr(),
            memory.len(),
            &message.to_raw(),
            sent,
            &mut out.count,
        )
    };
    out.counted(refusal)
}

/// The next kind 7; `out` gets the number of messages, which is 1, then the message.
pub fn next_announcement(
    settings: &[u32],
    numbers: &mut [u64],
    memory: &[u64],
    out: &mut [u64],
) -> u32 {
    let mut out = Out::of(out, 1);
    let (settings, record, sent) = (settings_of(settings), coordinator_of(numbers), out.messages());
    // SAFETY: see above.
    let refusal = unsafe {
        raw::tracker_desk_announcement(settings, record, memory.as_ptr(), memory.len(), sent)
    };
    // The call has no count: where it accepts there is one message.
    if refusal == 0 {
        out.count = 1;
    }
    out.counted(refusal)
}

/// The heavy hitters; `out` gets their number.
pub fn list_heavy_hitters(
    settings: &[u32],
    numbers: &[u64],
    memory: &[u64],
    list: &mut [u32],
    out: &mut [u64],
) -> u32 {
    let mut count = UNWRITTEN as usize;
    // SAFETY: see above.
    let refusal = unsafe {
        raw::tracker_desk_list(
            settings_of(settings),
            coordinator_to_read(numbers),
            memory.as_ptr(),
            memory.len(),
            list.as_mut_ptr(),
            list.len(),
            &mut count,
        )
    };
    if refusal == 0 {
        out[0] = count as u64;
    } else {
        assert_eq!(count, UNWRITTEN as usize, "refused by {refusal}, the list changed its count");
    }
    refusal
}

/// The refusal of a margin, and the margin, which is 0 where it is refused.
pub fn read_margin(settings: &[u32], numbers: &[u64], item: u32, memory: &[u64]) -> (u32, i64) {
    let unwritten = -i64::from(UNWRITTEN);
    let mut margin = unwritten;
    // SAFETY: see above.
    let refusal = unsafe {
        raw::tracker_desk_margin(
            settings_of(settings),
            coordinator_to_read(numbers),
            memory.as_ptr(),
            memory.len(),
            item,
            &mut margin,
        )
    };
    if refusal == 0 {
        return (0, margin);
    }
    assert_eq!(margin, unwritten, "refused by {refusal}, the margin changed");
    (refusal, 0)
}

/// The quantile; `out` gets 1 and its value, or 0 and 0.
pub fn read_quantile(settings: &[u32], numbers: &[u64], memory: &[u64], out: &mut [u64]) -> u32 {
    let mut value = UNWRITTEN;
    // SAFETY: see above.
    let refusal = unsafe {
        raw::tracker_desk_class(
            settings_of(settings),
            coordinator_to_read(numbers),
            memory.as_ptr(),
            memory.len(),
            &mut value,
        )
    };
    if refusal != 0 {
        assert_eq!(value, UNWRITTEN, "refused by {refusal}, the quantile changed");
    } else if value == raw::TRACKER_NO_CLASS {
        out[..2].copy_from_slice(&[0, 0]);
    } else {
        out[..2].copy_from_slice(&[1, u64::from(value)]);
    }
    refusal
}
