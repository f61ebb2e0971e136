//! The single numbers of decks and desk, laid out as C lays them out.
//!
//! They are written by the calls alone. Other numbers in them are never undefined: a call refuses
//! them (11) or steps them by the same rules; but what the tracker promises of list, class and
//! messages holds only for what its calls left. The `Default` of a record is all zeros, a place to
//! start into; it is not a started record, and calls refuse it (11).

use core::mem::size_of;

use crate::refusal::{reason, Refusal};
use crate::values::MOST_DECKS;

/// The record of one deck. Its default is a place to start into, not a started record.
#[repr(C)]
#[derive(Clone, Copy, Debug, Default, PartialEq, Eq)]
pub struct DeckRecord {
    /// Draws that the deck has taken.
    pub draws: u64,
    /// Draws of which the desk has not heard yet.
    pub pending: u64,
    /// How many make a message.
    pub threshold: u64,
    /// Slots in use.
    pub slots_in_use: u64,
    /// Draws that went, unsent, with codes that lost their slot.
    pub forgotten: u64,
}

/// The records of all decks of a bench, those from k on unused. Its default is a place to start
/// into, not started records.
#[repr(C)]
#[derive(Clone, Copy, Debug, PartialEq, Eq)]
pub struct DecksRecord {
    /// One record for each deck.
    pub deck: [DeckRecord; MOST_DECKS],
    /// For each deck the messages since the start that name it, to the desk and from it; the run
    /// over many draws alone adds what it writes. Those from k on are neither tested nor changed.
    pub messages: [u64; MOST_DECKS],
}

impl Default for DecksRecord {
    fn default() -> DecksRecord {
        DecksRecord { deck: [DeckRecord::default(); MOST_DECKS], messages: [0; MOST_DECKS] }
    }
}

/// The record of the desk. Its default is a place to start into, not a started record.
#[repr(C)]
#[derive(Clone, Copy, Debug, Default, PartialEq, Eq)]
pub struct DeskRecord {
    /// Draws that the desk knows of.
    pub total: u64,
    /// The total at the last close.
    pub base: u64,
    /// How many draws make a message.
    pub threshold: u64,
    /// Kind 2 messages since the last close.
    pub signals: u64,
    /// The class of the last halving; [`calls::desk_class`](crate::calls::desk_class) reads the
    /// tracked one.
    pub class: u64,
    /// Which phase: [`DeskRecord::IDLE`] and so on.
    pub phase: u64,
    /// The deck of the phase, or 0.
    pub phase_deck: u64,
    /// The least class of the interval that is probed, or 0.
    pub phase_low: u64,
    /// The largest class of the interval, or 0.
    pub phase_high: u64,
    /// The sum so far, or 0.
    pub phase_sum: u64,
}

impl DeskRecord {
    /// Phase: kinds 1 and 2 are due.
    pub const IDLE: u64 = 0;
    /// Phase: kind 4 is due from a deck.
    pub const COLLECTING: u64 = 1;
    /// Phase: kind 6 is due from a deck.
    pub const PROBING: u64 = 2;
    /// Phase: kinds 7 are to be asked for.
    pub const ANNOUNCING: u64 = 3;

    /// Whether kinds 1 and 2 are due. A bench is at rest, so that the next draw may come, if the
    /// desk is idle and no message is under way.
    pub const fn is_idle(&self) -> bool {
        self.phase == DeskRecord::IDLE
    }

    /// Whether the desk has a kind 7 to hand out.
    pub const fn is_announcing(&self) -> bool {
        self.phase == DeskRecord::ANNOUNCING
    }
}

/// What a draw with full delivery came to.
#[repr(C)]
#[derive(Clone, Copy, Debug, Default, PartialEq, Eq)]
pub struct Delivery {
    /// Messages that went out, each handed over once.
    pub carried: u64,
    /// 0, or the number of a refusal on the way, which no record or memory that arose meets.
    pub stopped: u64,
}

impl Delivery {
    /// The refusal that stopped the delivery on its way, if one did.
    pub fn stopped(&self) -> Option<Refusal> {
        reason(u32::try_from(self.stopped).unwrap_or(u32::MAX))
    }
}

/// How far a run over many draws came.
#[repr(C)]
#[derive(Clone, Copy, Debug, Default, PartialEq, Eq)]
pub struct Counts {
    /// Draws accepted, those of class 0 included.
    pub accepted: u64,
    /// Messages written to the log, from its first place on.
    pub written: u64,
}

const _: () = assert!(size_of::<DeckRecord>() == 5 * size_of::<u64>());
const _: () = assert!(size_of::<DecksRecord>() == 192 * size_of::<u64>());
const _: () = assert!(size_of::<DeskRecord>() == 10 * size_of::<u64>());
const _: () = assert!(size_of::<Delivery>() == 2 * size_of::<u64>());
const _: () = assert!(size_of::<Counts>() == 2 * size_of::<u64>());
