//! Every call of `tracker.h` over what the caller lends: records by reference, memory as slices.
//!
//! References are never null and what is written overlaps nothing else, so nothing is left that a
//! caller would owe. Each call answers its refusals in the order of the numbers that stand with it.
//! A refused call changes nothing that it was lent; [`run`] alone says how far it came.
//!
//! Lent memory may be longer than the settings ask for: the rest is neither read nor changed.

use core::ops::Deref;

use crate::raw;
use crate::records::{Counts, DeckRecord, DecksRecord, Delivery, DeskRecord};
use crate::refusal::{answer, reason, Refusal};
use crate::values::{Draw, Message, Settings};

// SAFETY, for every call below: a pointer to a record, a message or a number comes from a reference
// to one whole object; a pointer with a length is those of one slice; all live through the call.
// What is written comes from `&mut` or is a local, so it overlaps nothing else. No number in them
// is undefined to the calls. Where a call needs more, it stands there.

/// The messages that a draw sends: none, one or two, in the order in which they go out.
#[derive(Clone, Copy, Debug, Default, PartialEq, Eq)]
pub struct Sent {
    messages: [Message; 2],
    count: u32,
}

impl Deref for Sent {
    type Target = [Message];

    fn deref(&self) -> &[Message] {
        let [first, _] = &self.messages;
        match self.count {
            0 => &[],
            1 => core::slice::from_ref(first),
            _ => &self.messages,
        }
    }
}

impl IntoIterator for Sent {
    type Item = Message;
    type IntoIter = core::iter::Take<core::array::IntoIter<Message, 2>>;

    fn into_iter(self) -> Self::IntoIter {
        self.messages.into_iter().take(self.count as usize)
    }
}

/// How far a run over many draws came, and why it stopped if it did.
#[derive(Clone, Copy, Debug, PartialEq, Eq)]
pub struct Run {
    /// Draws accepted, those of class 0 included: go on at this place.
    pub accepted: usize,
    /// Messages written.
    pub written: usize,
    /// The refusal of the draw at `accepted`, or of the whole call; none if all draws were taken.
    pub stopped: Option<Refusal>,
}

impl Run {
    /// An error unless all draws were taken.
    pub fn whole(self) -> Result<Run, Refusal> {
        match self.stopped {
            None => Ok(self),
            Some(refusal) => Err(refusal),
        }
    }
}

/// Starts all decks: every number of their memory becomes 0. 1, 2, 3, 4.
pub fn start_decks(
    settings: &Settings,
    decks: &mut DecksRecord,
    memory: &mut [u32],
) -> Result<(), Refusal> {
    // SAFETY: see above.
    answer(unsafe { raw::tracker_start_decks(settings, decks, memory.as_mut_ptr(), memory.len()) })
}

/// Starts deck number `deck` alone. 1, 2, 3, 4, 5.
pub fn start_deck(
    settings: &Settings,
    deck: u32,
    record: &mut DeckRecord,
    memory: &mut [u32],
) -> Result<(), Refusal> {
    // SAFETY: see above.
    answer(unsafe {
        raw::tracker_start_deck(settings, deck, record, memory.as_mut_ptr(), memory.len())
    })
}

/// Starts the desk. 1, 2, 3, 4.
pub fn start_desk(
    settings: &Settings,
    desk: &mut DeskRecord,
    memory: &mut [u64],
) -> Result<(), Refusal> {
    // SAFETY: see above.
    answer(unsafe { raw::tracker_start_desk(settings, desk, memory.as_mut_ptr(), memory.len()) })
}

/// A draw at deck number `deck`, with its own record and its own part of the memory.
/// 1, 2, 3, 4, 11, 5, 6, 7, 8.
pub fn deck_draw(
    settings: &Settings,
    deck: u32,
    record: &mut DeckRecord,
    memory: &mut [u32],
    code: u32,
    class: u32,
) -> Result<Sent, Refusal> {
    let mut sent = Sent::default();
    // SAFETY: see above; `out` points to the two places that the call may write.
    answer(unsafe {
        raw::tracker_deck_draw(
            settings,
            deck,
            record,
            memory.as_mut_ptr(),
            memory.len(),
            code,
            class,
            sent.messages.as_mut_ptr(),
            &mut sent.count,
        )
    })?;
    Ok(sent)
}

/// A message (kind 3, 5, 7) at deck number `deck`; what is to be sent in reply, if anything.
/// 1, 2, 3, 4, 11, 5, 9, 7, 10.
pub fn deck_message(
    settings: &Settings,
    deck: u32,
    record: &mut DeckRecord,
    memory: &[u32],
    message: &Message,
) -> Result<Option<Message>, Refusal> {
    let (mut reply, mut count) = (Message::NONE, 0);
    // SAFETY: see above.
    answer(unsafe {
        raw::tracker_deck_message(
            settings,
            deck,
            record,
            memory.as_ptr(),
            memory.len(),
            message,
            &mut reply,
            &mut count,
        )
    })?;
    Ok((count == 1).then_some(reply))
}

/// A draw at the deck that it names, where one process holds all decks. 4 is tested of all decks'
/// memory, 11 of that deck's alone. 1, 2, 3, 4, 5, 11, 6, 7, 8.
pub fn decks_draw(
    settings: &Settings,
    decks: &mut DecksRecord,
    memory: &mut [u32],
    draw: &Draw,
) -> Result<Sent, Refusal> {
    let mut sent = Sent::default();
    // SAFETY: see above; `out` points to the two places that the call may write.
    answer(unsafe {
        raw::tracker_decks_draw(
            settings,
            decks,
            memory.as_mut_ptr(),
            memory.len(),
            draw,
            sent.messages.as_mut_ptr(),
            &mut sent.count,
        )
    })?;
    Ok(sent)
}

/// A message (kind 3, 5, 7) at the deck that it names, where one process holds all decks.
/// 1, 2, 3, 4, 5, 11, 9, 7, 10.
pub fn decks_message(
    settings: &Settings,
    decks: &mut DecksRecord,
    memory: &[u32],
    message: &Message,
) -> Result<Option<Message>, Refusal> {
    let (mut reply, mut count) = (Message::NONE, 0);
    // SAFETY: see above.
    answer(unsafe {
        raw::tracker_decks_message(
            settings,
            decks,
            memory.as_ptr(),
            memory.len(),
            message,
            &mut reply,
            &mut count,
        )
    })?;
    Ok((count == 1).then_some(reply))
}

/// A message (kind 1, 2, 4, 6) at the desk; what is to be sent then, if anything.
/// 1, 2, 3, 4, 11, 5, 9, 6, 7, 10.
pub fn desk_message(
    settings: &Settings,
    desk: &mut DeskRecord,
    memory: &mut [u64],
    message: &Message,
) -> Result<Option<Message>, Refusal> {
    let (mut out, mut count) = (Message::NONE, 0);
    // SAFETY: see above.
    answer(unsafe {
        raw::tracker_desk_message(
            settings,
            desk,
            memory.as_mut_ptr(),
            memory.len(),
            message,
            &mut out,
            &mut count,
        )
    })?;
    Ok((count == 1).then_some(out))
}

/// The next kind 7 of a desk that announces ([`DeskRecord::is_announcing`]); 9 from any other.
/// 1, 2, 3, 4, 11, 9.
pub fn desk_announcement(
    settings: &Settings,
    desk: &mut DeskRecord,
    memory: &[u64],
) -> Result<Message, Refusal> {
    let mut out = Message::NONE;
    // SAFETY: see above.
    answer(unsafe {
        raw::tracker_desk_announcement(settings, desk, memory.as_ptr(), memory.len(), &mut out)
    })?;
    Ok(out)
}

/// One draw and all that follows it. All memory is tested first, as [`run`] tests it, so a desk
/// that is not at rest is 11. 1, 2, 3, 4, 11, 5, 6, 7, 8.
pub fn deliver(
    settings: &Settings,
    decks: &mut DecksRecord,
    desk: &mut DeskRecord,
    deck_memory: &mut [u32],
    desk_memory: &mut [u64],
    draw: &Draw,
) -> Result<Delivery, Refusal> {
    let mut delivery = Delivery::default();
    // SAFETY: see above.
    answer(unsafe {
        raw::tracker_deliver(
            settings,
            decks,
            desk,
            deck_memory.as_mut_ptr(),
            deck_memory.len(),
            desk_memory.as_mut_ptr(),
            desk_memory.len(),
            draw,
            &mut delivery,
        )
    })?;
    Ok(delivery)
}

/// Takes draws in their order, delivers everything after each, and writes each message to the log.
/// Stops at the first draw that is refused; what the draws before it brought stays. On 14 take the
/// messages out of the log and go on at `accepted`; a log of
/// [`most_messages`](crate::most_messages) places always takes a draw. Each message is counted in
/// `decks`, at the deck that it names. 1, 2, 3, 4, 11, 5, 6, 7, 8, 14.
#[must_use = "a run may stop before its last draw"]
pub fn run(
    settings: &Settings,
    decks: &mut DecksRecord,
    desk: &mut DeskRecord,
    deck_memory: &mut [u32],
    desk_memory: &mut [u64],
    draws: &[Draw],
    log: &mut [Message],
) -> Run {
    let mut counts = Counts::default();
    // SAFETY: see above; a message is four numbers, so the log is so many numbers long. No slice
    // has more bytes than half the addresses, so the product is in range.
    let number = unsafe {
        raw::tracker_run(
            settings,
            decks,
            desk,
            draws.as_ptr(),
            draws.len(),
            deck_memory.as_mut_ptr(),
            deck_memory.len(),
            desk_memory.as_mut_ptr(),
            desk_memory.len(),
            log.as_mut_ptr(),
            4 * log.len(),
            &mut counts,
        )
    };
    let (accepted, written) = (counts.accepted as usize, counts.written as usize);
    Run { accepted, written, stopped: reason(number) }
}

/// The listed codes in rising order, as the front of `codes`; the places after them stay.
/// 1, 2, 3, 4, 11, 12.
pub fn desk_list<'a>(
    settings: &Settings,
    desk: &DeskRecord,
    memory: &[u64],
    codes: &'a mut [u32],
) -> Result<&'a [u32], Refusal> {
    let mut count = 0;
    // SAFETY: see above.
    answer(unsafe {
        raw::tracker_desk_list(
            settings,
            desk,
            memory.as_ptr(),
            memory.len(),
            codes.as_mut_ptr(),
            codes.len(),
            &mut count,
        )
    })?;
    Ok(&codes[..count])
}

/// How far a code is above the list rule (0 or more: listed, once there is a draw) or below it.
/// 1, 2, 3, 4, 11, 6.
pub fn desk_margin(
    settings: &Settings,
    desk: &DeskRecord,
    memory: &[u64],
    code: u32,
) -> Result<i64, Refusal> {
    let mut margin = 0;
    // SAFETY: see above.
    answer(unsafe {
        raw::tracker_desk_margin(settings, desk, memory.as_ptr(), memory.len(), code, &mut margin)
    })?;
    Ok(margin)
}

/// The tracked class, or none before the first draw. 1, 2, 3, 4, 11.
pub fn desk_class(
    settings: &Settings,
    desk: &DeskRecord,
    memory: &[u64],
) -> Result<Option<u32>, Refusal> {
    let mut class = raw::TRACKER_NO_CLASS;
    // SAFETY: see above.
    answer(unsafe {
        raw::tracker_desk_class(settings, desk, memory.as_ptr(), memory.len(), &mut class)
    })?;
    Ok((class != raw::TRACKER_NO_CLASS).then_some(class))
}

/// Saves a bench, in mid-delivery too, to the front of `bytes` and answers the file's length
/// ([`Settings::file_length`]); the bytes after it stay. Messages on their way are not in the file:
/// whoever saves in mid-delivery keeps them. 1, 2, 3, 4 (the bytes too), 11.
pub fn save(
    settings: &Settings,
    decks: &DecksRecord,
    desk: &DeskRecord,
    deck_memory: &[u32],
    desk_memory: &[u64],
    bytes: &mut [u8],
) -> Result<usize, Refusal> {
    let mut length = 0;
    // SAFETY: see above.
    answer(unsafe {
        raw::tracker_save(
            settings,
            decks,
            desk,
            deck_memory.as_ptr(),
            deck_memory.len(),
            desk_memory.as_ptr(),
            desk_memory.len(),
            bytes.as_mut_ptr(),
            bytes.len(),
            &mut length,
        )
    })?;
    Ok(length)
}

/// What a file holds beside the memory: the settings and the records of the bench that was saved.
/// The records of decks that it hasn't are fresh.
#[derive(Clone, Copy, Debug, PartialEq, Eq)]
pub struct Loaded {
    /// The settings that it was started with.
    pub settings: Settings,
    /// The decks' records, and their counts of messages.
    pub decks: DecksRecord,
    /// The desk's record.
    pub desk: DeskRecord,
}

/// Reads a bench back from a file, which is all of `file`, into lent memory. How much it needs, the
/// settings in the file say; what is lent beyond that stays, and a refused file leaves all as it
/// was. 15, 16, 1, 2, 3, 15, 4, 11.
pub fn load(
    file: &[u8],
    deck_memory: &mut [u32],
    desk_memory: &mut [u64],
) -> Result<Loaded, Refusal> {
    let settings = Settings { decks: 0, leeway: 0, share: 0, rank: 0, slots: 0, codes: 0 };
    let (decks, desk) = (DecksRecord::default(), DeskRecord::default());
    let mut loaded = Loaded { settings, decks, desk };
    // SAFETY: see above.
    answer(unsafe {
        raw::tracker_load(
            file.as_ptr(),
            file.len(),
            &mut loaded.settings,
            &mut loaded.decks,
            &mut loaded.desk,
            deck_memory.as_mut_ptr(),
            deck_memory.len(),
            desk_memory.as_mut_ptr(),
            desk_memory.len(),
        )
    })?;
    Ok(loaded)
}
