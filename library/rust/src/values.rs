//! Settings, draws and messages, laid out as C lays them out.

use core::mem::size_of;

use crate::raw;
use crate::refusal::{answer, Refusal};

/// The most decks of a bench.
pub const MOST_DECKS: usize = 32;
/// The most slots of a deck.
pub const MOST_SLOTS: u32 = 3000;
/// The most codes.
pub const MOST_CODES: u32 = 65536;
/// The largest volume class.
pub const TOP_CLASS: u32 = 1023;
/// How many volume classes there are, class 0 among them.
pub const CLASSES: usize = 1024;
/// The most codes that are listed between draws, under any settings.
pub const MOST_LISTED: usize = 1000;

/// The settings of a bench. Every call is given those that the bench was started with.
///
/// The fields are public and may hold any numbers, since every call tests its settings before it
/// looks at anything else (1, 2, 3). [`Settings::test`] is that test by itself.
#[repr(C)]
#[derive(Clone, Copy, Debug, PartialEq, Eq, Hash)]
pub struct Settings {
    /// Decks k, 1 to 32.
    pub decks: u32,
    /// Leeway e, 2 to 1000 thousandths.
    pub leeway: u32,
    /// List share p, 1 to 1000 thousandths, at least the leeway.
    pub share: u32,
    /// Rank q of the class that is tracked, 1 to 1000 thousandths.
    pub rank: u32,
    /// Slots c of each deck, 1 to 3000; slots times leeway is at least 6000.
    pub slots: u32,
    /// Codes u, 1 to 65536: a code is 0 to u - 1.
    pub codes: u32,
}

impl Settings {
    /// The settings test: 1, 2, 3.
    pub fn test(&self) -> Result<(), Refusal> {
        let Settings { decks, leeway, share, rank, slots, codes } = *self;
        // SAFETY: the call takes plain numbers, and any numbers.
        answer(unsafe { raw::tracker_test_settings(decks, leeway, share, rank, slots, codes) })
    }

    /// How much memory these settings ask for: 1, 2, 3.
    pub fn lengths(&self) -> Result<Lengths, Refusal> {
        let mut lengths = Lengths::default();
        // SAFETY: both are references to whole objects, and what is written is no part of the
        // other.
        answer(unsafe { raw::tracker_test_lengths(self, &mut lengths) })?;
        Ok(lengths)
    }

    /// How many bytes a bench of these settings has when it is saved: 1, 2, 3.
    pub fn file_length(&self) -> Result<usize, Refusal> {
        let mut length = 0;
        // SAFETY: as above.
        answer(unsafe { raw::tracker_file_length(self, &mut length) })?;
        Ok(length)
    }

    /// The settings at the begin of a saved bench: each a number of 8 bytes, the least first.
    /// `None` where there are fewer bytes, or a number that no setting holds. Nothing is tested.
    #[cfg(feature = "alloc")]
    pub(crate) fn of_file(file: &[u8]) -> Option<Settings> {
        let mut numbers = file.chunks_exact(8).map(|bytes| {
            u64::from_le_bytes(bytes.try_into().expect("chunks of 8 bytes")).try_into().ok()
        });
        let mut next = || numbers.next().flatten();
        Some(Settings {
            decks: next()?,
            leeway: next()?,
            share: next()?,
            rank: next()?,
            slots: next()?,
            codes: next()?,
        })
    }

    /// The most messages that so many draws may cost: 1, 2, 3. Class 0 is no draw and doesn't
    /// count.
    pub fn allowance(&self, draws: u64) -> Result<u64, Refusal> {
        let Settings { decks, leeway, share, rank, slots, codes } = *self;
        let mut messages = 0;
        // SAFETY: plain numbers, and a reference to one that is written.
        answer(unsafe {
            raw::tracker_allowance(decks, leeway, share, rank, slots, codes, draws, &mut messages)
        })?;
        Ok(messages)
    }
}

/// How much to lend, in numbers of 4 bytes (decks, list) or 8 (desk, log), never in bytes.
#[repr(C)]
#[derive(Clone, Copy, Debug, Default, PartialEq, Eq)]
pub struct Lengths {
    /// `u32`: the memory of one deck.
    pub deck_numbers: u64,
    /// `u32`: of all decks, one after another, deck 0 first.
    pub decks_numbers: u64,
    /// `u64`: the memory of the desk.
    pub desk_numbers: u64,
    /// `u32`: with so many places a list that is read between draws never meets 12. In
    /// mid-delivery, with a kind 1 handed over and its kind 2 waiting, it may.
    pub list_places: u64,
    /// `u64`: the least log with which a run takes a draw, four for each message.
    pub log_numbers: u64,
}

/// The `u32`s that the memory of a deck with so many slots takes.
pub const fn deck_numbers(slots: u32) -> usize {
    4 * slots as usize + CLASSES
}

/// The `u32`s that the memory of so many decks takes.
pub const fn decks_numbers(decks: u32, slots: u32) -> usize {
    decks as usize * deck_numbers(slots)
}

/// The `u64`s that the desk's memory takes.
pub const fn desk_numbers(codes: u32) -> usize {
    codes as usize + CLASSES
}

/// The bytes of a saved bench of so many decks, slots and codes.
pub const fn file_bytes(decks: u32, slots: u32, codes: u32) -> usize {
    let desk = 8 * (desk_numbers(codes) + 10 + decks as usize);
    let deck = 4 * (deck_numbers(slots) + 5);
    48 + desk + decks as usize * deck + 12
}

/// The most messages that follow one draw: a log of so many always takes one.
pub const fn most_messages(decks: u32) -> usize {
    23 * decks as usize + 2
}

/// A draw. Class 0 is none: the tip touched but took nothing. It is accepted and changes nothing.
#[repr(C)]
#[derive(Clone, Copy, Debug, Default, PartialEq, Eq, Hash)]
pub struct Draw {
    /// The deck, 0 to k - 1.
    pub deck: u32,
    /// The reagent's code, 0 to u - 1.
    pub code: u32,
    /// The volume class, 0 to 1023.
    pub class: u32,
}

impl Draw {
    /// Reads the first worklist line of some bytes: the draw, and how many bytes its line takes
    /// with the line feed. 13. Only the line's form is tested; the deck, code and class may be any
    /// that seven digits hold.
    pub fn parse(bytes: &[u8]) -> Result<(Draw, usize), Refusal> {
        let mut draw = Draw::default();
        let mut used = 0;
        // SAFETY: pointer and length are those of one slice, and the four numbers are separate.
        answer(unsafe {
            raw::tracker_test_line(
                bytes.as_ptr(),
                bytes.len(),
                &mut draw.deck,
                &mut draw.code,
                &mut draw.class,
                &mut used,
            )
        })?;
        Ok((draw, used))
    }
}

/// A message between a deck and the desk.
#[repr(C)]
#[derive(Clone, Copy, Debug, Default, PartialEq, Eq, Hash)]
pub struct Message {
    /// 1 to 7; 0 where a place for a message holds none.
    pub kind: u64,
    /// The deck that it comes from (kinds 1, 2, 4, 6) or goes to (3, 5, 7).
    pub deck: u64,
    /// The first number; document 01's table says what it is.
    pub a: u64,
    /// The second number.
    pub b: u64,
}

impl Message {
    /// What a place for a message holds where there is none: four zeros.
    pub const NONE: Message = Message { kind: 0, deck: 0, a: 0, b: 0 };

    /// The bytes of a message on the wire.
    pub const BYTES: usize = 24;

    /// Whether it goes to the deck that it names (kinds 3, 5, 7); all others go to the desk.
    pub const fn is_for_deck(&self) -> bool {
        matches!(self.kind, 3 | 5 | 7)
    }

    /// A message on the wire: kind and deck in 4 bytes each, then a and b in 8 each, the least byte
    /// first.
    ///
    /// Every message that a call hands out is the same after [`Message::from_bytes`]. A kind or
    /// deck above 2^32 - 1, which none has, goes out as 2^32 - 1: that is refused by the same
    /// number.
    pub fn to_bytes(&self) -> [u8; Message::BYTES] {
        let word = |number: u64| u32::try_from(number).unwrap_or(u32::MAX).to_le_bytes();
        let mut bytes = [0; Message::BYTES];
        bytes[..4].copy_from_slice(&word(self.kind));
        bytes[4..8].copy_from_slice(&word(self.deck));
        bytes[8..16].copy_from_slice(&self.a.to_le_bytes());
        bytes[16..].copy_from_slice(&self.b.to_le_bytes());
        bytes
    }

    /// The message of these bytes. Any bytes are one; whether it is due, the calls say.
    pub fn from_bytes(bytes: &[u8; Message::BYTES]) -> Message {
        // The number of so many bytes from a place on.
        let number = |from: usize, length: usize| {
            bytes[from..from + length]
                .iter()
                .rev()
                .fold(0, |high, &byte| high << 8 | u64::from(byte))
        };
        Message { kind: number(0, 4), deck: number(4, 4), a: number(8, 8), b: number(16, 8) }
    }
}

const _: () = assert!(size_of::<Settings>() == 6 * size_of::<u32>());
const _: () = assert!(size_of::<Draw>() == 3 * size_of::<u32>());
const _: () = assert!(size_of::<Message>() == 4 * size_of::<u64>());
const _: () = assert!(size_of::<Lengths>() == 5 * size_of::<u64>());
