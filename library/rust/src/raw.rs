//! The calls of `tracker.h` and `controller.h`, word for word: the same names, the same order of
//! arguments, the same layout. What a caller owes, the headers say; [`crate::calls`] has the same
//! calls with nothing left to owe.

#![allow(non_camel_case_types)]

pub use crate::records::Counts as tracker_counts;
pub use crate::records::DeckRecord as tracker_deck;
pub use crate::records::DecksRecord as tracker_decks;
pub use crate::records::Delivery as tracker_delivery;
pub use crate::records::DeskRecord as tracker_desk;
pub use crate::values::Draw as tracker_draw;
pub use crate::values::Lengths as tracker_lengths;
pub use crate::values::Message as tracker_message;
pub use crate::values::Settings as tracker_settings;

/// The class that [`tracker_desk_class`] writes before the first draw.
pub const TRACKER_NO_CLASS: u32 = u32::MAX;

extern "C" {
    /// Tests settings. 1, 2, 3.
    pub fn tracker_test_settings(
        decks: u32,
        leeway: u32,
        share: u32,
        rank: u32,
        slots: u32,
        codes: u32,
    ) -> u32;

    /// The most messages that so many draws may cost. 1, 2, 3.
    pub fn tracker_allowance(
        decks: u32,
        leeway: u32,
        share: u32,
        rank: u32,
        slots: u32,
        codes: u32,
        draws: u64,
        messages: *mut u64,
    ) -> u32;

    /// Reads the first worklist line of some bytes. 13.
    pub fn tracker_test_line(
        bytes: *const u8,
        length: usize,
        deck: *mut u32,
        code: *mut u32,
        volume_class: *mut u32,
        used: *mut usize,
    ) -> u32;

    /// How much to lend. 1, 2, 3.
    pub fn tracker_test_lengths(
        settings: *const tracker_settings,
        lengths: *mut tracker_lengths,
    ) -> u32;

    /// Starts all decks. 1, 2, 3, 4.
    pub fn tracker_start_decks(
        settings: *const tracker_settings,
        decks: *mut tracker_decks,
        memory: *mut u32,
        numbers: usize,
    ) -> u32;

    /// Starts one deck. 1, 2, 3, 4, 5.
    pub fn tracker_start_deck(
        settings: *const tracker_settings,
        deck: u32,
        record: *mut tracker_deck,
        memory: *mut u32,
        numbers: usize,
    ) -> u32;

    /// Starts the desk. 1, 2, 3, 4.
    pub fn tracker_start_desk(
        settings: *const tracker_settings,
        desk: *mut tracker_desk,
        memory: *mut u64,
        numbers: usize,
    ) -> u32;

    /// A draw at one deck. 1, 2, 3, 4, 11, 5, 6, 7, 8.
    pub fn tracker_deck_draw(
        settings: *const tracker_settings,
        deck: u32,
        record: *mut tracker_deck,
        memory: *mut u32,
        numbers: usize,
        code: u32,
        volume_class: u32,
        out: *mut tracker_message,
        count: *mut u32,
    ) -> u32;

    /// A message at one deck. 1, 2, 3, 4, 11, 5, 9, 7, 10.
    pub fn tracker_deck_message(
        settings: *const tracker_settings,
        deck: u32,
        record: *mut tracker_deck,
        memory: *const u32,
        numbers: usize,
        message: *const tracker_message,
        reply: *mut tracker_message,
        count: *mut u32,
    ) -> u32;

    /// A draw at the deck that it names. 1, 2, 3, 4, 5, 11, 6, 7, 8.
    pub fn tracker_decks_draw(
        settings: *const tracker_settings,
        decks: *mut tracker_decks,
        memory: *mut u32,
        numbers: usize,
        draw: *const tracker_draw,
        out: *mut tracker_message,
        count: *mut u32,
    ) -> u32;

    /// A message at the deck that it names. 1, 2, 3, 4, 5, 11, 9, 7, 10.
    pub fn tracker_decks_message(
        settings: *const tracker_settings,
        decks: *mut tracker_decks,
        memory: *const u32,
        numbers: usize,
        message: *const tracker_message,
        reply: *mut tracker_message,
        count: *mut u32,
    ) -> u32;

    /// A message at the desk. 1, 2, 3, 4, 11, 5, 9, 6, 7, 10.
    pub fn tracker_desk_message(
        settings: *const tracker_settings,
        desk: *mut tracker_desk,
        memory: *mut u64,
        numbers: usize,
        message: *const tracker_message,
        out: *mut tracker_message,
        count: *mut u32,
    ) -> u32;

    /// The next kind 7 of a desk that announces. 1, 2, 3, 4, 11, 9.
    pub fn tracker_desk_announcement(
        settings: *const tracker_settings,
        desk: *mut tracker_desk,
        memory: *const u64,
        numbers: usize,
        out: *mut tracker_message,
    ) -> u32;

    /// A draw with full delivery. 1, 2, 3, 4, 11, 5, 6, 7, 8.
    pub fn tracker_deliver(
        settings: *const tracker_settings,
        decks: *mut tracker_decks,
        desk: *mut tracker_desk,
        deck_memory: *mut u32,
        deck_numbers: usize,
        desk_memory: *mut u64,
        desk_numbers: usize,
        draw: *const tracker_draw,
        delivery: *mut tracker_delivery,
    ) -> u32;

    /// Many draws with full delivery. 1, 2, 3, 4, 11, 5, 6, 7, 8, 14.
    pub fn tracker_run(
        settings: *const tracker_settings,
        decks: *mut tracker_decks,
        desk: *mut tracker_desk,
        draws: *const tracker_draw,
        count: usize,
        deck_memory: *mut u32,
        deck_numbers: usize,
        desk_memory: *mut u64,
        desk_numbers: usize,
        log: *mut tracker_message,
        log_numbers: usize,
        counts: *mut tracker_counts,
    ) -> u32;

    /// The listed codes. 1, 2, 3, 4, 11, 12.
    pub fn tracker_desk_list(
        settings: *const tracker_settings,
        desk: *const tracker_desk,
        memory: *const u64,
        numbers: usize,
        codes: *mut u32,
        places: usize,
        count: *mut usize,
    ) -> u32;

    /// The margin of a code. 1, 2, 3, 4, 11, 6.
    pub fn tracker_desk_margin(
        settings: *const tracker_settings,
        desk: *const tracker_desk,
        memory: *const u64,
        numbers: usize,
        code: u32,
        margin: *mut i64,
    ) -> u32;

    /// The tracked class. 1, 2, 3, 4, 11.
    pub fn tracker_desk_class(
        settings: *const tracker_settings,
        desk: *const tracker_desk,
        memory: *const u64,
        numbers: usize,
        volume_class: *mut u32,
    ) -> u32;

    /// How many bytes a saved bench has. 1, 2, 3.
    pub fn tracker_file_length(settings: *const tracker_settings, length: *mut usize) -> u32;

    /// A bench saved to bytes. 1, 2, 3, 4, 11.
    pub fn tracker_save(
        settings: *const tracker_settings,
        decks: *const tracker_decks,
        desk: *const tracker_desk,
        deck_memory: *const u32,
        deck_numbers: usize,
        desk_memory: *const u64,
        desk_numbers: usize,
        bytes: *mut u8,
        room: usize,
        length: *mut usize,
    ) -> u32;

    /// A bench read back from bytes. 15, 16, 1, 2, 3, 15, 4, 11.
    pub fn tracker_load(
        file: *const u8,
        length: usize,
        settings: *mut tracker_settings,
        decks: *mut tracker_decks,
        desk: *mut tracker_desk,
        deck_memory: *mut u32,
        deck_numbers: usize,
        desk_memory: *mut u64,
        desk_numbers: usize,
    ) -> u32;
}
