//! One deck with its memory.

use alloc::vec;
use alloc::vec::Vec;

use crate::calls::{self, Sent};
use crate::records::DeckRecord;
use crate::refusal::Refusal;
use crate::values::{Draw, Message, Settings};

/// One deck with its memory, for a process that holds one.
///
/// Its messages go to a [`Desk`](crate::Desk) in another process. Whoever carries them hands over
/// each once, in the order of going out, and hands the next draw to a deck only when nothing waits.
///
/// ```
/// use draw_tracker::{Deck, Desk, Draw, Message, Settings};
///
/// let settings =
///     Settings { decks: 2, leeway: 1000, share: 1000, rank: 500, slots: 6, codes: 10 };
/// let mut deck = Deck::start(settings, 1)?; // in one process
/// let mut desk = Desk::start(settings)?; // in another
/// for message in deck.draw(Draw { deck: 1, code: 7, class: 3 })? {
///     let bytes = message.to_bytes(); // over the wire
///     assert_eq!(desk.receive(Message::from_bytes(&bytes))?, None);
/// }
/// assert_eq!(desk.listed()?, [7]);
/// # Ok::<(), draw_tracker::Refusal>(())
/// ```
#[derive(Clone, Debug, PartialEq, Eq)]
pub struct Deck {
    settings: Settings,
    number: u32,
    record: DeckRecord,
    memory: Vec<u32>,
}

impl Deck {
    /// Deck number `number`, started fresh. 1, 2, 3, 5; the settings are tested before anything is
    /// allocated.
    pub fn start(settings: Settings, number: u32) -> Result<Deck, Refusal> {
        let lengths = settings.lengths()?;
        let mut record = DeckRecord::default();
        let mut memory = vec![0; lengths.deck_numbers as usize];
        calls::start_deck(&settings, number, &mut record, &mut memory)?;
        Ok(Deck { settings, number, record, memory })
    }

    /// A deck of these parts. Nothing is tested here: each call tests what it is given, and refuses
    /// parts that don't belong together (1, 2, 3, 4, 11, 5).
    pub fn from_parts(
        settings: Settings,
        number: u32,
        record: DeckRecord,
        memory: Vec<u32>,
    ) -> Deck {
        Deck { settings, number, record, memory }
    }

    /// The record and the memory, for instance to save them.
    pub fn into_parts(self) -> (DeckRecord, Vec<u32>) {
        (self.record, self.memory)
    }

    /// The settings that the deck was started with.
    pub fn settings(&self) -> &Settings {
        &self.settings
    }

    /// Which deck it is.
    pub fn number(&self) -> u32 {
        self.number
    }

    /// Its record.
    pub fn record(&self) -> &DeckRecord {
        &self.record
    }

    /// Its memory: code, count, overcount and sent number of each slot, then 1024 class counts.
    pub fn memory(&self) -> &[u32] {
        &self.memory
    }

    /// A draw; the messages to send to the desk, two at most. A draw that names another deck is
    /// refused as one for a deck that there is none of. 5, 6, 7, 8, and 11 if the deck was made of
    /// parts that are inconsistent.
    pub fn draw(&mut self, draw: Draw) -> Result<Sent, Refusal> {
        // No bench has a deck of that number, so the call refuses it (5) after its other tests.
        let deck = if draw.deck == self.number { draw.deck } else { u32::MAX };
        let Deck { settings, record, memory, .. } = self;
        calls::deck_draw(settings, deck, record, memory, draw.code, draw.class)
    }

    /// A message from the desk (kind 3, 5, 7); what is to be sent in reply, if anything.
    /// 5, 9, 7, 10, and 11 as above.
    pub fn receive(&mut self, message: Message) -> Result<Option<Message>, Refusal> {
        let Deck { settings, number, record, memory } = self;
        calls::deck_message(settings, *number, record, memory, &message)
    }
}
