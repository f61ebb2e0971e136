//! A whole bench with its memory.

use alloc::vec;
use alloc::vec::Vec;

use crate::calls::{self, Loaded, Run, Sent};
use crate::desk;
use crate::records::{DeckRecord, DecksRecord, Delivery, DeskRecord};
use crate::refusal::Refusal;
use crate::values::{deck_numbers, most_messages, Draw, Message, Settings};

/// How many messages [`Bench::run_all`] takes into its log beside those of one draw.
const LOG_PLACES: usize = 4096;

/// All decks and the desk in one process, with the memory that they need.
///
/// Draws are taken one by one ([`Bench::draw`], then deliver; or [`Bench::deliver`], which does
/// both) or many at a time ([`Bench::run`], [`Bench::run_all`]). A single draw with the delivery
/// written out:
///
/// ```
/// use draw_tracker::{Bench, Draw, Settings};
/// use std::collections::VecDeque;
///
/// # let settings =
/// #     Settings { decks: 1, leeway: 1000, share: 1000, rank: 500, slots: 6, codes: 10 };
/// let mut bench = Bench::start(settings)?;
/// let mut waiting: VecDeque<_> =
///     bench.draw(Draw { deck: 0, code: 7, class: 3 })?.into_iter().collect();
/// let mut carried = 0;
/// loop {
///     let message = match waiting.pop_front() {
///         Some(message) => message,
///         None => match bench.announcement()? {
///             Some(announcement) => announcement,
///             None => break,
///         },
///     };
///     carried += 1;
///     waiting.extend(bench.hand_over(message)?);
/// }
/// assert_eq!(carried, 5);
/// # Ok::<(), draw_tracker::Refusal>(())
/// ```
#[derive(Clone, Debug, PartialEq, Eq)]
pub struct Bench {
    parts: BenchParts,
}

/// What a bench is made of, for a caller that stores it his own way or brings memory of his own.
#[derive(Clone, Debug, PartialEq, Eq)]
pub struct BenchParts {
    /// The settings that it was started with.
    pub settings: Settings,
    /// The decks' records.
    pub decks: DecksRecord,
    /// The desk's record.
    pub desk: DeskRecord,
    /// The decks' memory, one after another, deck 0 first.
    pub deck_memory: Vec<u32>,
    /// The desk's memory.
    pub desk_memory: Vec<u64>,
}

impl Bench {
    /// A bench started fresh. 1, 2, 3; the settings are tested before anything is allocated.
    pub fn start(settings: Settings) -> Result<Bench, Refusal> {
        let lengths = settings.lengths()?;
        let mut parts = BenchParts {
            settings,
            decks: DecksRecord::default(),
            desk: DeskRecord::default(),
            deck_memory: vec![0; lengths.decks_numbers as usize],
            desk_memory: vec![0; lengths.desk_numbers as usize],
        };
        calls::start_decks(&settings, &mut parts.decks, &mut parts.deck_memory)?;
        calls::start_desk(&settings, &mut parts.desk, &mut parts.desk_memory)?;
        Ok(Bench { parts })
    }

    /// A bench read back from a file that [`Bench::save`] wrote: it goes on exactly as the one that
    /// was saved. The settings are the file's, and the memory is allocated as they ask; all of
    /// `file` is taken for the file, and nothing after it. Messages that were on their way when it
    /// was saved are not in it: hand them over now.
    ///
    /// 15, 16, 1, 2, 3, 15, 11. No memory is allocated for a file whose length is not the one that
    /// its settings give, so never more than its own bytes.
    pub fn open(file: &[u8]) -> Result<Bench, Refusal> {
        let (deck_numbers, desk_numbers) = memory_of_file(file).unwrap_or((0, 0));
        let (mut deck_memory, mut desk_memory) = (vec![0; deck_numbers], vec![0; desk_numbers]);
        let loaded = calls::load(file, &mut deck_memory, &mut desk_memory)?;
        let Loaded { settings, decks, desk } = loaded;
        Ok(Bench { parts: BenchParts { settings, decks, desk, deck_memory, desk_memory } })
    }

    /// How many bytes [`Bench::save`] writes. 1, 2, 3 if the bench was made of parts whose settings
    /// don't pass.
    pub fn file_length(&self) -> Result<usize, Refusal> {
        self.parts.settings.file_length()
    }

    /// Saves the bench to the front of `bytes` and answers how many were written, which is
    /// [`Bench::file_length`]; the bytes after them stay. Fewer are 4. A bench in mid-delivery is
    /// saved too, but without the messages on their way: keep them, and hand them over after
    /// [`Bench::open`]. 1, 2, 3, 4 and 11 also if the bench was made of such parts.
    ///
    /// ```
    /// use draw_tracker::{Bench, Draw, Settings};
    ///
    /// # let settings =
    /// #     Settings { decks: 1, leeway: 1000, share: 1000, rank: 500, slots: 6, codes: 10 };
    /// let mut bench = Bench::start(settings)?;
    /// bench.deliver(Draw { deck: 0, code: 7, class: 3 })?;
    /// let mut bytes = vec![0; bench.file_length()?];
    /// bench.save(&mut bytes)?;
    ///
    /// let opened = Bench::open(&bytes)?;
    /// assert_eq!(opened, bench);
    /// # Ok::<(), draw_tracker::Refusal>(())
    /// ```
    pub fn save(&self, bytes: &mut [u8]) -> Result<usize, Refusal> {
        let BenchParts { settings, decks, desk, deck_memory, desk_memory } = &self.parts;
        calls::save(settings, decks, desk, deck_memory, desk_memory, bytes)
    }

    /// A bench of these parts. Nothing is tested here: each call tests what it is given, and
    /// refuses parts that don't belong together (1, 2, 3, 4, 11).
    pub fn from_parts(parts: BenchParts) -> Bench {
        Bench { parts }
    }

    /// The parts, for instance to store them some other way than [`Bench::save`] does.
    pub fn into_parts(self) -> BenchParts {
        self.parts
    }

    /// The same, to be read.
    pub fn parts(&self) -> &BenchParts {
        &self.parts
    }

    /// The settings that the bench was started with.
    pub fn settings(&self) -> &Settings {
        &self.parts.settings
    }

    /// The record of a deck, if there is such a deck.
    pub fn deck(&self, number: u32) -> Option<&DeckRecord> {
        let decks = self.parts.settings.decks as usize;
        self.parts.decks.deck.iter().take(decks).nth(number as usize)
    }

    /// The memory of a deck, if there is such a deck.
    pub fn deck_memory(&self, number: u32) -> Option<&[u32]> {
        let Settings { decks, slots, .. } = self.parts.settings;
        let parts = self.parts.deck_memory.chunks_exact(deck_numbers(slots));
        parts.take(decks as usize).nth(number as usize)
    }

    /// The desk's record.
    pub fn desk(&self) -> &DeskRecord {
        &self.parts.desk
    }

    /// The desk's memory.
    pub fn desk_memory(&self) -> &[u64] {
        &self.parts.desk_memory
    }

    /// Messages that runs have written since the start, at all decks: the planner's total, to be
    /// compared with [`Settings::allowance`]. What single draws send doesn't count here. (A sum
    /// beyond `u64::MAX` is given as that; no call takes a bench of such parts.)
    pub fn messages(&self) -> u64 {
        self.message_counts().fold(0, u64::saturating_add)
    }

    /// Of these messages the ones of a deck, if there is such a deck: those that name it, to the
    /// desk and from it.
    ///
    /// ```
    /// use draw_tracker::{Bench, Draw, Settings};
    ///
    /// # let settings =
    /// #     Settings { decks: 2, leeway: 1000, share: 1000, rank: 500, slots: 6, codes: 10 };
    /// let mut bench = Bench::start(settings)?;
    /// let draws = [Draw { deck: 0, code: 7, class: 3 }, Draw { deck: 1, code: 7, class: 3 }];
    /// bench.run_all(&draws, |_message| ()).whole()?;
    /// assert_eq!((bench.messages_of(0), bench.messages_of(1)), (Some(5), Some(5)));
    /// assert_eq!(bench.messages_of(2), None);
    /// assert_eq!(bench.messages(), 10);
    /// # Ok::<(), draw_tracker::Refusal>(())
    /// ```
    pub fn messages_of(&self, deck: u32) -> Option<u64> {
        self.message_counts().nth(deck as usize)
    }

    /// The counts of the decks that the bench has.
    fn message_counts(&self) -> impl Iterator<Item = u64> + '_ {
        let decks = self.parts.settings.decks as usize;
        self.parts.decks.messages.iter().copied().take(decks)
    }

    /// A draw; the messages to hand over, two at most. Deliver them all before the next draw.
    /// 5, 6, 7, 8, and 11 if the bench was made of parts that are inconsistent.
    pub fn draw(&mut self, draw: Draw) -> Result<Sent, Refusal> {
        let BenchParts { settings, decks, deck_memory, .. } = &mut self.parts;
        calls::decks_draw(settings, decks, deck_memory, &draw)
    }

    /// Hands a message to the deck or desk that it is for; what is to be handed over then, if
    /// anything. 5, 9, 6, 7, 10, and 11 as above.
    pub fn hand_over(&mut self, message: Message) -> Result<Option<Message>, Refusal> {
        let BenchParts { settings, decks, desk, deck_memory, desk_memory } = &mut self.parts;
        if message.is_for_deck() {
            calls::decks_message(settings, decks, deck_memory, &message)
        } else {
            calls::desk_message(settings, desk, desk_memory, &message)
        }
    }

    /// The next kind 7, or none where the desk doesn't announce. It may be asked for while other
    /// messages wait, and is handed over after them.
    pub fn announcement(&mut self) -> Result<Option<Message>, Refusal> {
        let BenchParts { settings, desk, desk_memory, .. } = &mut self.parts;
        desk::announcement(settings, desk, desk_memory)
    }

    /// A draw with full delivery. It tests all memory first: a desk that is not at rest is 11.
    pub fn deliver(&mut self, draw: Draw) -> Result<Delivery, Refusal> {
        let BenchParts { settings, decks, desk, deck_memory, desk_memory } = &mut self.parts;
        calls::deliver(settings, decks, desk, deck_memory, desk_memory, &draw)
    }

    /// Many draws with full delivery; the messages go to `log`. See [`calls::run`].
    #[must_use = "a run may stop before its last draw"]
    pub fn run(&mut self, draws: &[Draw], log: &mut [Message]) -> Run {
        let BenchParts { settings, decks, desk, deck_memory, desk_memory } = &mut self.parts;
        calls::run(settings, decks, desk, deck_memory, desk_memory, draws, log)
    }

    /// The same for any number of draws: each message is handed to `each`, in order, and whenever
    /// the log is full it is emptied and the run goes on. So it stops by anything but 14. The log
    /// is allocated for the call, some thousand messages long.
    #[must_use = "a run may stop before its last draw"]
    pub fn run_all(&mut self, draws: &[Draw], each: impl FnMut(Message)) -> Run {
        // Settings are tested in the run; this only keeps the log small if they are out of range.
        let decks = self.parts.settings.decks.min(crate::MOST_DECKS as u32);
        let mut log = vec![Message::NONE; most_messages(decks) + LOG_PLACES];
        self.run_all_with(draws, &mut log, each)
    }

    /// The same with a log of the caller's. It is stopped by 14 only if the log has no place for
    /// the messages of one draw even when it is empty.
    #[must_use = "a run may stop before its last draw"]
    pub fn run_all_with(
        &mut self,
        draws: &[Draw],
        log: &mut [Message],
        mut each: impl FnMut(Message),
    ) -> Run {
        let mut all = Run { accepted: 0, written: 0, stopped: None };
        loop {
            let run = self.run(&draws[all.accepted..], log);
            log[..run.written].iter().copied().for_each(&mut each);
            all.accepted += run.accepted;
            all.written += run.written;
            all.stopped = run.stopped;
            // With nothing accepted, an empty log was too short.
            if run.stopped != Some(Refusal::LogTooShort) || run.accepted == 0 {
                return all;
            }
        }
    }

    /// The listed codes, in rising order.
    pub fn listed(&self) -> Result<Vec<u32>, Refusal> {
        desk::listed(&self.parts.settings, &self.parts.desk, &self.parts.desk_memory)
    }

    /// How far a code is above the list rule, or below it. 6.
    pub fn margin(&self, code: u32) -> Result<i64, Refusal> {
        let BenchParts { settings, desk, desk_memory, .. } = &self.parts;
        calls::desk_margin(settings, desk, desk_memory, code)
    }

    /// The tracked class, or none before the first draw.
    pub fn class(&self) -> Result<Option<u32>, Refusal> {
        let BenchParts { settings, desk, desk_memory, .. } = &self.parts;
        calls::desk_class(settings, desk, desk_memory)
    }
}

/// The numbers of the decks' and the desk's memory that the settings of a file ask for, if they
/// pass and give the file's length. A file without is refused whatever memory it is read into.
fn memory_of_file(file: &[u8]) -> Option<(usize, usize)> {
    let settings = Settings::of_file(file)?;
    let lengths = settings.lengths().ok()?;
    let fits = settings.file_length() == Ok(file.len());
    fits.then_some((lengths.decks_numbers as usize, lengths.desk_numbers as usize))
}
