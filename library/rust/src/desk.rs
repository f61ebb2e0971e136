//! The desk with its memory.

use alloc::vec;
use alloc::vec::Vec;

use crate::calls;
use crate::records::DeskRecord;
use crate::refusal::Refusal;
use crate::values::{Message, Settings};

/// The desk with its memory, for a process that holds it alone.
///
/// After each message that it accepts, ask it for [`Desk::announcement`] until there is none: with
/// the last answer of a close, kinds 7 for all decks are due.
#[derive(Clone, Debug, PartialEq, Eq)]
pub struct Desk {
    settings: Settings,
    record: DeskRecord,
    memory: Vec<u64>,
}

impl Desk {
    /// The desk, started fresh. 1, 2, 3; the settings are tested before anything is allocated.
    pub fn start(settings: Settings) -> Result<Desk, Refusal> {
        let lengths = settings.lengths()?;
        let mut record = DeskRecord::default();
        let mut memory = vec![0; lengths.desk_numbers as usize];
        calls::start_desk(&settings, &mut record, &mut memory)?;
        Ok(Desk { settings, record, memory })
    }

    /// A desk of these parts. Nothing is tested here: each call tests what it is given, and refuses
    /// parts that don't belong together (1, 2, 3, 4, 11).
    pub fn from_parts(settings: Settings, record: DeskRecord, memory: Vec<u64>) -> Desk {
        Desk { settings, record, memory }
    }

    /// The record and the memory, for instance to save them.
    pub fn into_parts(self) -> (DeskRecord, Vec<u64>) {
        (self.record, self.memory)
    }

    /// The settings that the desk was started with.
    pub fn settings(&self) -> &Settings {
        &self.settings
    }

    /// Its record.
    pub fn record(&self) -> &DeskRecord {
        &self.record
    }

    /// Its memory: a number for each code, then 1024 class counts.
    pub fn memory(&self) -> &[u64] {
        &self.memory
    }

    /// A message from a deck (kind 1, 2, 4, 6); what is to be sent then, if anything.
    /// 5, 9, 6, 7, 10, and 11 if the desk was made of parts that are inconsistent.
    pub fn receive(&mut self, message: Message) -> Result<Option<Message>, Refusal> {
        calls::desk_message(&self.settings, &mut self.record, &mut self.memory, &message)
    }

    /// The next kind 7 to send, or none where the desk doesn't announce.
    pub fn announcement(&mut self) -> Result<Option<Message>, Refusal> {
        announcement(&self.settings, &mut self.record, &self.memory)
    }

    /// The listed codes, in rising order.
    pub fn listed(&self) -> Result<Vec<u32>, Refusal> {
        listed(&self.settings, &self.record, &self.memory)
    }

    /// How far a code is above the list rule, or below it. 6.
    pub fn margin(&self, code: u32) -> Result<i64, Refusal> {
        calls::desk_margin(&self.settings, &self.record, &self.memory, code)
    }

    /// The tracked class, or none before the first draw.
    pub fn class(&self) -> Result<Option<u32>, Refusal> {
        calls::desk_class(&self.settings, &self.record, &self.memory)
    }
}

/// The next kind 7; none where the call's answer is 9.
pub(crate) fn announcement(
    settings: &Settings,
    desk: &mut DeskRecord,
    memory: &[u64],
) -> Result<Option<Message>, Refusal> {
    match calls::desk_announcement(settings, desk, memory) {
        Ok(message) => Ok(Some(message)),
        Err(Refusal::MessageNotDue) => Ok(None),
        Err(refusal) => Err(refusal),
    }
}

/// The list, with the places that it needs after whole deliveries; in mid-delivery, or for parts
/// that never arose, it may need more, but never more than there are codes.
pub(crate) fn listed(
    settings: &Settings,
    desk: &DeskRecord,
    memory: &[u64],
) -> Result<Vec<u32>, Refusal> {
    let lengths = settings.lengths()?;
    let mut codes = vec![0; lengths.list_places as usize];
    let mut listed = calls::desk_list(settings, desk, memory, &mut codes).map(<[u32]>::len);
    if listed == Err(Refusal::ListTooShort) {
        codes.resize(settings.codes as usize, 0);
        listed = calls::desk_list(settings, desk, memory, &mut codes).map(<[u32]>::len);
    }
    codes.truncate(listed?);
    Ok(codes)
}
