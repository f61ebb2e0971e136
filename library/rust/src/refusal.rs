//! Why a call was refused.

use core::fmt;

/// Why a call was refused: document 01's table "Refused", with its numbers.
///
/// These are all. Each call's promise lists the numbers that it may answer, and is proved, so there
/// is no case for a number beyond them: a match over the sixteen is whole. An archive that answers
/// another number is not the one that belongs to this crate; then the crate panics and says so,
/// since nothing else that such an archive answers could be trusted.
#[derive(Clone, Copy, Debug, PartialEq, Eq, PartialOrd, Ord, Hash)]
#[repr(u32)]
pub enum Refusal {
    /// A setting is outside its range.
    SettingOutOfRange = 1,
    /// The list share p is below the leeway e.
    ShareBelowLeeway = 2,
    /// Slots times leeway, c × e, is below 6000.
    TooFewSlots = 3,
    /// Lent memory is shorter than the settings ask for.
    MemoryTooShort = 4,
    /// A deck is not below k.
    UnknownDeck = 5,
    /// A code is not below u.
    UnknownCode = 6,
    /// A class is above 1023.
    ClassTooLarge = 7,
    /// The deck has taken 1,000,000,000 draws.
    DeckFull = 8,
    /// A message's kind is unknown, or not due now, here or from this deck.
    MessageNotDue = 9,
    /// An amount of a message that cannot be right.
    AmountNotDue = 10,
    /// Record or memory is none that the calls leave.
    MemoryInconsistent = 11,
    /// The list has fewer places than codes are listed.
    ListTooShort = 12,
    /// A line is not deck;code;class and a line feed.
    MalformedLine = 13,
    /// The log lacks the places of one draw's messages.
    LogTooShort = 14,
    /// A file is too short for one, or not laid out as its settings ask.
    FileUnreadable = 15,
    /// The sum of a file's bytes is not the one that it ends with.
    ChecksumWrong = 16,
}

impl Refusal {
    /// All refusals, in the order of their numbers.
    pub const ALL: [Refusal; 16] = [
        Refusal::SettingOutOfRange,
        Refusal::ShareBelowLeeway,
        Refusal::TooFewSlots,
        Refusal::MemoryTooShort,
        Refusal::UnknownDeck,
        Refusal::UnknownCode,
        Refusal::ClassTooLarge,
        Refusal::DeckFull,
        Refusal::MessageNotDue,
        Refusal::AmountNotDue,
        Refusal::MemoryInconsistent,
        Refusal::ListTooShort,
        Refusal::MalformedLine,
        Refusal::LogTooShort,
        Refusal::FileUnreadable,
        Refusal::ChecksumWrong,
    ];

    /// Document 01's number, 1 to 14, or request N3's, 15 and 16.
    pub const fn number(self) -> u32 {
        self as u32
    }

    /// The refusal with this number; `None` for 0, which is no refusal, and above 16.
    pub fn from_number(number: u32) -> Option<Refusal> {
        let place = number.checked_sub(1)?;
        Refusal::ALL.get(place as usize).copied()
    }

    /// The same in plain words.
    pub const fn text(self) -> &'static str {
        match self {
            Refusal::SettingOutOfRange => "a setting is outside its range",
            Refusal::ShareBelowLeeway => "the list share is below the leeway",
            Refusal::TooFewSlots => "slots times leeway is below 6000",
            Refusal::MemoryTooShort => "memory is shorter than the settings ask for",
            Refusal::UnknownDeck => "there is no such deck",
            Refusal::UnknownCode => "there is no such code",
            Refusal::ClassTooLarge => "a class is above 1023",
            Refusal::DeckFull => "the deck has taken 1,000,000,000 draws",
            Refusal::MessageNotDue => "the message is not due",
            Refusal::AmountNotDue => "an amount of the message cannot be right",
            Refusal::MemoryInconsistent => "record or memory is inconsistent",
            Refusal::ListTooShort => "the list has too few places",
            Refusal::MalformedLine => "the line is not deck;code;class and a line feed",
            Refusal::LogTooShort => "the log has too few places",
            Refusal::FileUnreadable => "the file is not laid out as a saved bench",
            Refusal::ChecksumWrong => "the file's checksum is wrong",
        }
    }
}

impl fmt::Display for Refusal {
    fn fmt(&self, f: &mut fmt::Formatter<'_>) -> fmt::Result {
        write!(f, "{} (refusal {})", self.text(), self.number())
    }
}

impl core::error::Error for Refusal {}

/// What a call's number says.
pub(crate) fn answer(number: u32) -> Result<(), Refusal> {
    match reason(number) {
        None => Ok(()),
        Some(refusal) => Err(refusal),
    }
}

/// The refusal behind a call's number, none for 0.
pub(crate) fn reason(number: u32) -> Option<Refusal> {
    if number == 0 {
        return None;
    }
    match Refusal::from_number(number) {
        None => no_such_answer(number),
        known => known,
    }
}

#[cold]
fn no_such_answer(number: u32) -> ! {
    panic!("libtracker.a answered {number}, which no call does: it is not this crate's archive");
}
