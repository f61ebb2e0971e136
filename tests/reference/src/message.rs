//! What travels: arrivals to the sites, messages between sites and coordinator.

/// Kind 1, to the coordinator: a = item, b = amount.
pub const ITEM_REPORT: u32 = 1;
/// Kind 2, to the coordinator: a = amount, b = value while the threshold is 1.
pub const COUNT_REPORT: u32 = 2;
/// Kind 3, to a site: asks for what is pending.
pub const POLL: u32 = 3;
/// Kind 4, to the coordinator: a = pending.
pub const POLL_ANSWER: u32 = 4;
/// Kind 5, to a site: a = value, asks for the arrivals at or below it.
pub const PROBE: u32 = 5;
/// Kind 6, to the coordinator: a = value, b = arrivals at or below it.
pub const PROBE_ANSWER: u32 = 6;
/// Kind 7, to a site: a = threshold, b = base.
pub const ANNOUNCEMENT: u32 = 7;

/// The value of a touch: request N2's class 0, where the tip took nothing.
pub const TOUCH: u32 = 0;

/// An arrival: a line of deck, code and class. It is document 01's draw or
/// request N2's touch.
#[derive(Clone, Copy, Debug, Default, PartialEq, Eq)]
pub struct Arrival {
    /// Document 01's deck.
    pub site: u32,
    /// Document 01's code.
    pub item: u32,
    /// Document 01's class.
    pub value: u32,
}

impl Arrival {
    /// Whether it is a draw. A touch is none: where it is accepted, nothing
    /// changes and nothing goes out.
    pub fn is_draw(&self) -> bool {
        self.value != TOUCH
    }
}

/// Document 01's message: kind, deck, a, b. All four are 0 where there is none.
#[derive(Clone, Copy, Debug, Default, PartialEq, Eq)]
pub struct Message {
    pub kind: u32,
    /// Document 01's deck: the sender or the receiver, as the kind says.
    pub site: u32,
    pub a: u64,
    pub b: u64,
}

impl Message {
    pub fn new(kind: u32, site: u32, a: u64, b: u64) -> Message {
        Message { kind, site, a, b }
    }

    /// Kind, deck, a, b as plain numbers.
    pub fn to_numbers(self) -> [u64; 4] {
        [u64::from(self.kind), u64::from(self.site), self.a, self.b]
    }
}

/// What a call answers: its refusal, and the messages that go out, of which
/// only the first `count` are any. A refused call has none.
#[derive(Clone, Copy, Debug, PartialEq, Eq)]
pub struct Outgoing<const PLACES: usize> {
    pub refusal: u8,
    pub count: usize,
    pub messages: [Message; PLACES],
}

impl<const PLACES: usize> Outgoing<PLACES> {
    /// An answer without messages.
    pub fn none(refusal: u8) -> Self {
        Outgoing { refusal, count: 0, messages: [Message::default(); PLACES] }
    }

    /// The messages that go out, in order.
    pub fn sent(&self) -> &[Message] {
        &self.messages[..self.count.min(PLACES)]
    }

    /// Adds a message after the others; the caller knows that it has a place.
    pub(crate) fn push(&mut self, message: Message) {
        self.messages[self.count] = message;
        self.count += 1;
    }
}

impl From<Option<Message>> for Outgoing<1> {
    fn from(message: Option<Message>) -> Self {
        let mut outgoing = Outgoing::none(crate::refusal::ACCEPTED);
        if let Some(message) = message {
            outgoing.push(message);
        }
        outgoing
    }
}
