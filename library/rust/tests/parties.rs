//! The ways of taking draws come to the same: decks and desk by themselves, with messages as bytes;
//! a bench draw by draw; a bench that delivers by itself; runs with a small log, and with none of
//! the caller's.

mod common;

use std::collections::VecDeque;

use common::{some_draws, take, SOME_SETTINGS};
use draw_tracker::{
    most_messages, Bench, Deck, Desk, Draw, Message, Refusal, Settings, MOST_DECKS,
};

/// The parties, each with memory of its own. What goes between them goes as bytes.
struct Parties {
    decks: Vec<Deck>,
    desk: Desk,
}

impl Parties {
    fn start(settings: Settings) -> Parties {
        let deck = |number| Deck::start(settings, number).unwrap();
        Parties {
            decks: (0..settings.decks).map(deck).collect(),
            desk: Desk::start(settings).unwrap(),
        }
    }

    fn hand_over(&mut self, bytes: [u8; Message::BYTES]) -> Result<Vec<Message>, Refusal> {
        let message = Message::from_bytes(&bytes);
        if message.is_for_deck() {
            let deck = &mut self.decks[message.deck as usize];
            return Ok(deck.receive(message)?.into_iter().collect());
        }
        let mut sent: Vec<Message> = self.desk.receive(message)?.into_iter().collect();
        // All kinds 7 at once, before the first is handed over.
        while let Some(announcement) = self.desk.announcement()? {
            sent.push(announcement);
        }
        Ok(sent)
    }

    fn take(&mut self, draw: Draw) -> Result<Vec<Message>, Refusal> {
        let mut sent: Vec<Message> =
            self.decks[draw.deck as usize].draw(draw)?.into_iter().collect();
        let mut waiting = VecDeque::from(sent.clone());
        while let Some(message) = waiting.pop_front() {
            let more = self.hand_over(message.to_bytes())?;
            sent.extend(&more);
            waiting.extend(more);
        }
        Ok(sent)
    }

    /// Records and memory are those of the bench.
    fn check(&self, bench: &Bench) {
        for (number, deck) in (0..).zip(&self.decks) {
            assert_eq!(deck.number(), number);
            assert_eq!(deck.settings(), bench.settings());
            assert_eq!(Some(deck.record()), bench.deck(number));
            assert_eq!(Some(deck.memory()), bench.deck_memory(number));
        }
        let desk = &self.desk;
        assert_eq!((desk.record(), desk.memory()), (bench.desk(), bench.desk_memory()));
        assert_eq!((desk.listed(), desk.class()), (bench.listed(), bench.class()));
        assert_eq!((desk.margin(0), desk.margin(1)), (bench.margin(0), bench.margin(1)));
        assert_eq!(desk.settings(), bench.settings());
    }
}

/// The bench without the counts that runs keep.
fn uncounted(bench: &Bench) -> Bench {
    let mut parts = bench.clone().into_parts();
    parts.decks.messages = [0; MOST_DECKS];
    Bench::from_parts(parts)
}

#[test]
fn all_ways_come_to_the_same() {
    for settings in SOME_SETTINGS {
        let draws = some_draws(&settings, 1500, settings.slots);
        let mut parties = Parties::start(settings);
        let [mut single, mut delivered, mut small, mut at_once] =
            [(); 4].map(|()| Bench::start(settings).unwrap());
        let mut sent = Vec::new();
        for &draw in &draws {
            let messages = take(&mut single, draw).unwrap();
            assert_eq!(parties.take(draw).unwrap(), messages);
            let delivery = delivered.deliver(draw).unwrap();
            assert_eq!((delivery.carried, delivery.stopped()), (messages.len() as u64, None));
            sent.extend(messages);
        }
        assert_eq!(single, delivered);
        parties.check(&single);
        // A log for the messages of one draw and a few.
        let mut log = vec![Message::NONE; most_messages(settings.decks) + 3];
        let mut logged = Vec::new();
        let run = small.run_all_with(&draws, &mut log, |message| logged.push(message));
        let run = run.whole().unwrap();
        assert_eq!((run.accepted, run.written), (draws.len(), sent.len()));
        assert!(logged == sent);
        assert_eq!((small.messages(), uncounted(&small)), (sent.len() as u64, single.clone()));
        for deck in 0..settings.decks {
            let of_deck = sent.iter().filter(|message| message.deck == u64::from(deck)).count();
            assert_eq!(small.messages_of(deck), Some(of_deck as u64), "deck {deck}");
            assert_eq!(single.messages_of(deck), Some(0), "deck {deck}");
        }
        assert_eq!(small.messages_of(settings.decks), None);
        let mut logged = Vec::new();
        let run = at_once.run_all(&draws, |message| logged.push(message));
        assert_eq!((run.accepted, run.stopped), (draws.len(), None));
        assert!(logged == sent);
        assert_eq!(at_once, small);
        let allowance = settings.allowance(draws.len() as u64).unwrap();
        assert!((sent.len() as u64) <= allowance);
    }
}

/// Records and memory that were taken apart go on as before.
#[test]
fn parts_go_on() {
    let settings = SOME_SETTINGS[1];
    let draws = some_draws(&settings, 200, 3);
    let mut bench = Bench::start(settings).unwrap();
    let mut parties = Parties::start(settings);
    for &draw in &draws {
        bench = Bench::from_parts(bench.into_parts());
        let Parties { decks, desk } = parties;
        let again = |deck: Deck| {
            let number = deck.number();
            let (record, memory) = deck.into_parts();
            Deck::from_parts(settings, number, record, memory)
        };
        let (record, memory) = desk.into_parts();
        parties = Parties {
            decks: decks.into_iter().map(again).collect(),
            desk: Desk::from_parts(settings, record, memory),
        };
        assert_eq!(take(&mut bench, draw), parties.take(draw));
    }
    parties.check(&bench);
}
