//! Request N5 through the crate: a count of messages for each deck, to which runs alone add; each
//! has its limit, and their sum none.

mod common;

use common::{message, some_draws, take, A, P2, SOME_SETTINGS};
use draw_tracker::{
    most_messages, Bench, BenchParts, Draw, Message, Refusal, Settings, MOST_DECKS,
};

/// The largest count that passes.
const LIMIT: u64 = 100_000_000_000_000;

const TWO: Settings = Settings { decks: 2, ..A };

/// How often messages name each deck.
fn counted<'a>(messages: impl IntoIterator<Item = &'a Message>) -> [u64; MOST_DECKS] {
    let mut counts = [0; MOST_DECKS];
    messages.into_iter().for_each(|message| counts[message.deck as usize] += 1);
    counts
}

/// One draw at each of two decks: the reports, the poll with its answer and the announcement name
/// their deck.
#[test]
fn two_decks() {
    let mut bench = Bench::start(TWO).unwrap();
    assert_eq!((bench.messages_of(0), bench.messages_of(1)), (Some(0), Some(0)));
    let mut log = Vec::new();
    bench.run_all(&[P2, Draw { deck: 1, ..P2 }], |message| log.push(message)).whole().unwrap();
    for deck in 0..2 {
        let of_deck = log.iter().filter(|message| message.deck == deck);
        assert_eq!(of_deck.map(|message| message.kind).collect::<Vec<_>>(), [1, 2, 3, 4, 7]);
    }
    assert_eq!((bench.messages_of(0), bench.messages_of(1)), (Some(5), Some(5)));
    assert_eq!((bench.messages_of(2), bench.messages()), (None, 10));
    assert!(bench.messages() <= TWO.allowance(2).unwrap());
}

/// Runs with short logs: after each, the counts are what the log says. No other call adds.
#[test]
fn runs_alone_add() {
    for settings in SOME_SETTINGS {
        let draws = some_draws(&settings, 400, 9);
        let mut bench = Bench::start(settings).unwrap();
        let mut log = vec![message(9, 9, 9, 9); most_messages(settings.decks) + 20];
        let (mut taken, mut counts) = (0, [0; MOST_DECKS]);
        while taken < draws.len() {
            let run = bench.run(&draws[taken..], &mut log);
            taken += run.accepted;
            for (count, more) in counts.iter_mut().zip(counted(&log[..run.written])) {
                *count += more;
            }
            assert_eq!(bench.parts().decks.messages, counts);
            if taken < draws.len() {
                take(&mut bench, draws[taken]).unwrap();
                bench.deliver(draws[taken]).unwrap();
                taken += 1;
                assert_eq!(bench.parts().decks.messages, counts);
            }
        }
        assert_eq!(bench.messages(), counts.iter().sum());
        assert!(bench.messages() > 0);
    }
}

/// A bench of so many decks whose next draw at deck 0 closes the round, with these changes.
fn before_a_close(decks: u32, change: impl Fn(&mut BenchParts)) -> Bench {
    let mut bench = Bench::start(Settings { decks, ..A }).unwrap();
    let draws: Vec<Draw> = (1..decks).map(|deck| Draw { deck, ..P2 }).collect();
    bench.run_all(&draws, |_| ()).whole().unwrap();
    let mut parts = bench.into_parts();
    change(&mut parts);
    Bench::from_parts(parts)
}

/// What refuses a run, a delivery, saving and reading of the bench, none of which changes it.
fn refused(bench: &Bench) -> [Option<Refusal>; 3] {
    let mut called = bench.clone();
    let mut bytes = vec![0xa5; bench.file_length().unwrap()];
    let answers = [
        called.run_all(&[], |_| ()).stopped,
        called.deliver(Draw { class: 0, ..P2 }).err(),
        called.save(&mut bytes).err(),
    ];
    assert_eq!(called, *bench);
    if answers[2].is_some() {
        assert!(bytes.iter().all(|&byte| byte == 0xa5));
    }
    answers
}

#[test]
fn limits() {
    let inconsistent = [Some(Refusal::MemoryInconsistent); 3];
    for decks in [1, 2, 32] {
        let own = decks as usize;
        // All at the limit at once: their sum is far above it.
        let full = before_a_close(decks, |parts| parts.decks.messages[..own].fill(LIMIT));
        assert_eq!(refused(&full), [None; 3]);
        assert_eq!(full.messages(), u64::from(decks) * LIMIT);
        for deck in [0, own - 1] {
            let with = |count| before_a_close(decks, |parts| parts.decks.messages[deck] = count);
            assert_eq!(refused(&with(LIMIT)), [None; 3]);
            assert_eq!(refused(&with(LIMIT + 1)), inconsistent);
            assert_eq!(refused(&with(u64::MAX)), inconsistent);
        }
        let most = before_a_close(decks, |parts| parts.decks.messages[..own].fill(u64::MAX));
        assert_eq!((most.messages(), refused(&most)), (u64::MAX, inconsistent));
    }
}

/// A count that passes its limit within a run: that run is accepted, the next call refused.
#[test]
fn passing_the_limit() {
    for (decks, deck, more) in [(1, 0, 5), (2, 0, 5), (2, 1, 3), (32, 31, 3)] {
        for above in [0, 1] {
            let count = LIMIT - more + above;
            let mut bench = before_a_close(decks, |parts| parts.decks.messages[deck] = count);
            bench.run_all(&[P2], |_| ()).whole().unwrap();
            assert_eq!(bench.messages_of(deck as u32), Some(LIMIT + above));
            let refusal = (above > 0).then_some(Refusal::MemoryInconsistent);
            assert_eq!(refused(&bench), [refusal; 3]);
        }
    }
}

/// Counts of decks that the bench hasn't are neither tested nor changed; a start sets them 0.
#[test]
fn decks_that_the_bench_has_not() {
    for decks in [1, 2, 31] {
        let own = decks as usize;
        let mut bench = before_a_close(decks, |parts| parts.decks.messages[own..].fill(u64::MAX));
        assert_eq!(refused(&bench), [None; 3]);
        let before = bench.messages();
        let run = bench.run_all(&[P2], |_| ()).whole().unwrap();
        assert_eq!(bench.messages(), before + run.written as u64);
        bench.deliver(P2).unwrap();
        let unused = &bench.parts().decks.messages[own..];
        assert!(unused.iter().all(|&count| count == u64::MAX));
        assert_eq!(bench.messages_of(decks), None);
        let mut parts = bench.into_parts();
        let settings = parts.settings;
        draw_tracker::calls::start_decks(&settings, &mut parts.decks, &mut parts.deck_memory)
            .unwrap();
        assert_eq!(parts.decks.messages, [0; MOST_DECKS]);
    }
}
