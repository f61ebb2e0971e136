//! Document 01's instances through the crate.

mod common;

use common::{message, take, A, P2};
use draw_tracker::{Bench, DeckRecord, Draw, Message, Refusal, Settings};

/// P1, fresh: list empty, class none.
#[test]
fn fresh_is_p1() {
    let bench = Bench::start(A).unwrap();
    assert_eq!(bench.listed(), Ok(vec![]));
    assert_eq!(bench.class(), Ok(None));
    let fresh = DeckRecord { threshold: 1, ..DeckRecord::default() };
    assert_eq!((bench.deck(0), bench.deck(1)), (Some(&fresh), None));
    assert!(bench.desk().is_idle() && bench.desk().threshold == 1);
    assert!(bench.parts().decks.deck.iter().all(|record| *record == fresh));
}

fn messages_of_p2() -> Vec<Message> {
    vec![
        message(1, 0, 7, 1),
        message(2, 0, 1, 3),
        message(3, 0, 0, 0),
        message(4, 0, 0, 0),
        message(7, 0, 1, 1),
    ]
}

/// P2 in every way of taking a draw, and P8's margins after it.
#[test]
fn one_draw_is_p2() {
    let mut single = Bench::start(A).unwrap();
    assert_eq!(take(&mut single, P2), Ok(messages_of_p2()));
    let mut delivered = Bench::start(A).unwrap();
    let delivery = delivered.deliver(P2).unwrap();
    assert_eq!((delivery.carried, delivery.stopped()), (5, None));
    assert_eq!(delivered, single);
    let (mut batch, mut log) = (Bench::start(A).unwrap(), [message(9, 9, 9, 9); 27]);
    let run = batch.run(&[P2], &mut log).whole().unwrap();
    assert_eq!((run.accepted, run.written), (1, 5));
    assert_eq!(log[..5], messages_of_p2());
    assert_eq!(log[5..], [message(9, 9, 9, 9); 22]);
    // The run alone counts its messages.
    assert_eq!((batch.messages(), single.messages()), (5, 0));
    assert_eq!((batch.messages_of(0), batch.messages_of(1)), (Some(5), None));
    for bench in [&single, &batch] {
        assert_eq!(bench.listed(), Ok(vec![7]));
        assert_eq!(bench.class(), Ok(Some(3)));
        assert_eq!((bench.margin(7), bench.margin(8)), (Ok(1000), Ok(-1000)));
        assert_eq!(bench.margin(10), Err(Refusal::UnknownCode));
    }
}

/// P3: six such draws, 5 messages each, the sixth 25; P4: the seventh none, the eighth 25.
#[test]
fn six_and_eight_draws_are_p3_and_p4() {
    let mut bench = Bench::start(A).unwrap();
    let messages = |bench: &mut Bench| take(bench, P2).unwrap().len();
    let first: Vec<usize> = (0..6).map(|_| messages(&mut bench)).collect();
    assert_eq!((first, bench.desk().threshold), (vec![5, 5, 5, 5, 5, 25], 2));
    let next: Vec<usize> = (0..2).map(|_| messages(&mut bench)).collect();
    assert_eq!((next, bench.desk().threshold), (vec![0, 25], 2));
}

/// P5: codes 0 to 6 once each; code 0 leaves, and code 6 says nothing.
#[test]
fn a_code_leaves_in_p5() {
    let mut bench = Bench::start(A).unwrap();
    for code in 0..6 {
        take(&mut bench, Draw { code, ..P2 }).unwrap();
    }
    assert_eq!(take(&mut bench, Draw { code: 6, ..P2 }), Ok(vec![]));
    assert_eq!(bench.deck_memory(0).unwrap()[..8], [6, 2, 1, 0, 1, 1, 0, 1]);
    assert_eq!(bench.deck_memory(1), None);
    let record = DeckRecord { draws: 7, pending: 1, threshold: 2, slots_in_use: 6, forgotten: 0 };
    assert_eq!(bench.deck(0), Some(&record));
}

/// Request N1: a code that leaves with a draw unsent is counted as forgotten.
#[test]
fn a_code_leaves_unsent() {
    let mut bench = Bench::start(A).unwrap();
    let draws: Vec<Draw> =
        [7, 7, 7, 7, 7, 7, 0, 1, 2, 3, 4, 5].map(|code| Draw { code, ..P2 }).to_vec();
    bench.run_all(&draws, |_| ()).whole().unwrap();
    assert_eq!(bench.deck(0).unwrap().forgotten, 1);
}

/// P9: one draw each of classes 3 and 9: rank 500 gives 3, rank 501 gives 9.
#[test]
fn ranks_of_p9() {
    for (rank, class) in [(500, 3), (501, 9)] {
        let mut bench = Bench::start(Settings { rank, ..A }).unwrap();
        for class in [3, 9] {
            take(&mut bench, Draw { class, ..P2 }).unwrap();
        }
        assert_eq!(bench.class(), Ok(Some(class)));
    }
}

/// Request N2: class 0 is no draw. It is accepted, counted in `accepted`, and changes nothing.
#[test]
fn class_0_is_no_draw() {
    let mut bench = Bench::start(A).unwrap();
    take(&mut bench, P2).unwrap();
    let before = bench.clone();
    let touch = Draw { class: 0, ..P2 };
    assert!(bench.draw(touch).unwrap().is_empty());
    assert_eq!(bench.deliver(touch).unwrap().carried, 0);
    let run = bench.run(&[touch; 3], &mut []).whole().unwrap();
    assert_eq!((run.accepted, run.written), (3, 0));
    assert_eq!(bench, before);
}
