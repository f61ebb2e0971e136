//! Every refusal once, where the crate can meet it, and that a refused call changes nothing: not
//! the records, not the memory, not what is to be handed out.

mod common;

use common::{message, take, A, P2};
use draw_tracker::raw;
use draw_tracker::{
    calls, desk_numbers, Bench, BenchParts, Counts, Deck, DeckRecord, DecksRecord, Delivery, Desk,
    DeskRecord, Draw, Lengths, Message, Refusal, Run, Settings,
};

/// Settings that the test refuses: 1, 2, 3.
const WRONG: [(Settings, Refusal); 3] = [
    (Settings { decks: 33, ..A }, Refusal::SettingOutOfRange),
    (Settings { share: 999, ..A }, Refusal::ShareBelowLeeway),
    (Settings { slots: 5, ..A }, Refusal::TooFewSlots),
];

/// A bench after six draws, at threshold 2.
fn some_bench() -> Bench {
    let mut bench = Bench::start(A).unwrap();
    for _ in 0..6 {
        take(&mut bench, P2).unwrap();
    }
    bench
}

/// What every call on a bench answers; none may change anything.
fn refused(parts: &BenchParts) -> [Option<Refusal>; 9] {
    let mut bench = Bench::from_parts(parts.clone());
    let answers = [
        bench.draw(P2).err(),
        bench.hand_over(message(3, 0, 0, 0)).err(),
        bench.hand_over(message(1, 0, 7, 2)).err(),
        bench.announcement().err(),
        bench.deliver(P2).err(),
        bench.run(&[P2], &mut [Message::NONE; 30]).stopped,
        bench.listed().err(),
        bench.margin(7).err(),
        bench.class().err(),
    ];
    if answers.iter().all(Option::is_some) {
        assert_eq!(bench.parts(), parts);
    }
    answers
}

#[test]
fn settings_out_of_range() {
    for (settings, refusal) in WRONG {
        assert_eq!(Bench::start(settings), Err(refusal));
        assert_eq!(Deck::start(settings, 0), Err(refusal));
        assert_eq!(Desk::start(settings), Err(refusal));
        let parts = BenchParts { settings, ..some_bench().into_parts() };
        assert_eq!(refused(&parts), [Some(refusal); 9]);
        let run = Bench::from_parts(parts).run_all(&[P2], |_| panic!("no message"));
        assert_eq!(run, Run { accepted: 0, written: 0, stopped: Some(refusal) });
    }
}

#[test]
fn short_memory() {
    let parts = some_bench().into_parts();
    let short = Some(Refusal::MemoryTooShort);
    let mut cut = parts.clone();
    cut.deck_memory.pop();
    let [draw, to_deck, to_desk, next, deliver, run, list, margin, class] = refused(&cut);
    assert_eq!([draw, to_deck, deliver, run], [short; 4]);
    assert_eq!([to_desk, next, list, margin, class], [None; 5]);
    let mut cut = parts.clone();
    cut.desk_memory.pop();
    let [draw, to_deck, to_desk, next, deliver, run, list, margin, class] = refused(&cut);
    assert_eq!([to_desk, next, deliver, run, list, margin, class], [short; 7]);
    assert_eq!([draw, to_deck], [None; 2]);
    // The starts change neither record nor memory where they refuse.
    let mut decks = parts.decks;
    let mut memory = vec![77; 4 * 6 + 1023];
    assert_eq!(calls::start_decks(&A, &mut decks, &mut memory), Err(Refusal::MemoryTooShort));
    let mut record = decks.deck[0];
    assert_eq!(calls::start_deck(&A, 0, &mut record, &mut memory), Err(Refusal::MemoryTooShort));
    assert_eq!((decks, record), (parts.decks, parts.decks.deck[0]));
    assert_eq!(memory, vec![77; 4 * 6 + 1023]);
    let (mut desk, mut memory) = (parts.desk, vec![77; desk_numbers(10) - 1]);
    assert_eq!(calls::start_desk(&A, &mut desk, &mut memory), Err(Refusal::MemoryTooShort));
    assert_eq!((desk, memory), (parts.desk, vec![77; desk_numbers(10) - 1]));
}

/// Lent memory may be longer than asked for: the rest stays.
#[test]
fn longer_memory() {
    let mut parts = some_bench().into_parts();
    let before = parts.clone();
    parts.deck_memory.extend([5, 6, 7]);
    parts.desk_memory.extend([u64::MAX, 9]);
    let mut bench = Bench::from_parts(parts);
    for _ in 0..2 {
        take(&mut bench, P2).unwrap();
    }
    assert_eq!(bench.run(&[P2; 2], &mut [Message::NONE; 50]).accepted, 2);
    let after = bench.into_parts();
    assert_eq!(after.deck_memory[before.deck_memory.len()..], [5, 6, 7]);
    assert_eq!(after.desk_memory[before.desk_memory.len()..], [u64::MAX, 9]);
}

#[test]
fn draws_that_are_refused() {
    let bench = some_bench();
    for (draw, refusal) in [
        (Draw { deck: 1, ..P2 }, Refusal::UnknownDeck),
        (Draw { deck: 32, code: 10, class: 1024 }, Refusal::UnknownDeck),
        (Draw { deck: u32::MAX, ..P2 }, Refusal::UnknownDeck),
        (Draw { code: 10, class: 1024, ..P2 }, Refusal::UnknownCode),
        (Draw { code: u32::MAX, ..P2 }, Refusal::UnknownCode),
        (Draw { class: 1024, ..P2 }, Refusal::ClassTooLarge),
        (Draw { class: u32::MAX, ..P2 }, Refusal::ClassTooLarge),
    ] {
        let mut tried = bench.clone();
        assert_eq!(tried.draw(draw), Err(refusal), "{draw:?}");
        assert_eq!(tried.deliver(draw), Err(refusal), "{draw:?}");
        let mut log = [message(9, 9, 9, 9); 30];
        let run = tried.run(&[draw, P2], &mut log);
        assert_eq!(run, Run { accepted: 0, written: 0, stopped: Some(refusal) }, "{draw:?}");
        assert_eq!((tried, log), (bench.clone(), [message(9, 9, 9, 9); 30]));
        // After others it stops the run there.
        let mut tried = bench.clone();
        let run = tried.run_all(&[P2, draw, P2], |_| ());
        assert_eq!((run.accepted, run.stopped), (1, Some(refusal)));
        let mut one = bench.clone();
        take(&mut one, P2).unwrap();
        assert_eq!(tried.desk(), one.desk());
    }
}

/// A deck that has taken 1,000,000,000 draws takes no more; class 0 is none and needs no room.
#[test]
fn a_full_deck() {
    let mut memory = vec![0; 4 * 6 + 1024];
    memory[24 + 3] = 1_000_000_000;
    let record = DeckRecord { draws: 1_000_000_000, threshold: 1, ..DeckRecord::default() };
    let mut deck = Deck::from_parts(A, 0, record, memory.clone());
    assert_eq!(deck.draw(P2), Err(Refusal::DeckFull));
    assert!(deck.draw(Draw { class: 0, ..P2 }).unwrap().is_empty());
    assert_eq!(deck.into_parts(), (record, memory));
}

#[test]
fn messages_that_are_refused() {
    let bench = some_bench();
    let wide = 1 << 32;
    for (sent, refusal) in [
        (message(0, 0, 0, 0), Refusal::MessageNotDue),
        (message(8, 0, 0, 0), Refusal::MessageNotDue),
        // Kinds and decks that four bytes don't hold.
        (message(wide + 1, 0, 7, 2), Refusal::MessageNotDue),
        (message(wide + 3, 0, 0, 0), Refusal::MessageNotDue),
        (message(u64::MAX, 0, 0, 0), Refusal::MessageNotDue),
        (message(1, wide, 7, 2), Refusal::UnknownDeck),
        (message(3, wide, 0, 0), Refusal::UnknownDeck),
        (message(7, u64::MAX, 2, 0), Refusal::UnknownDeck),
        (message(3, 1, 0, 0), Refusal::UnknownDeck),
        (message(0, 1, 0, 0), Refusal::UnknownDeck),
        // Not due while the desk is idle.
        (message(4, 0, 0, 0), Refusal::MessageNotDue),
        (message(6, 0, 0, 0), Refusal::MessageNotDue),
        (message(1, 0, 10, 2), Refusal::UnknownCode),
        (message(1, 0, wide + 7, 2), Refusal::UnknownCode),
        (message(5, 0, 1024, 0), Refusal::ClassTooLarge),
        (message(5, 0, wide + 3, 0), Refusal::ClassTooLarge),
        (message(1, 0, 7, 1), Refusal::AmountNotDue),
        (message(2, 0, 2, 1), Refusal::AmountNotDue),
        (message(3, 0, 1, 0), Refusal::AmountNotDue),
        (message(5, 0, 3, 1), Refusal::AmountNotDue),
        (message(7, 0, 1, 0), Refusal::AmountNotDue),
        (message(7, 0, 1_000_000_001, 0), Refusal::AmountNotDue),
    ] {
        let mut tried = bench.clone();
        assert_eq!(tried.hand_over(sent), Err(refusal), "{sent:?}");
        assert_eq!(tried, bench, "{sent:?}");
        // The parties alone refuse it likewise; a kind that is for the other one is not due.
        let (record, memory) = (*bench.deck(0).unwrap(), bench.deck_memory(0).unwrap().to_vec());
        let deck = Deck::from_parts(A, 0, record, memory);
        let mut tried = deck.clone();
        let at_deck = if sent.is_for_deck() || sent.deck > 0 { refusal } else { NOT_DUE };
        assert_eq!((tried.receive(sent), tried), (Err(at_deck), deck), "{sent:?}");
        let desk = Desk::from_parts(A, *bench.desk(), bench.desk_memory().to_vec());
        let mut tried = desk.clone();
        let at_desk = if sent.is_for_deck() && sent.deck == 0 { NOT_DUE } else { refusal };
        assert_eq!((tried.receive(sent), tried), (Err(at_desk), desk), "{sent:?}");
    }
}

const NOT_DUE: Refusal = Refusal::MessageNotDue;

/// A kind 7 from a desk that doesn't announce is 9, which the owning types answer as none.
#[test]
fn no_announcement() {
    let mut bench = some_bench();
    assert_eq!(bench.announcement(), Ok(None));
    let BenchParts { mut desk, desk_memory, .. } = bench.into_parts();
    let before = desk;
    let answer = calls::desk_announcement(&A, &mut desk, &desk_memory);
    assert_eq!((answer, desk), (Err(Refusal::MessageNotDue), before));
}

/// Desk records that the calls never leave are 11, whatever the call; settings and short memory
/// come before.
#[test]
fn malformed_desks() {
    let fresh = Bench::start(A).unwrap().into_parts();
    let wide = 1 << 32;
    let changes: [fn(&mut DeskRecord, u64); 13] = [
        |desk, wide| desk.signals = wide,
        |desk, wide| desk.class = wide,
        |desk, wide| desk.class = wide + 3,
        |desk, _| desk.phase = 4,
        |desk, wide| desk.phase = wide,
        |desk, _| desk.phase = u64::MAX,
        // An idle desk has no deck, no interval and no sum.
        |desk, _| desk.phase_deck = 1,
        |desk, wide| desk.phase_deck = wide,
        |desk, _| desk.phase_low = 1,
        |desk, wide| desk.phase_high = wide,
        |desk, _| desk.phase_sum = 1,
        // One that collects has no interval, one that probes none that is wide.
        |desk, _| (desk.phase, desk.signals, desk.phase_high) = (1, 1, 9),
        |desk, wide| (desk.phase, desk.signals, desk.phase_high) = (2, 1, wide + 9),
    ];
    for (place, change) in changes.into_iter().enumerate() {
        let mut parts = fresh.clone();
        change(&mut parts.desk, wide);
        let answers = refused(&parts);
        // The two calls on decks alone don't look at the desk.
        assert_eq!(answers[..2], [None; 2], "change {place}");
        assert_eq!(answers[2..], [Some(Refusal::MemoryInconsistent); 7], "change {place}");
        let mut desk = parts.desk;
        for (settings, refusal) in WRONG {
            let answer = calls::desk_message(&settings, &mut desk, &mut [], &message(1, 0, 7, 1));
            assert_eq!(answer, Err(refusal));
        }
        let answer = calls::desk_announcement(&A, &mut desk, &parts.desk_memory[1..]);
        assert_eq!(answer, Err(Refusal::MemoryTooShort));
        assert_eq!(desk, parts.desk);
    }
}

/// Decks that the calls never leave are 11.
#[test]
fn inconsistent_decks() {
    let parts = some_bench().into_parts();
    let changes: [fn(&mut BenchParts); 5] = [
        |parts| parts.decks.deck[0].draws += 1,
        |parts| parts.decks.deck[0].pending = 2,
        |parts| parts.decks.deck[0].threshold = 0,
        |parts| parts.decks.deck[0].slots_in_use = 7,
        |parts| parts.decks.deck[0].forgotten = 7,
    ];
    for change in changes {
        let mut changed = parts.clone();
        change(&mut changed);
        let inconsistent = Some(Refusal::MemoryInconsistent);
        let [draw, to_deck, .., deliver, run, _, _, _] = refused(&changed);
        assert_eq!([draw, to_deck, deliver, run], [inconsistent; 4]);
    }
    // A deck's count of messages is tested by the two calls with full delivery.
    let mut changed = parts.clone();
    changed.decks.messages[0] = 100_000_000_000_001;
    let [draw, _, _, _, deliver, run, ..] = refused(&changed);
    assert_eq!((draw, deliver, run), (None, INCONSISTENT, INCONSISTENT));
}

const INCONSISTENT: Option<Refusal> = Some(Refusal::MemoryInconsistent);

#[test]
fn a_short_list() {
    let bench = some_bench();
    let (desk, memory) = (bench.desk(), bench.desk_memory());
    assert_eq!(calls::desk_list(&A, desk, memory, &mut []), Err(Refusal::ListTooShort));
    let mut codes = [77; 3];
    assert_eq!(calls::desk_list(&A, desk, memory, &mut codes), Ok(&[7][..]));
    assert_eq!(codes, [7, 77, 77]);
    // The owning types never meet it, not even for memory in which every code is listed.
    let mut parts = bench.into_parts();
    parts.desk_memory[..10].fill(6);
    assert_eq!(Bench::from_parts(parts.clone()).listed().unwrap().len(), 10);
    let desk = Desk::from_parts(A, parts.desk, parts.desk_memory);
    assert_eq!(desk.listed().unwrap(), (0..10).collect::<Vec<u32>>());
}

/// In mid-delivery the list may need more places than between draws: the desk has heard of the
/// second code, and not yet that there are two draws.
#[test]
fn a_list_in_mid_delivery() {
    let settings = Settings { leeway: 333, share: 970, slots: 19, ..A };
    let mut bench = Bench::start(settings).unwrap();
    take(&mut bench, P2).unwrap();
    let sent = bench.draw(Draw { code: 8, ..P2 }).unwrap();
    assert_eq!(bench.hand_over(sent[0]), Ok(None));
    let places = settings.lengths().unwrap().list_places as usize;
    assert_eq!(places, 1);
    let mut codes = vec![77; places];
    let answer = calls::desk_list(&settings, bench.desk(), bench.desk_memory(), &mut codes);
    assert_eq!(answer, Err(Refusal::ListTooShort));
    assert_eq!(codes, [77]);
    assert_eq!(bench.listed(), Ok(vec![7, 8]));
    // At rest neither has its share.
    bench.hand_over(sent[1]).unwrap();
    assert_eq!(bench.listed(), Ok(vec![]));
}

#[test]
fn a_short_log() {
    let mut bench = Bench::start(A).unwrap();
    let before = bench.clone();
    let run = bench.run(&[P2], &mut [Message::NONE; 24]);
    assert_eq!(run, Run { accepted: 0, written: 0, stopped: Some(Refusal::LogTooShort) });
    assert_eq!(run.whole(), Err(Refusal::LogTooShort));
    // Emptying it doesn't help.
    let run = bench.run_all_with(&[P2], &mut [Message::NONE; 24], |_| ());
    assert_eq!(run.stopped, Some(Refusal::LogTooShort));
    assert_eq!(bench, before);
    let run = bench.run(&[P2; 2], &mut [Message::NONE; 25]);
    assert_eq!((run.accepted, run.written), (1, 5));
    assert_eq!(run.stopped, Some(Refusal::LogTooShort));
    // No draws need no log.
    assert_eq!(bench.run(&[], &mut []), Run { accepted: 0, written: 0, stopped: None });
}

/// A desk in mid-delivery is 11 for the calls with full delivery.
#[test]
fn in_mid_delivery() {
    let mut bench = Bench::start(A).unwrap();
    let sent = bench.draw(P2).unwrap();
    assert_eq!(sent.len(), 2);
    for waiting in sent {
        bench.hand_over(waiting).unwrap();
    }
    assert_eq!(bench.desk().phase, DeskRecord::COLLECTING);
    let before = bench.clone();
    assert_eq!(bench.deliver(P2), Err(Refusal::MemoryInconsistent));
    assert_eq!(bench.run(&[P2], &mut [Message::NONE; 25]).stopped, INCONSISTENT);
    assert_eq!(bench, before);
}

#[test]
fn decks_that_there_are_none_of() {
    assert_eq!(Deck::start(A, 1), Err(Refusal::UnknownDeck));
    assert_eq!(Deck::start(A, u32::MAX), Err(Refusal::UnknownDeck));
    let two = Settings { decks: 2, ..A };
    let mut deck = Deck::start(two, 1).unwrap();
    let before = deck.clone();
    // A draw for the other deck is not for this one, and a message for it is not due.
    assert_eq!(deck.draw(P2), Err(Refusal::UnknownDeck));
    assert_eq!(deck.receive(message(3, 0, 0, 0)), Err(Refusal::MessageNotDue));
    assert_eq!(deck, before);
    assert_eq!(deck.draw(Draw { deck: 1, ..P2 }).unwrap().len(), 2);
}

/// What the C functions would hand out stays as it was where they refuse, but for a run's counts.
#[test]
fn nothing_is_handed_out() {
    let wrong = WRONG[0].0;
    let junk = message(91, 92, 93, 94);
    let (mut decks, mut deck) = (DecksRecord::default(), DeckRecord::default());
    let (mut desk, mut few, mut desk_few) = (DeskRecord::default(), [77; 4], [78; 4]);
    let (mut out, mut count, mut number) = ([junk; 2], 95, 96);
    let (mut margin, mut class, mut codes) = (-97, 98, [99; 2]);
    let mut lengths = Lengths { list_places: 90, ..Lengths::default() };
    let mut delivery = Delivery { carried: 80, stopped: 81 };
    let mut counts = Counts { accepted: 82, written: 83 };
    let (few_at, desk_at) = (few.as_mut_ptr(), desk_few.as_mut_ptr());
    // SAFETY: every pointer comes from one of the locals above, with its length, and no two of a
    // call are to the same one.
    let answers = unsafe {
        [
            raw::tracker_test_lengths(&wrong, &mut lengths),
            raw::tracker_start_decks(&wrong, &mut decks, few_at, 4),
            raw::tracker_start_deck(&wrong, 0, &mut deck, few_at, 4),
            raw::tracker_start_desk(&wrong, &mut desk, desk_at, 4),
            raw::tracker_deck_draw(
                &wrong,
                0,
                &mut deck,
                few_at,
                4,
                7,
                3,
                out.as_mut_ptr(),
                &mut count,
            ),
            raw::tracker_deck_message(
                &wrong,
                0,
                &mut deck,
                few_at,
                4,
                &junk,
                &mut out[0],
                &mut count,
            ),
            raw::tracker_decks_draw(
                &wrong,
                &mut decks,
                few_at,
                4,
                &P2,
                out.as_mut_ptr(),
                &mut count,
            ),
            raw::tracker_decks_message(
                &wrong,
                &mut decks,
                few_at,
                4,
                &junk,
                &mut out[0],
                &mut count,
            ),
            raw::tracker_desk_message(
                &wrong,
                &mut desk,
                desk_at,
                4,
                &junk,
                &mut out[0],
                &mut count,
            ),
            raw::tracker_desk_announcement(&wrong, &mut desk, desk_at, 4, &mut out[0]),
            raw::tracker_deliver(
                &wrong,
                &mut decks,
                &mut desk,
                few_at,
                4,
                desk_at,
                4,
                &P2,
                &mut delivery,
            ),
            raw::tracker_run(
                &wrong,
                &mut decks,
                &mut desk,
                &P2,
                1,
                few_at,
                4,
                desk_at,
                4,
                out.as_mut_ptr(),
                8,
                &mut counts,
            ),
            raw::tracker_desk_list(&wrong, &desk, desk_at, 4, codes.as_mut_ptr(), 2, &mut number),
            raw::tracker_desk_margin(&wrong, &desk, desk_at, 4, 7, &mut margin),
            raw::tracker_desk_class(&wrong, &desk, desk_at, 4, &mut class),
        ]
    };
    assert_eq!(answers, [1; 15]);
    assert_eq!((decks, deck), (DecksRecord::default(), DeckRecord::default()));
    assert_eq!((desk, few, desk_few), (DeskRecord::default(), [77; 4], [78; 4]));
    assert_eq!((out, count, number), ([junk; 2], 95, 96));
    assert_eq!((margin, class, codes), (-97, 98, [99; 2]));
    assert_eq!(lengths, Lengths { list_places: 90, ..Lengths::default() });
    assert_eq!(delivery, Delivery { carried: 80, stopped: 81 });
    // A run always says how far it came.
    assert_eq!(counts, Counts { accepted: 0, written: 0 });
}
