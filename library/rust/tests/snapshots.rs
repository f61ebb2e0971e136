//! Request N3 through the crate: a bench saved to bytes and opened again goes on exactly as one
//! that was never closed; a file that is refused opens nothing and changes nothing.

mod common;

use std::collections::VecDeque;
use std::fs;
use std::path::Path;

use common::{message, some_draws, take, A, P2, SOME_SETTINGS};
use draw_tracker::{
    calls, raw, Bench, BenchParts, DecksRecord, DeskRecord, Draw, Message, Refusal, Settings,
    MOST_DECKS,
};

/// The file of a bench. Longer bytes keep what they held.
fn file(bench: &Bench) -> Vec<u8> {
    let length = bench.file_length().unwrap();
    let mut bytes = vec![0xa5; length + 9];
    assert_eq!(bench.save(&mut bytes), Ok(length));
    assert_eq!(bytes.split_off(length), [0xa5; 9]);
    bytes
}

fn reopened(bench: &Bench) -> Bench {
    Bench::open(&file(bench)).unwrap()
}

/// The file with the sum made right again.
fn mended(mut file: Vec<u8>) -> Vec<u8> {
    let end = file.len() - 2;
    let sum = file[..end].iter().fold(0_u16, |sum, &byte| sum.wrapping_add(byte.into()));
    file[end..].copy_from_slice(&sum.to_le_bytes());
    file
}

/// The file with this byte, and the sum mended.
fn with(mut file: Vec<u8>, place: usize, byte: u8) -> Vec<u8> {
    file[place] = byte;
    mended(file)
}

#[test]
fn instances() {
    let mut bench = Bench::start(A).unwrap();
    assert_eq!(bench.file_length(), Ok(12_632));
    assert_eq!(file(&bench)[12_620..], [48, 0, 0, 0, 216, 32, 0, 0, 4, 0, 10, 4]);
    bench.run_all(&[P2], |_| ()).whole().unwrap();
    assert_eq!(file(&bench)[12_620..], [48, 0, 0, 0, 216, 32, 0, 0, 4, 0, 31, 4]);
    let full = Settings { decks: 32, leeway: 2, share: 2, rank: 500, slots: 3000, codes: 65536 };
    assert_eq!(full.file_length(), Ok(2_200_588));
    let full = Bench::start(full).unwrap();
    assert!(reopened(&full) == full);
}

/// Whatever is asked of both: the same answers, and the same bench after it.
#[test]
fn it_goes_on() {
    for settings in SOME_SETTINGS {
        let draws = some_draws(&settings, 900, 5 + settings.slots);
        let mut open = Bench::start(settings).unwrap();
        let mut closing = reopened(&open);
        for (place, part) in draws.chunks(9).enumerate() {
            let (mut sent, mut also_sent) = (Vec::new(), Vec::new());
            if place % 2 == 0 {
                let run = open.run_all(part, |message| sent.push(message));
                assert_eq!(closing.run_all(part, |message| also_sent.push(message)), run);
                assert_eq!(run.accepted, part.len());
            } else {
                for &draw in part {
                    sent.extend(take(&mut open, draw).unwrap());
                    also_sent.extend(take(&mut closing, draw).unwrap());
                }
            }
            assert_eq!(sent, also_sent);
            assert_eq!(closing.listed(), open.listed());
            assert_eq!(closing.class(), open.class());
            assert_eq!(closing.margin(1), open.margin(1));
            assert_eq!(closing.messages(), open.messages());
            assert_eq!(closing.parts().decks.messages, open.parts().decks.messages);
            closing = reopened(&closing);
            assert!(closing == open);
        }
        assert!(open.messages() > 0);
    }
}

/// Closed before every message and every announcement of a delivery. What waits is the caller's.
#[test]
fn in_mid_delivery() {
    let mut phases = [0; 4];
    for settings in SOME_SETTINGS {
        let mut open = Bench::start(settings).unwrap();
        let mut closing = open.clone();
        for &draw in &some_draws(&settings, 30, 3) {
            let sent = take(&mut open, draw).unwrap();
            let mut waiting: VecDeque<Message> = closing.draw(draw).unwrap().into_iter().collect();
            let mut also_sent = Vec::new();
            loop {
                phases[closing.desk().phase as usize] += 1;
                closing = reopened(&closing);
                let next = match waiting.pop_front() {
                    Some(next) => next,
                    None => match closing.announcement().unwrap() {
                        Some(announcement) => announcement,
                        None => break,
                    },
                };
                also_sent.push(next);
                waiting.extend(closing.hand_over(next).unwrap());
            }
            assert_eq!(also_sent, sent);
            assert!(closing == open);
        }
    }
    assert!(phases.iter().all(|&times| times > 10), "{phases:?}");
}

/// Decks that the bench hasn't come back fresh, with no message counted, and memory as long as the
/// settings ask.
#[test]
fn what_is_not_saved() {
    let mut bench = Bench::start(A).unwrap();
    take(&mut bench, P2).unwrap();
    let mut parts = bench.clone().into_parts();
    parts.decks.deck[1].threshold = 0;
    parts.decks.deck[31].draws = 5;
    parts.decks.messages[1..].fill(u64::MAX);
    parts.deck_memory.push(u32::MAX);
    parts.desk_memory.push(u64::MAX);
    let longer = Bench::from_parts(parts);
    assert_eq!(file(&longer), file(&bench));
    assert_eq!(reopened(&longer), bench);
}

/// The files that the separate implementation made, where they are at hand: a release has none.
#[test]
fn files_of_the_repository() {
    let folder = Path::new(env!("CARGO_MANIFEST_DIR")).join("../../tests/files");
    if !folder.is_dir() {
        return;
    }
    let fresh = Bench::start(A).unwrap();
    let mut after_p3 = fresh.clone();
    after_p3.run_all(&[P2; 6], |_| ()).whole().unwrap();
    let mut announcing = fresh.clone();
    let reports = announcing.draw(P2).unwrap();
    assert_eq!(announcing.hand_over(reports[0]), Ok(None));
    let poll = announcing.hand_over(reports[1]).unwrap().unwrap();
    let answer = announcing.hand_over(poll).unwrap().unwrap();
    assert_eq!(announcing.hand_over(answer), Ok(None));
    let mut two = Bench::start(Settings { decks: 2, ..A }).unwrap();
    two.run_all(&[P2, Draw { deck: 1, ..P2 }], |_| ()).whole().unwrap();
    let three = probing();
    for (name, bench) in [
        ("a_fresh.bench", &fresh),
        ("a_after_p3.bench", &after_p3),
        ("a_announcing.bench", &announcing),
        ("two_decks.bench", &two),
        ("three_probing.bench", &three),
    ] {
        let bytes = fs::read(folder.join(name)).expect(name);
        assert_eq!(Bench::open(&bytes).as_ref(), Ok(bench), "{name}");
        assert!(file(bench) == bytes, "{name}");
    }
    assert_eq!(reopened(&announcing).announcement(), Ok(Some(message(7, 0, 1, 1))));
    assert_eq!((two.messages_of(0), two.messages_of(1)), (Some(5), Some(5)));
    // The last two in the layout with one count of messages.
    for (name, decks) in [("two_decks_older.bench", 2), ("three_probing_older.bench", 3)] {
        let bytes = fs::read(folder.join(name)).expect(name);
        let settings = Settings { decks, ..A };
        assert_eq!(bytes.len() + 8 * (decks as usize - 1), settings.file_length().unwrap());
        assert_eq!(Bench::open(&bytes), Err(Refusal::FileUnreadable), "{name}");
        let lengths = settings.lengths().unwrap();
        let mut deck_memory = vec![77; lengths.decks_numbers as usize];
        let mut desk_memory = vec![78; lengths.desk_numbers as usize];
        let answer = calls::load(&bytes, &mut deck_memory, &mut desk_memory);
        assert_eq!(answer, Err(Refusal::FileUnreadable), "{name}");
        assert!(deck_memory.iter().all(|&number| number == 77), "{name}");
        assert!(desk_memory.iter().all(|&number| number == 78), "{name}");
    }
}

/// Three decks, settings A otherwise, after 17 draws by a run; the 18th closes the round, and is
/// delivered up to deck 0's answer to the first probe.
fn probing() -> Bench {
    let mut bench = Bench::start(Settings { decks: 3, ..A }).unwrap();
    let draw = |place: u32| Draw { deck: place % 3, code: 1, class: 5 };
    bench.run_all(&(0..17).map(draw).collect::<Vec<_>>(), |_| ()).whole().unwrap();
    let mut waiting: VecDeque<Message> = bench.draw(draw(17)).unwrap().into_iter().collect();
    while waiting[0] != message(5, 1, 511, 0) {
        let next = waiting.pop_front().unwrap();
        waiting.extend(bench.hand_over(next).unwrap());
    }
    bench
}

#[test]
fn saving_refused() {
    let mut bench = Bench::start(A).unwrap();
    take(&mut bench, P2).unwrap();
    let parts = bench.clone().into_parts();
    let refusal = |change: fn(&mut BenchParts), room: usize| {
        let mut changed = parts.clone();
        change(&mut changed);
        let (changed, mut bytes) = (Bench::from_parts(changed), vec![0xa5; room]);
        let before = changed.clone();
        let refusal = changed.save(&mut bytes).unwrap_err();
        assert!(bytes.iter().all(|&byte| byte == 0xa5));
        assert_eq!(changed, before);
        refusal
    };
    let room = 12_632;
    let out_of_range = refusal(|parts| parts.settings.decks = 33, 0);
    assert_eq!(out_of_range, Refusal::SettingOutOfRange);
    assert_eq!(refusal(|parts| parts.settings.share = 999, 0), Refusal::ShareBelowLeeway);
    assert_eq!(refusal(|parts| parts.settings.slots = 5, 0), Refusal::TooFewSlots);
    assert_eq!(refusal(|parts| parts.deck_memory.truncate(1047), room), Refusal::MemoryTooShort);
    assert_eq!(refusal(|parts| parts.desk_memory.truncate(1033), room), Refusal::MemoryTooShort);
    assert_eq!(refusal(|_| (), room - 1), Refusal::MemoryTooShort);
    assert_eq!(refusal(|_| (), 0), Refusal::MemoryTooShort);
    let inconsistent = Refusal::MemoryInconsistent;
    assert_eq!(refusal(|parts| parts.desk.signals = 2, room), inconsistent);
    assert_eq!(refusal(|parts| parts.decks.deck[0].draws = 2, room), inconsistent);
    assert_eq!(refusal(|parts| parts.decks.messages[0] = 100_000_000_000_001, room), inconsistent);
    assert_eq!(refusal(|parts| parts.desk.signals = 2, room - 1), Refusal::MemoryTooShort);
}

#[test]
fn opening_refused() {
    let mut bench = Bench::start(A).unwrap();
    take(&mut bench, P2).unwrap();
    let good = file(&bench);
    let refusal = |file: &[u8]| {
        // Lent memory of a plenty, and none at all: nothing of it changes.
        let refusal = Bench::open(file).unwrap_err();
        let (mut decks, mut desk) = (vec![77; 2000], vec![78; 2000]);
        assert_eq!(calls::load(file, &mut decks, &mut desk), Err(refusal));
        assert!(decks.iter().all(|&number| number == 77));
        assert!(desk.iter().all(|&number| number == 78));
        refusal
    };
    for length in [0, 1, 47, 48, 59, 60, 12_620, 12_631] {
        let unreadable = [Refusal::FileUnreadable, Refusal::ChecksumWrong];
        assert!(unreadable.contains(&refusal(&good[..length])), "{length} bytes");
    }
    for length in [60, 1000, 12_631] {
        let cut = [&good[..length - 12], &good[12_620..]].concat();
        assert_eq!(refusal(&mended(cut)), Refusal::FileUnreadable);
    }
    let longer = [&good[..], &good[12_620..]].concat();
    assert_eq!(refusal(&mended(longer)), Refusal::FileUnreadable);
    let mut changed = good.clone();
    changed[100] = 1;
    assert_eq!(refusal(&changed), Refusal::ChecksumWrong);
    // The sum is only looked at where the width is right.
    changed[12_628] = 8;
    assert_eq!(refusal(&changed), Refusal::FileUnreadable);
    let of = |place, byte| refusal(&with(good.clone(), place, byte));
    // Decks 0, 33, and 1 + 2^32; share 488; slots 5; decks 2, which give another length.
    assert_eq!(of(0, 0), Refusal::SettingOutOfRange);
    assert_eq!(of(0, 33), Refusal::SettingOutOfRange);
    assert_eq!(of(4, 1), Refusal::SettingOutOfRange);
    assert_eq!(of(17, 1), Refusal::ShareBelowLeeway);
    assert_eq!(of(32, 5), Refusal::TooFewSlots);
    assert_eq!(of(0, 2), Refusal::FileUnreadable);
    // Both offsets; the phase; the signals.
    assert_eq!(of(12_620, 49), Refusal::FileUnreadable);
    assert_eq!(of(12_624, 215), Refusal::FileUnreadable);
    assert_eq!(of(48 + 8 * 1039, 4), Refusal::FileUnreadable);
    assert_eq!(of(48 + 8 * 1037, 2), Refusal::MemoryInconsistent);
    assert_eq!(Bench::open(&good), Ok(bench));
}

/// Memory of one number less than the settings in the file ask for is 4, and nothing changes.
#[test]
fn short_memory() {
    let bytes = file(&Bench::start(A).unwrap());
    for (deck_numbers, desk_numbers) in [(1047, 1034), (1048, 1033), (0, 0), (0, 1034), (1048, 0)] {
        let (mut decks, mut desk) = (vec![77; deck_numbers], vec![78; desk_numbers]);
        assert_eq!(calls::load(&bytes, &mut decks, &mut desk), Err(Refusal::MemoryTooShort));
        assert_eq!((decks, desk), (vec![77; deck_numbers], vec![78; desk_numbers]));
    }
    let (mut decks, mut desk) = (vec![77; 1049], vec![78; 1035]);
    let loaded = calls::load(&bytes, &mut decks, &mut desk).unwrap();
    assert_eq!(loaded.settings, A);
    assert_eq!((decks[1047], decks[1048]), (0, 77));
    assert_eq!((desk[1033], desk[1034]), (0, 78));
}

/// What the C functions would hand out stays as it was where they refuse.
#[test]
fn nothing_is_handed_out() {
    let wrong = Settings { decks: 33, ..A };
    let (mut decks, mut desk) = (DecksRecord::default(), DeskRecord::default());
    decks.messages = [70; MOST_DECKS];
    desk.total = 71;
    let before = (decks, desk);
    let (mut few, mut desk_few) = ([77; 4], [78; 4]);
    let (mut settings, mut bytes, mut length) = (wrong, [79; 60], 80);
    // SAFETY: every pointer comes from one of the locals above, with its length, and no two of a
    // call are to the same one.
    let answers = unsafe {
        [
            raw::tracker_file_length(&wrong, &mut length),
            raw::tracker_save(
                &wrong,
                &decks,
                &desk,
                few.as_ptr(),
                4,
                desk_few.as_ptr(),
                4,
                bytes.as_mut_ptr(),
                60,
                &mut length,
            ),
            raw::tracker_load(
                bytes.as_ptr(),
                60,
                &mut settings,
                &mut decks,
                &mut desk,
                few.as_mut_ptr(),
                4,
                desk_few.as_mut_ptr(),
                4,
            ),
        ]
    };
    assert_eq!(answers, [1, 1, 15]);
    assert_eq!((settings, length, bytes), (wrong, 80, [79; 60]));
    assert_eq!(((decks, desk), few, desk_few), (before, [77; 4], [78; 4]));
}

/// A draw's class is in the file as it was: what was never drawn is not there after it.
#[test]
fn another_bench_is_another_file() {
    let mut bench = Bench::start(A).unwrap();
    take(&mut bench, P2).unwrap();
    let mut other = Bench::start(A).unwrap();
    take(&mut other, Draw { class: 4, ..P2 }).unwrap();
    assert!(file(&bench) != file(&other));
    assert_eq!(reopened(&bench).class(), Ok(Some(3)));
    assert_eq!(reopened(&other).class(), Ok(Some(4)));
}
