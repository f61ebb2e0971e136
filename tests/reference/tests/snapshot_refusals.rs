//! Request N3's refusals: files that are spoilt in every place, each refusal alone and with others,
//! and that a refused call changes nothing.

mod support;

use reference::coordinator::Phase;
use reference::refusal::*;
use support::causes::{above_threshold_1, at_threshold_1, in_phase, COORDINATOR_CAUSES};
use support::causes::{COUNT_CAUSES, NETWORK_CAUSES, SITE, SITE_CAUSES, THRESHOLD_1_CAUSES};
use support::defects::{for_all_sets, Defect};
use support::saved::{announcing, enough, load, load_beside_plain};
use support::saved::{mend, number_at, patched, Places};
use support::{arrival, Random, TestNetwork, A};

/// Bytes of a file of settings A.
const LENGTH: usize = 12_632;
/// Where its settings, its parts and its trailer begin, with the numbers of the desk's record.
const E: usize = 8;
const P: usize = 16;
const Q: usize = 24;
const C: usize = 32;
const U: usize = 40;
const DESK: usize = 48;
const RECORD: usize = DESK + 8 * (10 + 1024);
const SIGNALS: usize = RECORD + 8 * 3;
const CLASS: usize = RECORD + 8 * 4;
const PHASE: usize = RECORD + 8 * 5;
const COUNT: usize = PHASE + 8 * 5;
const DECKS: usize = 8408;
const TRAILER: usize = LENGTH - 12;
const WIDTH: usize = LENGTH - 4;
const SUM: usize = LENGTH - 2;

/// 2^32, which is 0 where a number is narrowed too early.
const WIDE: u64 = 1 << 32;

/// The places of settings A, with some to spare.
fn places() -> Places {
    enough(&TestNetwork::start(A).settings)
}

/// Settings A after seven draws: the threshold is 2, and something is pending.
fn at_rest() -> TestNetwork {
    let mut network = TestNetwork::start(A);
    network.take(&[arrival(0, 7, 3); 7]);
    assert_eq!(network.sites.records[0].pending, 1);
    network
}

/// Small files at rest, in mid-delivery and in the middle of a halving.
fn small_files() -> [Vec<u8>; 4] {
    let mut probing = at_rest();
    in_phase(&mut probing, Phase::Probing { site: 0, low: 2, high: 3, sum: 5 }, 1);
    [TestNetwork::start(A), at_rest(), announcing(), probing].map(|network| network.file())
}

/// The file with this number of 8 bytes, and what reading it answers.
fn with(file: &[u8], place: usize, number: u64) -> Result<TestNetwork, u8> {
    load_beside_plain(&patched(file, place, number, 8), places())
}

/// A change of one byte always shows in the sum, except where the width is tested first.
#[test]
fn one_byte_changed() {
    let mut random = Random::new(911);
    for file in small_files() {
        for place in 0..LENGTH {
            let other = file[place] ^ random.between(1, 255) as u8;
            for byte in [file[place].wrapping_add(1), file[place] ^ 0x80, other] {
                let mut changed = file.clone();
                changed[place] = byte;
                let refusal = if (WIDTH..SUM).contains(&place) { 15 } else { 16 };
                assert_eq!(load(&changed, places()).err(), Some(refusal), "byte {place}");
            }
        }
    }
}

/// With the sum mended, each number is seen by the test that is for it, or it passes.
#[test]
fn one_byte_changed_and_mended() {
    let mut random = Random::new(912);
    let mut answers = [0; 17];
    for file in small_files() {
        for place in 0..SUM {
            let other = file[place] ^ random.between(1, 255) as u8;
            for byte in [file[place] ^ 1, file[place] ^ 0x80, other] {
                let mut changed = file.clone();
                changed[place] = byte;
                mend(&mut changed);
                let answer = load_beside_plain(&changed, places());
                answers[usize::from(answer.err().unwrap_or(ACCEPTED))] += 1;
            }
        }
    }
    for number in [0, 1, 3, 11, 15] {
        assert!(answers[number] > 10, "{answers:?}");
    }
    assert!(answers[2] > 0 && answers[4] + answers[16] == 0, "{answers:?}");
}

/// Two bytes exchanged have the same sum: request N3 promises no more.
#[test]
fn two_bytes_exchanged() {
    let mut file = at_rest().file();
    let unused = DECKS + 4 * 20;
    file[unused] = 1;
    mend(&mut file);
    file.swap(unused, unused + 1);
    let read = load_beside_plain(&file, places()).expect("a slot that is not in use");
    assert_eq!(read.site_memory[20], 256);
}

#[test]
fn cut_short() {
    for file in small_files() {
        for length in 0..LENGTH {
            // The bytes before the cut end in what is no trailer.
            let refusal = load_beside_plain(&file[..length], places()).err();
            assert!(refusal == Some(15) || refusal == Some(16), "{length}: {refusal:?}");
            assert!(length >= 60 || refusal == Some(15), "{length}: {refusal:?}");
        }
        for cut in 1..=LENGTH - 12 {
            // The trailer is kept and mended, so the length alone is wrong.
            let mut short = file[..TRAILER - cut].to_vec();
            short.extend(&file[TRAILER..]);
            mend(&mut short);
            assert_eq!(load_beside_plain(&short, places()), Err(15), "{cut} bytes cut");
        }
    }
}

/// Under 60 bytes is 15 whatever they hold; 60 bytes with another sum are 16, with theirs they have
/// settings, which are tested next.
#[test]
fn sixty_bytes() {
    let mut bytes = [0; 60];
    bytes[56] = 4;
    mend(&mut bytes);
    assert_eq!(load_beside_plain(&bytes, (0, 0)), Err(1));
    assert_eq!(load_beside_plain(&bytes[1..], (0, 0)), Err(15));
    bytes[0] = 1;
    assert_eq!(load_beside_plain(&bytes, (0, 0)), Err(16));
    bytes[56] = 8;
    assert_eq!(load_beside_plain(&bytes, (0, 0)), Err(15));
    let file = TestNetwork::start(A).file();
    bytes[..48].copy_from_slice(&file[..48]);
    bytes[48..].copy_from_slice(&file[TRAILER..]);
    mend(&mut bytes);
    assert_eq!(load_beside_plain(&bytes, (0, 0)), Err(15));
}

#[test]
fn extended() {
    for file in small_files() {
        for more in [1, 2, 3, 4, 8, 12, 100, LENGTH] {
            let mut longer = file.clone();
            longer.resize(LENGTH + more, 0);
            let refusal = load_beside_plain(&longer, places()).err();
            assert!(refusal == Some(15) || refusal == Some(16), "{more}: {refusal:?}");
            // Its own trailer at the end, and mended.
            longer[LENGTH + more - 12..].copy_from_slice(&file[TRAILER..]);
            mend(&mut longer);
            assert_eq!(load_beside_plain(&longer, places()), Err(15), "{more}");
            let mut inserted = file[..TRAILER].to_vec();
            inserted.resize(TRAILER + more, 0);
            inserted.extend(&file[TRAILER..]);
            mend(&mut inserted);
            assert_eq!(load_beside_plain(&inserted, places()), Err(15), "{more}");
        }
    }
}

#[test]
fn settings_patched() {
    let file = TestNetwork::start(A).file();
    // Each out of its range, and numbers of which the lowest bytes would pass.
    let limits = [(1, 32), (2, 1000), (1, 1000), (1, 1000), (1, 3000), (1, 65_536)];
    for (place, (least, most)) in (0..).zip(limits) {
        for number in [0, least - 1, most + 1, WIDE, WIDE + most, WIDE << 16, u64::MAX] {
            assert_eq!(with(&file, 8 * place, number), Err(1), "setting {place}: {number}");
        }
    }
    for (place, number) in (0..).zip([1, 1000, 1000, 500, 6, 10]) {
        assert_eq!(with(&file, 8 * place, WIDE + number), Err(1), "setting {place}");
        assert!(with(&file, 8 * place, number).is_ok());
    }
    // 2 and 3, and what gives another length or other offsets.
    assert_eq!(with(&file, P, 999), Err(2));
    assert_eq!(with(&file, E, 999), Err(3));
    assert_eq!(with(&file, C, 5), Err(3));
    for (place, number) in [(0, 2), (0, 32), (C, 7), (C, 3000), (U, 1), (U, 9), (U, 11)] {
        assert_eq!(with(&file, place, number), Err(15), "{number} at {place}");
    }
    // The rank says nothing of the layout.
    for rank in [1, 499, 501, 1000] {
        let read = with(&file, Q, rank).expect("another rank");
        assert_eq!(u64::from(read.settings.rank), rank);
    }
}

#[test]
fn offsets_and_width_patched() {
    for file in small_files() {
        for (place, right) in [(TRAILER, DESK as u64), (TRAILER + 4, DECKS as u64)] {
            for number in [0, 1, right - 1, right + 1, right + 65_536, WIDE - 1, 48 + DECKS as u64]
            {
                let changed = patched(&file, place, number, 4);
                assert_eq!(load_beside_plain(&changed, places()), Err(15), "{number} at {place}");
            }
        }
        // Both exchanged: the sum is the same.
        let mut exchanged = file.clone();
        exchanged.copy_within(TRAILER..TRAILER + 4, TRAILER + 4);
        exchanged[TRAILER..TRAILER + 4].copy_from_slice(&file[TRAILER + 4..TRAILER + 8]);
        assert_eq!(load_beside_plain(&exchanged, places()), Err(15));
        for width in [0, 1, 2, 3, 5, 8, 4 + 256, 4 * 256, 65_535] {
            let mut changed = patched(&file, WIDTH, width, 2);
            assert_eq!(load_beside_plain(&changed, places()), Err(15), "width {width}");
            // The width is tested before the sum.
            changed[SUM] ^= 1;
            assert_eq!(load_beside_plain(&changed, places()), Err(15), "width {width}");
        }
    }
}

/// The file of settings A with a phase of these numbers and as many signals as it needs.
fn with_phase(numbers: [u64; 5]) -> Result<TestNetwork, u8> {
    let mut file = TestNetwork::start(A).file();
    for (place, number) in (0..).zip(numbers) {
        file = patched(&file, PHASE + 8 * place, number, 8);
    }
    with(&file, SIGNALS, u64::from(numbers[0] != 0))
}

#[test]
fn phases_patched() {
    for number in [4, 5, 255, 256, WIDE, WIDE + 1, WIDE + 3, u64::MAX] {
        assert_eq!(with_phase([number, 0, 0, 0, 0]), Err(15), "phase {number}");
        assert_eq!(with_phase([number, 0, 0, 1, 0]), Err(15), "phase {number}");
    }
    // A number that is not in use is 0, however wide it is.
    for (phase, first_unused) in [(0, 1), (1, 2), (3, 2)] {
        assert!(with_phase([phase, 0, 0, 0, 0]).is_ok());
        for place in first_unused..5 {
            for number in [1, 256, WIDE, 1 << 63, u64::MAX] {
                let mut numbers = [phase, 0, 0, 0, 0];
                numbers[place] = number;
                assert_eq!(with_phase(numbers), Err(15), "{numbers:?}");
            }
        }
    }
    // Those in use have the memory rules.
    let largest = 100_000_000_000;
    for good in [[2, 0, 0, 1, 0], [2, 0, 0, 1023, largest], [2, 0, 1022, 1023, 6]] {
        assert!(with_phase(good).is_ok(), "{good:?}");
    }
    let outside = [
        [1, 1, 0, 0, 0],
        [3, 1, 0, 0, 0],
        [2, 1, 0, 1, 0],
        [2, 0, 0, 0, 0],
        [2, 0, 2, 1, 0],
        [2, 0, 0, 1024, 0],
        [2, 0, 0, 1, largest + 1],
        [1, WIDE, 0, 0, 0],
        [3, WIDE, 0, 0, 0],
        [2, WIDE, 0, 1, 0],
        [2, 0, WIDE, 1, 0],
        [2, 0, WIDE, WIDE + 1, 0],
        [2, 0, 0, WIDE + 1, 0],
        [2, 0, 0, 1, u64::MAX],
    ];
    for numbers in outside {
        assert_eq!(with_phase(numbers), Err(11), "{numbers:?}");
    }
}

/// Numbers of 8 bytes are taken whole: 2^32 more is another number wherever it stands.
#[test]
fn wide_numbers() {
    let file = at_rest().file();
    let wide = |place: usize| {
        let number = number_at(&file, place, 8);
        with(&file, place, WIDE + number)
    };
    for place in [0, E, P, Q, C, U] {
        assert_eq!(wide(place), Err(1), "byte {place}");
    }
    for place in [RECORD + 8, RECORD + 16, SIGNALS, CLASS] {
        assert_eq!(wide(place), Err(11), "byte {place}");
    }
    for place in [0, 1, 2, 3, 4] {
        assert_eq!(wide(PHASE + 8 * place), Err(15), "phase number {place}");
    }
    // Where so much is allowed, it comes back whole.
    assert_eq!(wide(COUNT).expect("a count").sites.messages[0], WIDE + 50);
    assert_eq!(wide(DESK).expect("an estimate").coordinator_memory[0], WIDE);
    assert_eq!(wide(RECORD).expect("a total").coordinator.total, WIDE + 6);
    assert_eq!(with(&file, COUNT, 100_000_000_000_001), Err(11));
}

/// A file, and the memory lent for it. Where `other_sum`, the sum is not mended.
#[derive(Clone)]
struct LoadCall {
    file: Vec<u8>,
    other_sum: bool,
    places: Places,
}

fn patch(call: &mut LoadCall, place: usize, number: u64, width: usize) {
    call.file = patched(&call.file, place, number, width);
}

#[test]
fn reading_in_order() {
    let defects: [Defect<LoadCall>; 10] = [
        (MALFORMED_FILE, |call| patch(call, WIDTH, 8, 2)),
        (SUM_DIFFERS, |call| call.other_sum = true),
        (SETTING_RANGE, |call| patch(call, Q, 0, 8)),
        (PHI_BELOW_EPSILON, |call| patch(call, P, 999, 8)),
        (TOO_FEW_COUNTERS, |call| patch(call, C, 5, 8)),
        (MALFORMED_FILE, |call| patch(call, TRAILER + 4, DECKS as u64 + 4, 4)),
        (MALFORMED_FILE, |call| patch(call, PHASE, 4, 8)),
        (SHORT_MEMORY, |call| call.places.0 = 24 + 1023),
        (SHORT_MEMORY, |call| call.places.1 = 10 + 1023),
        (INCONSISTENT, |call| patch(call, SIGNALS, 2, 8)),
    ];
    for file in small_files() {
        let good = LoadCall { file, other_sum: false, places: (24 + 1024, 10 + 1024) };
        for_all_sets(&good, &defects, |mut call, refusal| {
            if call.other_sum {
                call.file[SUM] ^= 1;
            }
            assert_eq!(load_beside_plain(&call.file, call.places), Err(refusal));
        });
        assert!(load_beside_plain(&good.file, good.places).is_ok());
        // The other ones of the second 15, with those around them.
        let settings = patched(&good.file, U, 9, 8);
        assert_eq!(load_beside_plain(&settings, (0, 0)), Err(15));
        let unused = patched(&good.file, PHASE, 0, 8);
        let unused = patched(&unused, PHASE + 32, 1, 8);
        assert_eq!(load_beside_plain(&unused, (0, 0)), Err(15));
        let no_places = patched(&good.file, SIGNALS, 2, 8);
        assert_eq!(load_beside_plain(&no_places, (0, 0)), Err(4));
    }
}

#[derive(Clone, Debug, PartialEq)]
struct SaveCall {
    network: TestNetwork,
    bytes: Vec<u8>,
}

#[test]
fn saving_in_order() {
    let defects: [Defect<SaveCall>; 9] = [
        (SETTING_RANGE, |call| call.network.settings.rank = 0),
        (PHI_BELOW_EPSILON, |call| call.network.settings.phi = 999),
        (TOO_FEW_COUNTERS, |call| call.network.settings.capacity = 5),
        (SHORT_MEMORY, |call| call.network.site_memory.truncate(24 + 1023)),
        (SHORT_MEMORY, |call| call.network.coordinator_memory.truncate(10 + 1023)),
        (SHORT_MEMORY, |call| call.bytes.truncate(LENGTH - 1)),
        (INCONSISTENT, |call| call.network.coordinator.signals = 2),
        (INCONSISTENT, |call| call.network.sites.records[0].dropped = 1 << 32),
        (INCONSISTENT, |call| call.network.sites.messages[0] = 100_000_000_000_001),
    ];
    for network in [TestNetwork::start(A), at_rest(), announcing()] {
        let good = SaveCall { network, bytes: vec![77; LENGTH] };
        for_all_sets(&good, &defects, |mut call, refusal| {
            let before = call.clone();
            assert_eq!(call.network.save(&mut call.bytes), Err(refusal));
            assert!(call == before);
        });
        let mut call = good;
        assert_eq!(call.network.save(&mut call.bytes), Ok(LENGTH));
        assert!(call.bytes == call.network.file());
    }
}

/// No memory at all and no bytes are 4 as well; settings come before.
#[test]
fn nothing_lent() {
    let mut network = TestNetwork::start(A);
    let file = network.file();
    assert_eq!(load(&file, (0, 0)).err(), Some(4));
    assert_eq!(load(&file, (0, 10 + 1024)).err(), Some(4));
    assert_eq!(load(&file, (24 + 1024, 0)).err(), Some(4));
    assert_eq!(network.save(&mut []), Err(4));
    network.site_memory.clear();
    network.coordinator_memory.clear();
    assert_eq!(network.save(&mut vec![0; LENGTH]), Err(4));
    network.settings.sites = u32::MAX;
    assert_eq!(network.save(&mut []), Err(1));
}

/// Every cause of refusal 11, on saving and on reading. The network's own causes are for the batch
/// call; the limits of the message counts are for all three.
#[test]
fn inconsistencies() {
    for start in [at_threshold_1(), above_threshold_1()] {
        for (place, cause) in SITE_CAUSES.iter().enumerate() {
            let mut network = start.clone();
            cause(&mut network.sites.records[1], &mut network.site_memory[SITE..]);
            check_inconsistent(&network, place);
        }
        for (place, cause) in COORDINATOR_CAUSES.iter().enumerate() {
            let mut network = start.clone();
            cause(&mut network);
            check_inconsistent(&network, place);
        }
        for (place, cause) in COUNT_CAUSES.iter().enumerate() {
            let mut network = start.clone();
            cause(&mut network);
            check_inconsistent(&network, place);
        }
        for (place, cause) in NETWORK_CAUSES.iter().enumerate() {
            let mut network = start.clone();
            cause(&mut network);
            // Sites from k on may have been changed too: they are not saved.
            let records = &start.sites.records[2..];
            network.sites.records[2..].copy_from_slice(records);
            assert_eq!(network.refusal(), INCONSISTENT, "cause {place}");
            assert!(network.reopened() == network, "cause {place}");
        }
    }
    for (place, cause) in THRESHOLD_1_CAUSES.iter().enumerate() {
        let mut network = at_threshold_1();
        cause(&mut network);
        check_inconsistent(&network, place);
    }
}

fn check_inconsistent(network: &TestNetwork, place: usize) {
    assert_eq!(network.saved(), Err(INCONSISTENT), "cause {place}");
    let file = network.plain_file();
    let answer = load_beside_plain(&file, enough(&network.settings));
    assert_eq!(answer, Err(INCONSISTENT), "cause {place}");
}

/// The last site and its last number are tested before the first is stored.
#[test]
fn the_last_number_of_the_last_site() {
    let mut network = TestNetwork::start([32, 600, 700, 500, 10, 20]);
    network.take(&[arrival(31, 1, 2)]);
    let file = network.file();
    let dropped = file.len() - 12 - 4;
    let places = enough(&network.settings);
    assert!(load_beside_plain(&patched(&file, dropped, 1, 4), places).is_ok());
    assert_eq!(load_beside_plain(&patched(&file, dropped, 2, 4), places), Err(11));
    assert_eq!(load_beside_plain(&patched(&file, dropped, WIDE - 1, 4), places), Err(11));
}

/// Any bytes are read or refused, most of them with the width and the sum made right.
#[test]
fn any_bytes() {
    let mut random = Random::new(913);
    let files = small_files();
    let mut answers = [0; 17];
    for _ in 0..4000 {
        let mut bytes = if random.one_in(4) {
            (0..random.below(200)).map(|_| random.next() as u8).collect()
        } else {
            random.pick(&[0, 1, 2, 3].map(|place| &files[place])).clone()
        };
        for _ in 0..random.below(4) {
            if let Some(last) = bytes.len().checked_sub(1) {
                let wide = random.below(1 + last as u64 / 8) as usize * 8;
                let place = random.pick(&[wide, wide, last - last.min(wide % 13)]);
                bytes[place] = random.pick(&[0, 1, 2, 4, 8, 255]);
            }
        }
        if random.one_in(8) {
            bytes.truncate(random.below(1 + bytes.len() as u64) as usize);
        }
        if bytes.len() >= 12 && !random.one_in(5) {
            let width = bytes.len() - 4;
            bytes[width..width + 2].copy_from_slice(&[4, 0]);
            mend(&mut bytes);
        }
        let fewer = (random.pick(&[24 + 1024, 24 + 1023]), 10 + 1024);
        let answer = load_beside_plain(&bytes, fewer);
        answers[usize::from(answer.err().unwrap_or(ACCEPTED))] += 1;
    }
    for number in [0, 1, 4, 11, 15, 16] {
        assert!(answers[number] > 10, "{answers:?}");
    }
}
