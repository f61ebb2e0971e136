//! What the calls are lent, on the proved code alone: memory of the least length is accepted, and
//! one number less is 4; numbers past every end stay; a refused call changes nothing, its record
//! and what it would hand out included; a coordinator's record that the calls never leave is 11.

use boundary::*;
use draw_tracker::{calls, DecksRecord, DeskRecord, Settings};

const A: [u32; 6] = [1, 1000, 1000, 500, 6, 10];
const FRESH_SITE: [u64; SITE_NUMBERS] = [0, 0, 1, 0, 0];
const FRESH_COORDINATOR: [u64; COORDINATOR_NUMBERS] = [0, 0, 1, 0, 0, 0, 0, 0, 0, 0];
/// Announcing to its only site, after a close.
const ANNOUNCING: [u64; COORDINATOR_NUMBERS] = [0, 0, 1, 1, 0, 3, 0, 0, 0, 0];
const SITE_WORDS: usize = 4 * 6 + 1024;
const COORDINATOR_WORDS: usize = 10 + 1024;
const POLL: Message = Message { kind: 3, site: 0, a: 0, b: 0 };
const REPORT: Message = Message { kind: 1, site: 0, a: 7, b: 1 };
const SHORT: u32 = 4;
const INCONSISTENT: u32 = 11;

/// What stands in lent numbers before a call.
const JUNK: u64 = 77;

/// Numbers, and some more that no call may touch.
fn more<const FEW: usize>(numbers: [u64; FEW]) -> Vec<u64> {
    numbers.into_iter().chain([JUNK; 3]).collect()
}

/// All sites as a start leaves them, their counts of messages too, and some numbers more.
fn fresh_sites() -> Vec<u64> {
    [&[FRESH_SITE; 32].concat()[..], &[0; 32], &[JUNK; 3]].concat()
}

/// Memory of a call, so long and three numbers more, of which so many are lent.
struct Lent<T> {
    numbers: Vec<T>,
    lent: usize,
}

impl<T: Copy + PartialEq + From<u8>> Lent<T> {
    /// All zeros but the three numbers.
    fn fresh(length: usize, lent: usize) -> Lent<T> {
        let mut numbers = vec![T::from(0); length + 3];
        numbers[length..].fill(T::from(77));
        Lent { numbers, lent }
    }

    fn part(&mut self) -> &mut [T] {
        &mut self.numbers[..self.lent]
    }

    /// Whether any of the first so many numbers is another than 0. The rest must stay.
    fn changed(&self) -> bool {
        let (memory, rest) = self.numbers.split_at(self.numbers.len() - 3);
        assert!(rest.iter().all(|&number| number == T::from(77)));
        memory.iter().any(|&number| number != T::from(0))
    }
}

/// A call with its memory lent in these lengths: the least is accepted, a longer one too, and each
/// shorter one is 4.
fn for_lengths(least: usize, call: impl Fn(usize) -> u32) {
    for lent in [0, 1, 4 * 6, least / 2, least - 1] {
        assert_eq!(call(lent), SHORT, "{lent} of {least}");
    }
    for lent in [least, least + 1, least + 3] {
        assert_eq!(call(lent), 0, "{lent} of {least}");
    }
}

#[test]
fn lengths_of_starts() {
    for_lengths(SITE_WORDS, |lent| {
        let mut memory = vec![77; SITE_WORDS + 3];
        let mut sites = vec![JUNK; SITES_NUMBERS + 3];
        let answer = start_sites(&A, &mut memory[..lent], &mut sites);
        if answer == 0 {
            assert_eq!(memory, [&[0; SITE_WORDS][..], &[77; 3]].concat());
            assert_eq!(sites, fresh_sites());
        } else {
            assert_eq!(memory, [77; SITE_WORDS + 3]);
            assert_eq!(sites, [JUNK; SITES_NUMBERS + 3]);
        }
        answer
    });
    for_lengths(SITE_WORDS, |lent| {
        let mut memory = vec![77; SITE_WORDS + 3];
        let mut site = more([JUNK; SITE_NUMBERS]);
        let answer = start_site(&A, 0, &mut memory[..lent], &mut site);
        if answer == 0 {
            assert_eq!(memory, [&[0; SITE_WORDS][..], &[77; 3]].concat());
            assert_eq!(site, more(FRESH_SITE));
        } else {
            assert_eq!(memory, [77; SITE_WORDS + 3]);
            assert_eq!(site, [JUNK; SITE_NUMBERS + 3]);
        }
        answer
    });
    for_lengths(COORDINATOR_WORDS, |lent| {
        let mut memory = vec![77; COORDINATOR_WORDS + 3];
        let mut numbers = more([JUNK; COORDINATOR_NUMBERS]);
        let answer = start_coordinator(&A, &mut memory[..lent], &mut numbers);
        if answer == 0 {
            assert_eq!(memory, [&[0; COORDINATOR_WORDS][..], &[77; 3]].concat());
            assert_eq!(numbers, more(FRESH_COORDINATOR));
        } else {
            assert_eq!(memory, [77; COORDINATOR_WORDS + 3]);
            assert_eq!(numbers, [JUNK; COORDINATOR_NUMBERS + 3]);
        }
        answer
    });
}

#[test]
fn lengths_at_sites() {
    for_lengths(SITE_WORDS, |lent| {
        let mut memory = Lent::<u32>::fresh(SITE_WORDS, lent);
        let (mut site, mut out) = (more(FRESH_SITE), more([JUNK; 9]));
        let answer = observe(&A, &mut site, [0, 7, 3], memory.part(), &mut out);
        if answer == 0 {
            assert!(memory.changed());
            assert_eq!(site, more([1, 0, 1, 1, 0]));
            assert_eq!(out, more([2, 1, 0, 7, 1, 2, 0, 1, 3]));
        } else {
            assert!(!memory.changed());
            assert_eq!((site, out), (more(FRESH_SITE), more([JUNK; 9])));
        }
        answer
    });
    for_lengths(SITE_WORDS, |lent| {
        let mut memory = Lent::<u32>::fresh(SITE_WORDS, lent);
        let (mut site, mut out) = (more(FRESH_SITE), more([JUNK; 5]));
        let answer = receive_at_site(&A, &mut site, 0, POLL, memory.part(), &mut out);
        assert!(!memory.changed());
        assert_eq!(site, more(FRESH_SITE));
        assert_eq!(out, more(if answer == 0 { [1, 4, 0, 0, 0] } else { [JUNK; 5] }));
        answer
    });
}

/// The same two calls with all sites' records and memory.
#[test]
fn lengths_of_all_sites() {
    let two = [2, 1000, 1000, 500, 6, 10];
    let fresh = fresh_sites();
    for_lengths(2 * SITE_WORDS, |lent| {
        let mut memory = Lent::<u32>::fresh(2 * SITE_WORDS, lent);
        let (mut sites, mut out) = (fresh.clone(), more([JUNK; 9]));
        let answer = observe_in(&two, &mut sites, [1, 7, 3], memory.part(), &mut out);
        if answer == 0 {
            assert_eq!(memory.numbers[..SITE_WORDS], [0; SITE_WORDS]);
            assert!(memory.changed());
            let mut after = fresh.clone();
            after[SITE_NUMBERS..2 * SITE_NUMBERS].copy_from_slice(&[1, 0, 1, 1, 0]);
            assert_eq!(sites, after);
            assert_eq!(out, more([2, 1, 1, 7, 1, 2, 1, 1, 3]));
        } else {
            assert!(!memory.changed());
            assert_eq!((sites, out), (fresh.clone(), more([JUNK; 9])));
        }
        answer
    });
    for_lengths(2 * SITE_WORDS, |lent| {
        let mut memory = Lent::<u32>::fresh(2 * SITE_WORDS, lent);
        let (mut sites, mut out) = (fresh.clone(), more([JUNK; 5]));
        let poll = Message { site: 1, ..POLL };
        let answer = receive_in(&two, &mut sites, poll, memory.part(), &mut out);
        assert!(!memory.changed());
        assert_eq!(sites, fresh);
        assert_eq!(out, more(if answer == 0 { [1, 4, 1, 0, 0] } else { [JUNK; 5] }));
        answer
    });
}

#[test]
fn lengths_at_the_coordinator() {
    for_lengths(COORDINATOR_WORDS, |lent| {
        let mut memory = Lent::<u64>::fresh(COORDINATOR_WORDS, lent);
        let (mut numbers, mut out) = (more(FRESH_COORDINATOR), more([JUNK; 5]));
        let answer = receive_at_coordinator(&A, &mut numbers, REPORT, memory.part(), &mut out);
        assert_eq!(memory.changed(), answer == 0);
        assert_eq!(numbers, more(FRESH_COORDINATOR));
        // Nothing is to be sent: the count and the message become zeros.
        assert_eq!(out, more(if answer == 0 { [0; 5] } else { [JUNK; 5] }));
        answer
    });
    for_lengths(COORDINATOR_WORDS, |lent| {
        let mut memory = Lent::<u64>::fresh(COORDINATOR_WORDS, lent);
        let (mut numbers, mut out) = (more(ANNOUNCING), more([JUNK; 5]));
        let answer = next_announcement(&A, &mut numbers, memory.part(), &mut out);
        assert!(!memory.changed());
        if answer == 0 {
            assert_eq!((numbers, out), (more(FRESH_COORDINATOR), more([1, 7, 0, 1, 0])));
        } else {
            assert_eq!((numbers, out), (more(ANNOUNCING), more([JUNK; 5])));
        }
        answer
    });
    for_lengths(COORDINATOR_WORDS, |lent| {
        let mut memory = Lent::<u64>::fresh(COORDINATOR_WORDS, lent);
        let (mut list, mut out) = ([77; 2], more([JUNK]));
        let memory = memory.part();
        let answer = list_heavy_hitters(&A, &FRESH_COORDINATOR, memory, &mut list, &mut out);
        assert_eq!((list, out), ([77; 2], more([if answer == 0 { 0 } else { JUNK }])));
        answer
    });
    for_lengths(COORDINATOR_WORDS, |lent| {
        let mut memory = Lent::<u64>::fresh(COORDINATOR_WORDS, lent);
        read_margin(&A, &FRESH_COORDINATOR, 7, memory.part()).0
    });
    for_lengths(COORDINATOR_WORDS, |lent| {
        let mut memory = Lent::<u64>::fresh(COORDINATOR_WORDS, lent);
        let mut out = more([JUNK; 2]);
        let answer = read_quantile(&A, &FRESH_COORDINATOR, memory.part(), &mut out);
        assert_eq!(out, more(if answer == 0 { [0; 2] } else { [JUNK; 2] }));
        answer
    });
}

/// A delivery and a batch of one arrival: both memories have their lengths.
#[test]
fn lengths_of_whole_networks() {
    let fresh_sites = fresh_sites();
    let call = |in_batch: bool, site_words: usize, coordinator_words: usize| {
        let mut site_memory = Lent::<u32>::fresh(SITE_WORDS, site_words);
        let mut coordinator_memory = Lent::<u64>::fresh(COORDINATOR_WORDS, coordinator_words);
        let (mut sites, mut coordinator) = (fresh_sites.clone(), more(FRESH_COORDINATOR));
        let (mut log, mut out) = (vec![JUNK; 4 * 25 + 3], more([JUNK; 2]));
        let answer = if in_batch {
            let batch = Batch {
                sites: &mut sites,
                coordinator: &mut coordinator,
                site_memory: site_memory.part(),
                coordinator_memory: coordinator_memory.part(),
                log: &mut log[..4 * 25],
                out: &mut out,
            };
            run_batch(&A, &[Arrival { site: 0, item: 7, value: 3 }], batch)
        } else {
            let delivery = Delivery {
                sites: &mut sites,
                coordinator: &mut coordinator,
                site_memory: site_memory.part(),
                coordinator_memory: coordinator_memory.part(),
                out: &mut out,
            };
            deliver_arrival(&A, [0, 7, 3], delivery)
        };
        assert_eq!(site_memory.changed(), answer == 0);
        assert_eq!(coordinator_memory.changed(), answer == 0);
        assert_eq!((&sites[SITES_NUMBERS..], &coordinator[10..]), (&[JUNK; 3][..], &[JUNK; 3][..]));
        let written = if in_batch && answer == 0 { 20 } else { 0 };
        assert!(log[written..].iter().all(|&number| number == JUNK));
        if answer == 0 {
            assert_eq!(out, more(if in_batch { [1, 5] } else { [5, 0] }));
        } else {
            assert_eq!((&sites, &coordinator), (&fresh_sites, &more(FRESH_COORDINATOR)));
            // The batch call alone always says how far it came.
            assert_eq!(out, more(if in_batch { [0; 2] } else { [JUNK; 2] }));
        }
        answer
    };
    for in_batch in [false, true] {
        for_lengths(SITE_WORDS, |lent| call(in_batch, lent, COORDINATOR_WORDS));
        for_lengths(COORDINATOR_WORDS, |lent| call(in_batch, SITE_WORDS, lent));
    }
}

/// Coordinator's records that the calls never leave, each a change of the idle one: place, number.
/// Signals, class, deck, low and high are numbers of four bytes; there are four phases; an idle one
/// has no deck, no interval and no sum.
fn malformed() -> Vec<(usize, u64)> {
    let wide = 1 << 32;
    let mut changes = Vec::new();
    for place in [3, 4, 6, 7, 8] {
        changes.extend([wide, wide + 1, 2 * wide, u64::MAX].map(|number| (place, number)));
    }
    changes.extend([4, 5, 7, wide, wide + 3, u64::MAX].map(|number| (5, number)));
    for place in 6..10 {
        changes.extend([1, 3, u64::MAX].map(|number| (place, number)));
    }
    changes
}

/// Every call that is lent such a record answers 11, after 1 to 4, and changes nothing.
#[test]
fn malformed_coordinators() {
    for (place, number) in malformed() {
        let mut numbers = FRESH_COORDINATOR;
        numbers[place] = number;
        refused_everywhere(numbers);
    }
    // Phases with numbers that they have not: collecting and announcing with an interval or a sum.
    for phase in [1, 3] {
        for place in 7..10 {
            let mut numbers = FRESH_COORDINATOR;
            (numbers[3], numbers[5], numbers[place]) = (1, phase, 1);
            refused_everywhere(numbers);
        }
    }
}

fn refused_everywhere(numbers: [u64; COORDINATOR_NUMBERS]) {
    let settings = [1, 1000, 999, 500, 6, 10];
    for (settings, words, answer) in [
        (settings, COORDINATOR_WORDS, 2),
        (A, COORDINATOR_WORDS - 1, SHORT),
        (A, COORDINATOR_WORDS, INCONSISTENT),
    ] {
        let (mut record, mut out) = (more(numbers), more([JUNK; 5]));
        let mut memory = vec![0; words];
        let answers = [
            receive_at_coordinator(&settings, &mut record, REPORT, &mut memory, &mut out),
            next_announcement(&settings, &mut record, &memory, &mut out),
            list_heavy_hitters(&settings, &record, &memory, &mut [77; 3], &mut out),
            read_margin(&settings, &record, 7, &memory).0,
            read_quantile(&settings, &record, &memory, &mut out),
        ];
        assert_eq!(answers, [answer; 5], "{numbers:?}");
        let mut sites = fresh_sites();
        let mut site_memory = vec![0; SITE_WORDS];
        let delivery = Delivery {
            sites: &mut sites,
            coordinator: &mut record,
            site_memory: &mut site_memory,
            coordinator_memory: &mut memory,
            out: &mut out,
        };
        assert_eq!(deliver_arrival(&settings, [0, 7, 3], delivery), answer, "{numbers:?}");
        assert_eq!(out, more([JUNK; 5]));
        let (mut log, mut counts) = ([JUNK; 100], [JUNK; 3]);
        let batch = Batch {
            sites: &mut sites,
            coordinator: &mut record,
            site_memory: &mut site_memory,
            coordinator_memory: &mut memory,
            log: &mut log,
            out: &mut counts,
        };
        let arrivals = [Arrival { site: 0, item: 7, value: 3 }];
        assert_eq!(run_batch(&settings, &arrivals, batch), answer, "{numbers:?}");
        assert_eq!((log, counts), ([JUNK; 100], [0, 0, JUNK]));
        assert_eq!(record, more(numbers));
        assert_eq!(memory, vec![0; words]);
        assert_eq!((&site_memory, &sites[..5]), (&vec![0; SITE_WORDS], &FRESH_SITE[..]));
    }
}

/// A message's kind and deck are numbers of eight bytes in C: those that four bytes don't hold are
/// 9 and 5, whatever their lower halves.
#[test]
fn wide_messages() {
    let settings = Settings { decks: 1, leeway: 1000, share: 1000, rank: 500, slots: 6, codes: 10 };
    let wide = 1 << 32;
    for (kind, deck, refusal) in [
        (wide + 1, 0, 9),
        (wide + 3, 0, 9),
        (wide, 0, 9),
        (u64::MAX, 0, 9),
        (1, wide, 5),
        (3, wide, 5),
        (3, 31 * wide, 5),
        (1, u64::MAX, 5),
        (wide + 1, wide, 5),
    ] {
        let message = draw_tracker::Message { kind, deck, a: 0, b: 0 };
        let (mut desk, mut desk_memory) = (DeskRecord::default(), vec![0; COORDINATOR_WORDS]);
        let (mut decks, mut memory) = (DecksRecord::default(), vec![0; SITE_WORDS]);
        calls::start_desk(&settings, &mut desk, &mut desk_memory).expect("a start");
        calls::start_decks(&settings, &mut decks, &mut memory).expect("a start");
        let before = (desk, decks);
        let answers = [
            calls::desk_message(&settings, &mut desk, &mut desk_memory, &message),
            calls::decks_message(&settings, &mut decks, &memory, &message),
            calls::deck_message(&settings, 0, &mut decks.deck[0], &memory, &message),
        ];
        let numbers = answers.map(|answer| answer.expect_err("it is refused").number());
        assert_eq!(numbers, [refusal; 3], "{message:?}");
        assert_eq!((desk, decks), before);
    }
}

/// Document 01's P8 through the boundary: after P2 the margin of 7 is 1000, of 8 is -1000.
#[test]
fn margins_of_p8() {
    let mut memory = vec![0; COORDINATOR_WORDS];
    memory[7] = 1;
    memory[10 + 3] = 1;
    let mut numbers = FRESH_COORDINATOR;
    numbers[0] = 1;
    assert_eq!(read_margin(&A, &numbers, 7, &memory), (0, 1000));
    assert_eq!(read_margin(&A, &numbers, 8, &memory), (0, -1000));
}
