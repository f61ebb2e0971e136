//! Request N5 on the proved code and on the separate implementation: a count of messages for each
//! site, recomputed from the log after every batch; the limit of each and none of their sum; counts
//! from k on filled with anything; and files of the older layout, which has one count.

mod both;
mod forge;
#[path = "../../reference/tests/support/mod.rs"]
mod support;

use both::batch::numbers_of;
use both::Both;
use forge::networks::some_network;
use reference::message::Arrival;
use reference::refusal::*;
use reference::site::Sites;
use support::counts::{counted_up, LIMIT};
use support::never_arose::any_network;
use support::saved::{enough, number_at, patched};
use support::streams::{Source, ALL};
use support::truth::Truth;
use support::{arrival, message, Random, TestNetwork, A};

/// Settings A but for the sites.
fn start(sites: u32) -> TestNetwork {
    TestNetwork::start([sites, 1000, 1000, 500, 6, 10])
}

/// A batch that must be accepted whole, on both sides, by a log that is long enough.
fn take(both: &mut Both, network: &mut TestNetwork, arrivals: &[Arrival]) -> usize {
    let log_numbers = 4 * network.settings.messages_per_arrival() * arrivals.len();
    let (answer, written) = both.run_batch(network, arrivals, log_numbers);
    assert_eq!((answer.accepted, answer.refusal), (arrivals.len(), ACCEPTED));
    written.len()
}

/// `0;7;3` and `1;7;3` at two sites: messages 1, 2, 3, 4 and 7 of each. P2: five of the one site.
#[test]
fn instances() {
    let mut both = Both::new();
    let mut network = start(2);
    let draws = [arrival(0, 7, 3), arrival(1, 7, 3)];
    let (_, log) = both.run_batch(&mut network, &draws, 4 * 96);
    for site in 0..2 {
        let of_site = log.iter().filter(|message| message.site == site);
        assert_eq!(of_site.map(|message| message.kind).collect::<Vec<_>>(), [1, 2, 3, 4, 7]);
    }
    assert_eq!(network.sites.messages[..3], [5, 5, 0]);
    let mut network = TestNetwork::start(A);
    assert_eq!(take(&mut both, &mut network, &draws[..1]), 5);
    assert_eq!(network.sites.messages[..2], [5, 0]);
}

/// A run of arrivals of which some may be refused.
fn some_run(source: &mut Source, network: &TestNetwork, random: &mut Random) -> Vec<Arrival> {
    let length = random.pick(&[0, 1, 2, 7, 40]);
    let mut arrivals: Vec<_> = (0..length).map(|_| source.next(network)).collect();
    for next in &mut arrivals {
        match random.below(60) {
            0 => next.site = network.settings.sites + random.below32(3),
            1 => next.item = network.settings.universe,
            2 => next.value = 1024,
            _ => {}
        }
    }
    arrivals
}

/// Histories of batches cut anyhow, and of arrivals delivered one by one, which are not counted.
/// Counts from k on stand as they were filled. The sum keeps the allowance where all draws came by
/// batches.
#[test]
fn histories() {
    let mut random = Random::new(5_101);
    let mut both = Both::new();
    for stream in ALL.into_iter().cycle().take(6 * ALL.len()) {
        let sites = random.pick(&[1, 2, 3, 31, 32]);
        let epsilon = random.pick(&[300, 600, 1000]);
        let mut network = TestNetwork::start([sites, epsilon, 1000, 500, 20, 15]);
        network.fill_unused_counts(&mut random);
        let mut counts = network.sites.messages;
        let mut truth = Truth::new(&network.settings);
        let batches_alone = random.one_in(2);
        let mut source = Source::new(stream, random.next());
        for _ in 0..40 {
            let arrivals = some_run(&mut source, &network, &mut random);
            let log_numbers = 4 * random.below(2000) as usize;
            let (answer, written) = both.run_batch(&mut network, &arrivals, log_numbers);
            counts = counted_up(counts, &written);
            assert_eq!(network.sites.messages, counts);
            for next in &arrivals[..answer.accepted] {
                truth.count(&network.settings, next, 0);
            }
            truth.messages += answer.written as u64;
            if batches_alone {
                assert_eq!(network.all_messages(), truth.messages);
                truth.check(&network);
            } else {
                let next = source.next(&network);
                let delivered = both.deliver_arrival(&mut network, next);
                assert_eq!(delivered.refusal, ACCEPTED);
                assert_eq!(network.sites.messages, counts);
                truth.count(&network.settings, &next, delivered.messages.len());
            }
        }
    }
    both.enough(1500, &[UNKNOWN_SITE, UNKNOWN_ITEM, UNKNOWN_VALUE, SHORT_LOG], 20);
}

/// A network at rest whose next arrival at site 0 closes the round and sends five messages to or
/// from site 0, three for each other one.
fn before_a_close(sites: u32) -> TestNetwork {
    let mut network = start(sites);
    for site in 1..sites {
        network.take(&[arrival(site, 7, 3)]);
    }
    network
}

/// A batch with an arrival and one without, a delivery, saving and reading, none of which may
/// change anything; reading is of the file that the numbers would have.
fn answers(both: &mut Both, network: &TestNetwork) -> [u8; 5] {
    let log_numbers = 4 * network.settings.messages_per_arrival();
    let mut called = network.clone();
    let refused = both.run_batch(&mut called, &[arrival(u32::MAX, 7, 3)], log_numbers).0.refusal;
    let empty = both.run_batch(&mut called, &[], 0).0.refusal;
    let delivery = both.deliver_arrival(&mut called, arrival(u32::MAX, 7, 3)).refusal;
    assert!(called == *network);
    let saving = both.save(network).err().unwrap_or(ACCEPTED);
    let reading = both.load(&network.plain_file(), enough(&network.settings));
    [refused, empty, delivery, saving, reading.err().unwrap_or(ACCEPTED)]
}

/// Nothing is inconsistent: the arrival of no site is all that is refused.
const CONSISTENT: [u8; 5] = [UNKNOWN_SITE, ACCEPTED, UNKNOWN_SITE, ACCEPTED, ACCEPTED];

/// 100,000,000,000,000 passes and one more is 11, at the first site, at the last and at any other;
/// all at the limit at once pass, though their sum is far above it.
#[test]
fn limits() {
    let mut both = Both::new();
    for sites in [1, 2, 5, 32] {
        let start = before_a_close(sites);
        let mut full = start.clone();
        full.sites.messages[..sites as usize].fill(LIMIT);
        assert_eq!(answers(&mut both, &full), CONSISTENT, "{sites} sites");
        for site in 0..sites as usize {
            let mut with = |start: &TestNetwork, count| {
                let mut network = start.clone();
                network.sites.messages[site] = count;
                answers(&mut both, &network)
            };
            assert_eq!(with(&start, LIMIT), CONSISTENT, "site {site} of {sites}");
            for above in [LIMIT + 1, LIMIT + (1 << 32), 1 << 63, u64::MAX] {
                assert_eq!(with(&start, above), [INCONSISTENT; 5], "site {site} of {sites}");
                assert_eq!(with(&full, above), [INCONSISTENT; 5], "site {site} of {sites}");
            }
        }
    }
}

/// A count that passes its limit within a call: the call accepts all its arrivals, the next says
/// 11. One that comes to the limit does not.
#[test]
fn passing_the_limit() {
    let mut both = Both::new();
    for sites in [1, 2, 5, 32] {
        for site in 0..sites as usize {
            let more = if site == 0 { 5 } else { 3 };
            for above in [0, 1, more] {
                let mut network = before_a_close(sites);
                network.sites.messages[site] = LIMIT - more + above;
                take(&mut both, &mut network, &[arrival(0, 7, 3)]);
                assert_eq!(network.sites.messages[site], LIMIT + above);
                let expected = if above == 0 { CONSISTENT } else { [INCONSISTENT; 5] };
                assert_eq!(answers(&mut both, &network), expected, "site {site} of {sites}");
            }
        }
        // All at once, and far into a batch.
        let mut network = before_a_close(sites);
        network.sites.messages[..sites as usize].fill(LIMIT);
        let arrivals: Vec<_> = (0..20).map(|place| arrival(place % sites, 7, 3)).collect();
        let written = take(&mut both, &mut network, &arrivals);
        assert_eq!(network.all_messages(), u64::from(sites) * LIMIT + written as u64);
        assert_eq!(answers(&mut both, &network), [INCONSISTENT; 5]);
    }
}

/// Counts from k on, above the limit too: no call tests them, none changes them, and reading a file
/// sets them 0. So does a start.
#[test]
fn counts_of_no_site() {
    let mut random = Random::new(5_102);
    let mut both = Both::new();
    for sites in [1, 2, 31] {
        for _ in 0..20 {
            let mut network = before_a_close(sites);
            network.fill_unused_counts(&mut random);
            let unused = network.sites.messages;
            assert_eq!(answers(&mut both, &network), CONSISTENT);
            let reopened = both.reopened(&network);
            assert!(reopened == network.clone().without_unused_counts());
            take(&mut both, &mut network, &[arrival(0, 7, 3), arrival(0, 7, 3)]);
            both.deliver_arrival(&mut network, arrival(0, 7, 3));
            both.observe_in(&mut network, arrival(0, 7, 3));
            both.receive_in(&mut network, message(3, 0, 0, 0));
            assert_eq!(network.sites.messages[sites as usize..], unused[sites as usize..]);
        }
        let mut started = start(sites);
        let numbers = numbers_of(&started.settings);
        assert_eq!(both.start_sites(numbers, &mut started.site_memory), ACCEPTED);
        assert_eq!(started.sites, Sites::FRESH);
    }
}

/// A refused call leaves the counts, and what was written before a refusal stopped a batch is
/// counted.
#[test]
fn refused_and_stopped() {
    let mut both = Both::new();
    let mut network = before_a_close(2);
    let before = network.sites.messages;
    let good = [arrival(0, 7, 3), arrival(1, 7, 3)];
    for (next, refusal) in [
        (arrival(2, 7, 3), UNKNOWN_SITE),
        (arrival(0, 10, 3), UNKNOWN_ITEM),
        (arrival(0, 7, 1024), UNKNOWN_VALUE),
    ] {
        let mut stopped = network.clone();
        let (answer, log) = both.run_batch(&mut stopped, &[good[0], good[1], next], 4 * 200);
        assert_eq!((answer.accepted, answer.written, answer.refusal), (2, 10, refusal));
        assert_eq!(stopped.sites.messages, counted_up(before, &log));
        assert_eq!(both.run_batch(&mut network, &[next, good[0]], 4 * 200).0.accepted, 0);
        assert_eq!(network.sites.messages, before);
    }
    let (answer, log) = both.run_batch(&mut network, &good, 4 * 55);
    assert_eq!((answer.accepted, answer.written, answer.refusal), (1, 8, SHORT_LOG));
    assert_eq!(network.sites.messages, counted_up(before, &log));
}

/// Forged networks, with counts near their limits: a batch adds to them what its log says, and the
/// next is 11 as soon as one of the first k is above its limit.
#[test]
fn forged_networks() {
    let mut random = Random::new(5_103);
    let mut both = Both::new();
    let mut passed = 0;
    for _ in 0..1500 {
        let mut network = some_network(&mut random);
        let sites = network.settings.sites;
        for count in &mut network.sites.messages[..sites as usize] {
            *count = LIMIT - random.below(40);
        }
        for _ in 0..4 {
            let site = random.below32(sites);
            let next = arrival(site, random.below32(network.settings.universe), 5);
            let refused = network.counts_too_much();
            let counts = network.sites.messages;
            let log_numbers = 4 * network.settings.messages_per_arrival() * 3;
            let (answer, log) = both.run_batch(&mut network, &[next; 3], log_numbers);
            assert!(!refused || answer.refusal == INCONSISTENT);
            assert_eq!(network.sites.messages, counted_up(counts, &log));
            passed += u32::from(!refused && network.counts_too_much());
        }
    }
    println!("{passed} calls in which a count passed its limit");
    assert!(passed > 100);
    both.enough(6000, &[ACCEPTED, INCONSISTENT], 500);
}

/// The counts are the last numbers of the desk part, in the order of the sites.
#[test]
fn their_places_in_the_file() {
    let mut both = Both::new();
    for sites in [1, 2, 3, 32] {
        let mut network = start(sites);
        for site in 0..sites as usize {
            network.sites.messages[site] = 1 + site as u64;
        }
        let file = both.save(&network).expect("it can be saved");
        assert_eq!(both.file_length(numbers_of(&network.settings)), Ok(file.len()));
        let decks = number_at(&file, file.len() - 8, 4) as usize;
        assert_eq!(decks, 48 + 8 * (10 + 1034 + sites as usize));
        assert_eq!(file.len(), decks + 4 * sites as usize * (4 * 6 + 1029) + 12);
        for site in 0..sites as usize {
            let place = decks - 8 * (sites as usize - site);
            assert_eq!(number_at(&file, place, 8), 1 + site as u64);
            for (count, passes) in [(0, true), (LIMIT, true), (LIMIT + 1, false)] {
                let changed = patched(&file, place, count, 8);
                let read = both.load(&changed, enough(&network.settings));
                let expected = if passes { Ok(count) } else { Err(INCONSISTENT) };
                assert_eq!(read.map(|network| network.sites.messages[site]), expected);
            }
        }
    }
}

/// A file of the layout with one count for the network, offsets, length and sum as that layout has
/// them: of one site it has the same bytes and is read; of more it is 15, and nothing changes.
fn check_older(both: &mut Both, network: &TestNetwork, messages: u64) {
    let places = enough(&network.settings);
    let older = network.older_file(messages);
    if network.settings.sites > 1 {
        assert_eq!(both.load(&older, places), Err(MALFORMED_FILE));
        assert_eq!(both.load(&older, (0, 0)), Err(MALFORMED_FILE));
        // The offset of this layout with the length of that one, and the other way round.
        let file = network.plain_file();
        let [first_deck, older_first_deck] =
            [&file, &older].map(|bytes| number_at(bytes, bytes.len() - 8, 4));
        let offset_mended = patched(&older, older.len() - 8, first_deck, 4);
        assert_eq!(both.load(&offset_mended, places), Err(MALFORMED_FILE));
        let offset_older = patched(&file, file.len() - 8, older_first_deck, 4);
        assert_eq!(both.load(&offset_older, places), Err(MALFORMED_FILE));
        return;
    }
    let read = both.load(&older, places).expect("an older file of one site");
    let mut expected = network.clone().without_unused_counts();
    expected.sites.messages = [0; 32];
    expected.sites.messages[0] = messages;
    assert!(read == expected);
    assert!(both.save(&read) == Ok(older));
}

#[test]
fn older_files() {
    let mut random = Random::new(5_104);
    let mut both = Both::new();
    let mut of_one = 0;
    for _ in 0..150 {
        let network = any_network(&mut random);
        of_one += usize::from(network.settings.sites == 1);
        let some = random.below(LIMIT + 1);
        check_older(&mut both, &network, random.pick(&[0, some, LIMIT]));
    }
    assert!((15..135).contains(&of_one), "{of_one} of one site");
    // Histories, at rest: the one count was the sum.
    for stream in ALL.into_iter().cycle().take(4 * ALL.len()) {
        let sites = random.pick(&[1, 1, 2, 3, 32]);
        let mut network = start(sites);
        let mut source = Source::new(stream, random.next());
        for _ in 0..20 {
            let next = [(); 5].map(|()| source.next(&network));
            take(&mut both, &mut network, &next);
            check_older(&mut both, &network, network.all_messages());
        }
    }
    // Of one site, a count above the limit is 11 as ever; of more the layout is refused first.
    for (sites, refusal) in [(1, INCONSISTENT), (2, MALFORMED_FILE)] {
        let network = before_a_close(sites);
        let older = network.older_file(LIMIT + 1);
        assert_eq!(both.load(&older, enough(&network.settings)), Err(refusal));
    }
    both.enough(500, &[ACCEPTED, MALFORMED_FILE], 100);
}

/// Messages count whichever way they go: all kinds to the coordinator and all from it.
#[test]
fn both_ways() {
    let mut both = Both::new();
    let mut network = start(3);
    let mut kinds = [[0; 8]; 3];
    for place in 0..60 {
        let log_numbers = 4 * network.settings.messages_per_arrival();
        let next = arrival(place % 2, 7, 3);
        let (_, log) = both.run_batch(&mut network, &[next], log_numbers);
        log.iter().for_each(|message| kinds[message.site as usize][message.kind as usize] += 1);
    }
    // Site 2 never draws: it is asked and told, and answers.
    assert_eq!(kinds[2][1..3], [0, 0]);
    for (site, kinds) in kinds.iter().enumerate() {
        assert!(kinds[3..].iter().all(|&times| times > 0), "{kinds:?}");
        assert_eq!(network.sites.messages[site], kinds.iter().sum());
    }
}
