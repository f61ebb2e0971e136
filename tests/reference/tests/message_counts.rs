//! Request N5: a count of messages for each site, either way, to which the batch call alone adds;
//! each has the old limit and their sum none. The saved file has them at the end of its desk part,
//! and an older file, with one count, is read if it is of one site.

mod support;

use reference::drawtrack::transcript;
use reference::message::Message;
use reference::refusal::*;
use reference::settings::allowance;
use support::counts::{counts_of, LIMIT};
use support::never_arose::any_network;
use support::saved::{announcing, enough, load, load_beside_plain, number_at, patched};
use support::streams::{Source, ALL};
use support::truth::Truth;
use support::{arrival, message, Random, TestNetwork, A};

/// Settings A but for two sites.
const TWO: [u32; 6] = [2, 1000, 1000, 500, 6, 10];

/// Two sites, `0;7;3` and `1;7;3`: each has the two reports of its draw, the poll with its answer,
/// and the announcement.
#[test]
fn two_sites() {
    let mut network = TestNetwork::start(TWO);
    let log = network.take(&[arrival(0, 7, 3), arrival(1, 7, 3)]);
    let kinds_of = |site| -> Vec<u32> {
        let of_site = log.iter().filter(|message| message.site == site);
        of_site.map(|message| message.kind).collect()
    };
    assert_eq!((kinds_of(0), kinds_of(1)), (vec![1, 2, 3, 4, 7], vec![1, 2, 3, 4, 7]));
    assert_eq!(network.sites.messages[..3], [5, 5, 0]);
    assert_eq!((network.all_messages(), log.len()), (10, 10));
    assert!(network.all_messages() <= allowance(&network.settings, 2).expect("they pass"));
}

/// P2: the one site's count is 5. P3: 50.
#[test]
fn one_site() {
    let mut network = TestNetwork::start(A);
    network.take(&[arrival(0, 7, 3)]);
    assert_eq!(network.sites.messages, counts_with(&[5]));
    network.take(&[arrival(0, 7, 3); 5]);
    assert_eq!(network.sites.messages, counts_with(&[50]));
}

/// These counts at the first sites, and 0 at all others.
fn counts_with(first: &[u64]) -> [u64; 32] {
    let mut counts = [0; 32];
    counts[..first.len()].copy_from_slice(first);
    counts
}

/// All draws at the last site: the others have what its close asks of them and tells them.
#[test]
fn one_site_speaks() {
    let mut network = TestNetwork::start([3, 1000, 1000, 500, 6, 10]);
    let log = network.take(&[arrival(2, 7, 3); 3]);
    // Three draws with two reports each; a poll, its answer and an announcement at each site.
    assert_eq!(network.sites.messages, counts_with(&[3, 3, 9]));
    assert_eq!(network.sites.messages, counts_of(&log));
    // With a halving, ten probes and answers more at each.
    while network.coordinator.threshold == 1 {
        let before = network.sites.messages;
        let log = network.take(&[arrival(2, 7, 3)]);
        if log.len() > 2 {
            let grown: Vec<u64> =
                network.sites.messages.iter().zip(before).map(|(now, then)| now - then).collect();
            let close = if network.coordinator.threshold == 1 { 3 } else { 23 };
            assert_eq!(grown[..4], [close, close, close + 2, 0]);
        }
    }
}

/// The program's line has the sum.
#[test]
fn the_line_of_the_program() {
    let written = transcript(b"2;1000;1000;500;6;10\n0;7;3\n1;7;3\n1;7;3\n");
    let text = String::from_utf8(written).expect("the transcript is text");
    assert!(text.ends_with("\nmessages 12\n"), "{text}");
    let (lines, _) = text.split_once("listed").expect("a list");
    assert_eq!(lines.lines().count(), 12);
}

/// A network at rest whose next arrival at site 0 closes the round and sends five messages to or
/// from site 0, three for each other one.
fn before_a_close(sites: u32) -> TestNetwork {
    let mut network = TestNetwork::start([sites, 1000, 1000, 500, 6, 10]);
    for site in 1..sites {
        network.take(&[arrival(site, 7, 3)]);
    }
    network
}

/// The limit itself passes at every site, at all of them at once too: the sum has none. One above
/// it is 11 at any of the first k sites, for the batch call, on saving and on reading, and nothing
/// changes.
#[test]
fn limits() {
    for sites in [1, 2, 5, 32] {
        let start = before_a_close(sites);
        let mut full = start.clone();
        full.sites.messages[..sites as usize].fill(LIMIT);
        assert_eq!(full.refusal(), ACCEPTED);
        assert!(full.reopened() == full);
        for site in 0..sites as usize {
            let mut network = start.clone();
            network.sites.messages[site] = LIMIT;
            assert_eq!(network.refusal(), ACCEPTED, "site {site} of {sites}");
            assert!(network.reopened() == network, "site {site} of {sites}");
            for (start, above) in [(&start, LIMIT + 1), (&full, LIMIT + 1), (&start, u64::MAX)] {
                let mut network = start.clone();
                network.sites.messages[site] = above;
                check_refused(&network);
            }
        }
    }
}

/// The batch call, saving and reading are 11; the calls that see one part don't look at the counts.
fn check_refused(network: &TestNetwork) {
    let mut called = network.clone();
    let unwritten = message(77, 77, 77, 77);
    let mut log = vec![unwritten; network.settings.messages_per_arrival()];
    let answer = called.run_batch(&[arrival(0, 7, 3)], &mut log);
    assert_eq!((answer.accepted, answer.written, answer.refusal), (0, 0, INCONSISTENT));
    assert!(log.iter().all(|place| *place == unwritten));
    assert_eq!(called.run_batch(&[], &mut []).refusal, INCONSISTENT);
    assert_eq!(called.saved(), Err(INCONSISTENT));
    assert!(called == *network);
    let file = network.plain_file();
    assert_eq!(load_beside_plain(&file, enough(&network.settings)), Err(INCONSISTENT));
    assert_eq!(called.observe(arrival(0, 7, 3)).0, ACCEPTED);
    assert_eq!(called.tell_coordinator(message(1, 0, 7, 1)).0, ACCEPTED);
    assert_eq!(called.sites.messages, network.sites.messages);
}

/// A count may pass its limit within a call, which accepts all its arrivals; the next call is 11.
#[test]
fn passing_the_limit() {
    for sites in [1, 2, 32] {
        let last = sites as usize - 1;
        // Five messages at site 0, three at the last of several.
        for (site, more) in [(0, 5), (last, if last == 0 { 5 } else { 3 })] {
            let mut network = before_a_close(sites);
            // It stays at the limit with so many before, and passes it with one more.
            network.sites.messages[site] = LIMIT - more;
            let mut beyond = network.clone();
            beyond.sites.messages[site] += 1;
            assert_eq!(network.take(&[arrival(0, 7, 3)]), beyond.take(&[arrival(0, 7, 3)]));
            assert_eq!((network.sites.messages[site], network.refusal()), (LIMIT, ACCEPTED));
            assert_eq!(beyond.sites.messages[site], LIMIT + 1);
            check_refused(&beyond);
        }
        // All of them at once, in one call of several arrivals.
        let mut network = before_a_close(sites);
        network.sites.messages[..sites as usize].fill(LIMIT);
        let log = network.take(&[arrival(0, 7, 3), arrival(0, 7, 3)]);
        assert_eq!(network.all_messages(), u64::from(sites) * LIMIT + log.len() as u64);
        check_refused(&network);
    }
}

/// Counts from k on are neither tested nor changed by a batch; a start and a reading set them 0.
#[test]
fn counts_of_no_site() {
    for sites in [1, 2, 31] {
        let mut network = before_a_close(sites);
        let own = network.sites.messages;
        network.sites.messages[sites as usize..].fill(u64::MAX);
        assert_eq!(network.refusal(), ACCEPTED);
        assert_eq!(network.saved(), Ok(before_a_close(sites).file()));
        assert_eq!(network.reopened().sites.messages, own);
        network.take(&[arrival(0, 7, 3)]);
        assert!(network.sites.messages[sites as usize..].iter().all(|&count| count == u64::MAX));
    }
    let mut random = Random::new(1_101);
    for stream in ALL {
        let mut network = TestNetwork::start([3, 500, 600, 300, 12, 20]);
        let mut clean = network.clone();
        network.fill_unused_counts(&mut random);
        let unused = network.sites.messages;
        let mut source = Source::new(stream, 1_102);
        for _ in 0..200 {
            let next = [(); 4].map(|()| source.next(&network));
            assert_eq!(network.take(&next), clean.take(&next));
            assert_eq!(network.sites.messages[..3], clean.sites.messages[..3]);
            assert_eq!(network.sites.messages[3..], unused[3..]);
        }
        assert!(network.reopened() == clean);
    }
}

/// What a batch wrote before a refusal stopped it is counted; a refused call counts nothing.
#[test]
fn stopped_batches() {
    let mut network = before_a_close(2);
    let before = network.sites.messages;
    let mut log = vec![Message::default(); 200];
    let draws = [arrival(0, 7, 3), arrival(1, 7, 3), arrival(2, 7, 3), arrival(0, 7, 3)];
    let answer = network.run_batch(&draws, &mut log);
    assert_eq!((answer.accepted, answer.written, answer.refusal), (2, 8 + 2, UNKNOWN_SITE));
    let after = [before[0] + 5, before[1] + 5];
    assert_eq!(network.sites.messages[..2], after);
    // Too short a log for the second: the first alone is counted.
    let mut network = before_a_close(2);
    let answer = network.run_batch(&draws, &mut log[..48 + 7]);
    assert_eq!((answer.accepted, answer.written, answer.refusal), (1, 8, SHORT_LOG));
    assert_eq!(network.sites.messages[..2], [before[0] + 5, before[1] + 3]);
    let counts = network.sites.messages;
    for refused in [arrival(2, 7, 3), arrival(0, 10, 3), arrival(0, 7, 1024)] {
        assert_eq!(network.run_batch(&[refused], &mut log).accepted, 0);
    }
    assert_eq!(network.run_batch(&[arrival(0, 7, 3)], &mut log[..47]).refusal, SHORT_LOG);
    assert_eq!(network.run_batch(&[arrival(0, 7, 0)], &mut log).accepted, 1);
    assert_eq!(network.sites.messages, counts);
}

/// Over histories of batches with full delivery the sum keeps the planner's allowance and both
/// bounds, and is the sum of all that the batches wrote.
#[test]
fn the_sum_and_the_allowance() {
    for stream in ALL {
        let mut network = TestNetwork::start([5, 500, 600, 300, 12, 20]);
        let mut truth = Truth::new(&network.settings);
        let mut source = Source::new(stream, 1_103);
        for _ in 0..600 {
            let next = source.next(&network);
            let sent = network.take(&[next]);
            truth.count(&network.settings, &next, sent.len());
            assert_eq!(network.all_messages(), truth.messages);
            truth.check(&network);
        }
        assert!(network.coordinator.threshold > 1);
    }
}

/// The counts are the last numbers of the desk part, in the order of the sites.
#[test]
fn their_places_in_the_file() {
    for sites in [1, 2, 3, 32] {
        let mut network = TestNetwork::start([sites, 1000, 1000, 500, 6, 10]);
        for site in 0..sites as usize {
            network.sites.messages[site] = 1 + site as u64;
        }
        let file = network.file();
        let decks = number_at(&file, file.len() - 8, 4) as usize;
        assert_eq!(decks, 48 + 8 * (10 + 1034 + sites as usize));
        assert_eq!(file.len(), decks + 4 * sites as usize * (4 * 6 + 1029) + 12);
        let places = enough(&network.settings);
        for site in 0..sites as usize {
            let place = 48 + 8 * (10 + 1034 + site);
            assert_eq!(number_at(&file, place, 8), 1 + site as u64);
            for (count, passes) in [(0, true), (LIMIT, true), (LIMIT + 1, false)] {
                let read = load_beside_plain(&patched(&file, place, count, 8), places);
                let expected = if passes { Ok(count) } else { Err(INCONSISTENT) };
                assert_eq!(read.map(|network| network.sites.messages[site]), expected);
            }
        }
    }
}

/// A file of the older layout, with one count: of one site it has the same bytes; of more, its
/// first deck and its length are not where the settings say, which is 15.
fn check_older(network: &TestNetwork, messages: u64) {
    let places = enough(&network.settings);
    let older = network.older_file(messages);
    let sites = network.settings.sites as usize;
    if sites == 1 {
        assert_eq!(older.len(), network.plain_file().len());
        let read = load_beside_plain(&older, places).expect("an older file of one site");
        let mut expected = network.clone().without_unused_counts();
        expected.sites.messages[0] = messages;
        assert!(read == expected);
        assert!(read.file() == older);
    } else {
        assert_eq!(older.len() + 8 * (sites - 1), network.plain_file().len());
        assert_eq!(load_beside_plain(&older, places), Err(MALFORMED_FILE));
        // The test comes before those of the lent memory.
        assert_eq!(load(&older, (0, 0)), Err(MALFORMED_FILE));
        // With the offset alone mended its length is another one, and the other way round.
        let first_deck = number_at(&network.plain_file(), network.plain_file().len() - 8, 4);
        let offset_mended = patched(&older, older.len() - 8, first_deck, 4);
        assert_eq!(load_beside_plain(&offset_mended, places), Err(MALFORMED_FILE));
        let mut longer = network.plain_file();
        let last = longer.len() - 8;
        longer = patched(&longer, last, first_deck - 8 * (sites as u64 - 1), 4);
        assert_eq!(load_beside_plain(&longer, places), Err(MALFORMED_FILE));
    }
}

#[test]
fn older_files() {
    for network in [TestNetwork::start(A), before_a_close(1), announcing()] {
        for messages in [0, 50, LIMIT] {
            check_older(&network, messages);
        }
        let older = network.older_file(LIMIT + 1);
        assert_eq!(load_beside_plain(&older, enough(&network.settings)), Err(INCONSISTENT));
    }
    for sites in [2, 3, 31, 32] {
        let network = before_a_close(sites);
        for messages in [0, network.all_messages(), LIMIT, LIMIT + 1] {
            check_older(&network, messages);
        }
    }
    let mut random = Random::new(1_104);
    let mut of_one = 0;
    for _ in 0..200 {
        let network = any_network(&mut random);
        of_one += usize::from(network.settings.sites == 1);
        let some = random.below(LIMIT + 1);
        check_older(&network, random.pick(&[0, some, LIMIT]));
    }
    assert!((20..180).contains(&of_one), "{of_one} of one site");
}
