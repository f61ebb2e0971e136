//! Request N3: the instances of the file, with request N5's counts of messages, and that a network
//! saved and read goes on exactly as one never closed, wherever in its history it was closed.

mod support;

use reference::coordinator::{CoordinatorRecord, Phase};
use reference::refusal::*;
use reference::settings::{threshold_of, Settings};
use reference::site::SiteRecord;
use reference::snapshot::{self, file_len, Loaded};
use support::counts::LIMIT;
use support::never_arose::{any_network, spoil};
use support::saved::{announcing, enough, load, load_beside_plain, number_at};
use support::sha256::sha256;
use support::streams::{Source, ALL};
use support::{arrival, message, Random, TestNetwork, A};

/// Where the phase of settings A stands in the file, and the one site's message count.
const PHASE: usize = 48 + 8 * (10 + 1024 + 5);
const COUNT: usize = PHASE + 8 * 5;

#[test]
fn digests() {
    let empty = "e3b0c44298fc1c149afbf4c8996fb92427ae41e4649b934ca495991b7852b855";
    let abc = "ba7816bf8f01cfea414140de5dae2223b00361a396177a9cb410ff61f20015ad";
    let two_blocks = "248d6a61d20638b8e5c026930c3e6039a33ce45964ff2167f6ecedd419db06c1";
    assert_eq!(sha256(b""), empty);
    assert_eq!(sha256(b"abc"), abc);
    let letters = b"abcdbcdecdefdefgefghfghighijhijkijkljklmklmnlmnomnopnopq";
    assert_eq!(sha256(letters), two_blocks);
}

#[test]
fn a_fresh() {
    let file = TestNetwork::start(A).file();
    assert_eq!(file.len(), 12_632);
    assert_eq!(number_at(&file, file.len() - 2, 2), 1034);
    assert_eq!(file[file.len() - 12..], [48, 0, 0, 0, 216, 32, 0, 0, 4, 0, 10, 4]);
    let digest = "f62f0db2ec64749b657f7204f9105be4925e097ea65c03a1c2df38d61e135a65";
    assert_eq!(sha256(&file), digest);
    // All numbers are 0 but the settings, the two thresholds and the trailer.
    let at_8 = [1, 1000, 1000, 500, 6, 10];
    for (place, setting) in at_8.into_iter().enumerate() {
        assert_eq!(number_at(&file, 8 * place, 8), setting);
    }
    let thresholds = [48 + 8 * (10 + 1024 + 2), 8408 + 4 * (24 + 1024 + 2)];
    let others = (48..file.len() - 12).filter(|&place| file[place] != 0);
    assert_eq!(others.collect::<Vec<_>>(), thresholds);
}

#[test]
fn a_after_p2() {
    let mut network = TestNetwork::start(A);
    network.take(&[arrival(0, 7, 3)]);
    let file = network.file();
    assert_eq!(file.len(), 12_632);
    assert_eq!(file[file.len() - 12..], [48, 0, 0, 0, 216, 32, 0, 0, 4, 0, 31, 4]);
    assert_eq!(number_at(&file, file.len() - 2, 2), 1055);
    let digest = "ab73b7e6291a7d3a3be639c30a7adf1105b1de0b961a615cf28d2ee4ac52602a";
    assert_eq!(sha256(&file), digest);
    assert_eq!(number_at(&file, COUNT, 8), 5);
}

#[test]
fn a_announcing() {
    let network = announcing();
    let file = network.file();
    assert_eq!(file.len(), 12_632);
    assert_eq!(file[file.len() - 12..], [48, 0, 0, 0, 216, 32, 0, 0, 4, 0, 30, 4]);
    assert_eq!(number_at(&file, file.len() - 2, 2), 1054);
    assert_eq!(phase_in(&file), [3, 0, 0, 0, 0]);
    assert_eq!(number_at(&file, COUNT, 8), 0);
    // It goes on where it stood: the announcement is still to be had.
    let mut reopened = network.reopened();
    assert_eq!(reopened, network);
    assert_eq!(reopened.next_announcement(), (ACCEPTED, vec![message(7, 0, 1, 1)]));
}

fn phase_in(file: &[u8]) -> [u64; 5] {
    [0, 1, 2, 3, 4].map(|place| number_at(file, PHASE + 8 * place, 8))
}

/// The largest network, with every counter in use.
#[test]
fn a_full_network() {
    let mut network = TestNetwork::start([32, 2, 2, 500, 3000, 65_536]);
    assert_eq!(file_len(&network.settings), 2_200_588);
    let mut random = Random::new(901);
    let mut draws = |site| -> Vec<_> {
        (0..3000).map(|item| arrival(site, 20 * item + site, random.between(1, 1023))).collect()
    };
    for site in 0..32 {
        network.take(&draws(site));
    }
    assert!(network.sites.records[..32].iter().all(|record| record.used == 3000));
    assert!(network.coordinator.threshold >= 2);
    let file = network.file();
    let trailer = &file[2_200_588 - 12..];
    assert_eq!((number_at(trailer, 0, 4), number_at(trailer, 4, 4)), (48, 532_864));
    let mut reopened = network.reopened();
    assert!(reopened == network);
    let more = draws(31);
    assert_eq!(reopened.take(&more), network.take(&more));
    assert!(reopened == network);
}

/// A phase is five numbers, of which those not in use are 0.
#[test]
fn phases() {
    let probing = Phase::Probing { site: 0, low: 512, high: 1023, sum: 100_000_000_000 };
    let phases = [
        (Phase::Idle, [0, 0, 0, 0, 0]),
        (Phase::Collecting { site: 0 }, [1, 0, 0, 0, 0]),
        (probing, [2, 0, 512, 1023, 100_000_000_000]),
        (Phase::Announcing { site: 0 }, [3, 0, 0, 0, 0]),
    ];
    for (phase, numbers) in phases {
        let mut network = TestNetwork::start(A);
        network.coordinator.signals = u64::from(phase != Phase::Idle);
        network.coordinator.phase = phase;
        assert_eq!(phase_in(&network.file()), numbers);
        assert_eq!(network.reopened(), network);
    }
    let mut network = TestNetwork::start([3, 1000, 1000, 500, 6, 10]);
    network.coordinator.signals = 3;
    for site in 0..3 {
        for phase in [Phase::Collecting { site }, Phase::Announcing { site }] {
            network.coordinator.phase = phase;
            let number = if phase == (Phase::Announcing { site }) { 3 } else { 1 };
            assert_eq!(phase_in(&network.file()), [number, site, 0, 0, 0]);
            assert_eq!(network.reopened(), network);
        }
    }
}

/// Every number at its limit, and counters that are not in use as they stand.
#[test]
fn limits() {
    let billion = 1_000_000_000;
    let mut network = TestNetwork::start([32, 600, 700, 1000, 3000, 40]);
    let settings = network.settings;
    network.sites.messages = [LIMIT; 32];
    let full = SiteRecord {
        arrivals: billion,
        pending: billion - 1,
        threshold: billion,
        used: 1,
        dropped: billion,
    };
    network.sites.records = [full; 32];
    network.site_memory.fill(u32::MAX);
    for memory in network.site_memory.chunks_exact_mut(settings.site_memory_len()) {
        memory[..4].copy_from_slice(&[39, billion as u32, 1, 0]);
        memory[settings.counters_len()..].fill(0);
        memory[settings.site_memory_len() - 1] = billion as u32;
    }
    let largest = 100_000_000_000;
    network.coordinator_memory.fill(largest);
    network.coordinator = CoordinatorRecord {
        total: largest,
        base: largest,
        threshold: threshold_of(&settings, largest),
        signals: 32,
        quantile: 1023,
        phase: Phase::Probing { site: 31, low: 1022, high: 1023, sum: largest },
    };
    assert_eq!(network.reopened(), network);
    // No two numbers of this record are the same, so none can stand in the place of another.
    network.sites.records[31] =
        SiteRecord { arrivals: billion, pending: 7, threshold: 9, used: 0, dropped: 8 };
    assert_eq!(network.reopened(), network);
}

/// Sites from k on are not saved, nor is memory beyond what the settings need: the records come
/// back fresh, and the counts 0.
#[test]
fn what_is_not_saved() {
    let mut network = TestNetwork::start([2, 600, 700, 500, 10, 20]);
    network.take(&[arrival(0, 1, 2), arrival(1, 3, 4)]);
    let file = network.file();
    let mut longer = network.clone();
    let rubbish = SiteRecord { arrivals: 9, pending: 9, threshold: 0, used: 99, dropped: 99 };
    longer.sites.records[2..].fill(rubbish);
    longer.sites.messages[2..].fill(u64::MAX);
    longer.site_memory.push(u32::MAX);
    longer.coordinator_memory.push(u64::MAX);
    assert_eq!(longer.saved(), Ok(file.clone()));
    assert_eq!(load(&file, enough(&network.settings)), Ok(network));
}

/// What a refused reading answers.
#[test]
fn refused_answer() {
    let answer = snapshot::load(&[], &mut [], &mut []);
    assert_eq!(answer, Loaded::refused(MALFORMED_FILE));
    assert_eq!(answer.refusal, 15);
    assert_eq!(answer.settings.to_numbers(), [0; 6]);
    assert!(answer.sites.records.iter().all(|record| record.to_numbers() == [0, 0, 1, 0, 0]));
    assert_eq!(answer.sites.messages, [0; 32]);
    assert_eq!(answer.coordinator.to_numbers(), [0, 0, 1, 0, 0, 0, 0, 0, 0, 0]);
}

/// The length for any settings: those that pass have N3's, no others overflow.
#[test]
fn lengths() {
    let of = |numbers| file_len(&Settings::from_numbers(numbers));
    assert_eq!(of(A), 12_632);
    assert_eq!(of([1, 1000, 1000, 500, 6, 1]), 12_560);
    assert_eq!(of([2, 1000, 1000, 500, 6, 10]), 16_852);
    assert_eq!(of([32, 2, 2, 500, 3000, 65_536]), 2_200_588);
    assert_eq!(of([u32::MAX; 6]), usize::MAX);
}

fn random_settings(random: &mut Random) -> [u32; 6] {
    let sites = random.pick(&[1, 2, 3, 8]);
    let epsilon = random.pick(&[300, 600, 1000]);
    let capacity = 6000_u32.div_ceil(epsilon) + random.below32(3);
    let rank = random.between(1, 1000);
    [sites, epsilon, random.between(epsilon, 1000), rank, capacity, random.pick(&[1, 3, 25])]
}

/// A network that is closed and opened at random places, in mid-delivery too, beside one that
/// never is. The waiting messages are the caller's and handed over later. Batches and single
/// arrivals come in any order.
#[test]
fn histories_go_on() {
    let mut random = Random::new(902);
    let mut phases = [0; 4];
    let mut waiting_messages = 0;
    for stream in ALL.into_iter().cycle().take(5 * ALL.len()) {
        let numbers = random_settings(&mut random);
        println!("settings {numbers:?}");
        let mut open = TestNetwork::start(numbers);
        let mut closing = open.clone();
        let mut source = Source::new(stream, random.next());
        let (mut for_open, mut for_closing) = {
            let seed = random.next();
            (Random::new(seed), Random::new(seed))
        };
        for _ in 0..150 {
            let next = source.next(&open);
            if random.one_in(3) {
                assert_eq!(closing.take(&[next]), open.take(&[next]));
            } else {
                let sent = open.observe_and_deliver(next, &mut for_open, |_, _| {});
                let also_sent =
                    closing.observe_and_deliver(next, &mut for_closing, |network, out| {
                        if random.one_in(5) {
                            phases[network.coordinator.phase.to_numbers()[0] as usize] += 1;
                            waiting_messages += u32::from(out.len() < sent.len());
                            *network = network.reopened();
                        }
                    });
                assert_eq!(also_sent, sent);
            }
            if random.one_in(5) {
                closing = closing.reopened();
            }
            assert!(closing == open);
            assert_eq!(closing.heavy_hitters(), open.heavy_hitters());
            assert_eq!(closing.quantile(), open.quantile());
        }
    }
    assert!(phases.iter().all(|&times| times > 100), "{phases:?}");
    assert!(waiting_messages > 100);
}

/// Networks that never arose are saved and read as well, wherever their messages stand: that the
/// coordinator is idle, the thresholds equal and the sums fitting is for the batch call alone.
#[test]
fn networks_that_never_arose() {
    let mut random = Random::new(903);
    for _ in 0..200 {
        let mut network = any_network(&mut random);
        let sites = u64::from(network.settings.sites);
        let site = random.below(sites);
        if let Some(phase) = random.pick(&[
            None,
            Some(Phase::Collecting { site }),
            Some(Phase::Probing { site, low: 3, high: 4, sum: 100_000_000_000 }),
            Some(Phase::Announcing { site }),
        ]) {
            network.coordinator.phase = phase;
            network.coordinator.signals = sites;
        }
        if random.one_in(2) {
            network.sites.records[site as usize].threshold = 1_000_000_000;
        }
        for count in &mut network.sites.messages[..sites as usize] {
            *count = random.pick(&[0, 1 << 32, LIMIT]);
        }
        let unused = network.sites.records[0].used as usize;
        network.site_memory[4 * unused..40].fill(random.next() as u32);
        let file = network.file();
        let network = network.without_unused_counts();
        assert!(network.file() == file && network.reopened() == network);
        assert!(load_beside_plain(&file, enough(&network.settings)) == Ok(network));
    }
}

/// What can be saved is what passes the rules of each part, and can be read.
#[test]
fn spoilt_networks() {
    let mut random = Random::new(904);
    let mut start = TestNetwork::start([3, 1000, 1000, 400, 6, 8]);
    let mut answers = [0; 2];
    for round in 0..30 {
        for _ in 0..50 {
            let mut network = start.clone();
            spoil(&mut network, &mut random);
            let rules = network.memory_rules();
            assert_eq!(network.saved().err(), rules.err());
            answers[usize::from(rules.is_ok())] += 1;
            if rules.is_ok() {
                let reopened = network.reopened();
                network.sites.records[3..].fill(SiteRecord::FRESH);
                assert!(reopened == network.clone().without_unused_counts());
            }
            // A number too wide for its field is refused on saving, but the file keeps its lowest
            // bytes alone: reading sees these.
            let file = network.plain_file();
            assert_eq!(load_beside_plain(&file, enough(&network.settings)).is_ok(), {
                let mut narrowed = network.clone();
                for record in &mut narrowed.sites.records {
                    let numbers = record.to_numbers().map(|number| u64::from(number as u32));
                    *record = SiteRecord::from_numbers(numbers);
                }
                narrowed.memory_rules().is_ok()
            });
        }
        start.take(&[arrival(round % 3, round % 8, 1 + round)]);
    }
    assert!(answers.iter().all(|&times| times > 100), "{answers:?}");
}
