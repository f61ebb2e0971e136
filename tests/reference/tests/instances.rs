//! Document 01's instances P1 to P10, its two lines that are malformed, and what request N1 makes
//! of P5 and of a code that leaves unsent.

mod support;

use reference::drawtrack::transcript;
use reference::message::Arrival;
use reference::refusal;
use reference::settings::{allowance, settings_refusal, threshold_of, Settings};
use reference::site::{counter_at, Counter};
use reference::worklist::read_line;
use support::{arrival, message, TestNetwork, A};

/// The arrival of the line `0;7;3`.
const SEVEN: Arrival = Arrival { site: 0, item: 7, value: 3 };

#[test]
fn p1_fresh() {
    let network = TestNetwork::start(A);
    assert_eq!(network.heavy_hitters(), []);
    assert_eq!(network.quantile(), None);
}

#[test]
fn p2_whole_transcript() {
    let expected = "1 0 7 1\n2 0 1 3\n3 0 0 0\n4 0 0 0\n7 0 1 1\nlisted 7\nclass 3\nmessages 5\n";
    assert_eq!(transcript(b"1;1000;1000;500;6;10\n0;7;3\n"), expected.as_bytes());
}

#[test]
fn p2_messages() {
    let mut network = TestNetwork::start(A);
    let expected = [
        message(1, 0, 7, 1),
        message(2, 0, 1, 3),
        message(3, 0, 0, 0),
        message(4, 0, 0, 0),
        message(7, 0, 1, 1),
    ];
    assert_eq!(network.take(&[SEVEN]), expected);
    assert_eq!(network.heavy_hitters(), [7]);
    assert_eq!(network.quantile(), Some(3));
    assert_eq!((network.sites.messages[0], network.all_messages()), (5, 5));
}

#[test]
fn p3_six_arrivals() {
    let mut network = TestNetwork::start(A);
    let counts: Vec<usize> = (0..6).map(|_| network.take(&[SEVEN]).len()).collect();
    assert_eq!(counts, [5, 5, 5, 5, 5, 25]);
    assert_eq!((network.sites.messages[0], network.all_messages()), (50, 50));
    assert_eq!(network.coordinator.threshold, 2);
    assert_eq!(network.sites.records[0].threshold, 2);
}

#[test]
fn p4_seventh_and_eighth() {
    let mut network = TestNetwork::start(A);
    network.take(&[SEVEN; 6]);
    assert_eq!(network.take(&[SEVEN]), []);
    assert_eq!(network.take(&[SEVEN]).len(), 25);
    assert_eq!(network.coordinator.threshold, 2);
    assert_eq!(network.sites.records[0].threshold, 2);
}

#[test]
fn p5_item_0_leaves() {
    let mut network = TestNetwork::start(A);
    let six: Vec<Arrival> = (0..6).map(|item| arrival(0, item, 3)).collect();
    network.take(&six);
    let before: Vec<_> = (0..6).map(|place| counter_at(&network.site_memory, place)).collect();
    assert_eq!(network.take(&[arrival(0, 6, 3)]), []);
    let after: Vec<_> = (0..6).map(|place| counter_at(&network.site_memory, place)).collect();
    let replaced = Counter { item: 6, count: 2, overestimate: 1, reported: 0 };
    assert_eq!(before[0], Some(Counter { item: 0, count: 1, overestimate: 0, reported: 1 }));
    assert_eq!(after[0], Some(replaced));
    assert_eq!(after[1..], before[1..]);
    assert_eq!(replaced.unreported(), 1);
    // Item 0 had been reported, so nothing went with it: 6 reported, 1 unreported, 0 forgotten.
    let record = network.sites.records[0];
    assert_eq!((record.arrivals, record.dropped), (7, 0));
}

/// Six arrivals `0;7;3`, after which the threshold is 2, then items 0 to 4, which fill the
/// counters, and item 5: item 0 leaves with its one arrival unreported.
#[test]
fn n1_item_0_leaves_unreported() {
    let mut network = TestNetwork::start(A);
    network.take(&[SEVEN; 6]);
    for item in 0..5 {
        network.take(&[arrival(0, item, 3)]);
    }
    let left = Counter { item: 0, count: 1, overestimate: 0, reported: 0 };
    assert_eq!(counter_at(&network.site_memory, 1), Some(left));
    assert_eq!(network.sites.records[0].dropped, 0);
    network.take(&[arrival(0, 5, 3)]);
    let replaced = Counter { item: 5, count: 2, overestimate: 1, reported: 0 };
    assert_eq!(counter_at(&network.site_memory, 1), Some(replaced));
    let record = network.sites.records[0];
    assert_eq!((record.arrivals, record.dropped), (12, 1));
}

#[test]
fn p6_thresholds() {
    let settings = Settings::from_numbers([2, 100, 100, 500, 60, 10]);
    let thresholds = [118, 120, 180].map(|base| threshold_of(&settings, base));
    assert_eq!(thresholds, [1, 2, 3]);
}

#[test]
fn p7_least_capacity() {
    let of_capacity = |capacity| Settings::from_numbers([1, 7, 7, 500, capacity, 10]);
    assert_eq!(settings_refusal(&of_capacity(857)), refusal::TOO_FEW_COUNTERS);
    assert_eq!(settings_refusal(&of_capacity(858)), refusal::ACCEPTED);
}

#[test]
fn p8_margins() {
    let mut network = TestNetwork::start(A);
    network.take(&[SEVEN]);
    assert_eq!(network.margin(7), Ok(1000));
    assert_eq!(network.margin(8), Ok(-1000));
}

#[test]
fn p9_ranks() {
    for (rank, expected) in [(500, 3), (501, 9)] {
        let mut network = TestNetwork::start([1, 1000, 1000, rank, 6, 10]);
        network.take(&[arrival(0, 0, 3), arrival(0, 1, 9)]);
        assert_eq!(network.quantile(), Some(expected));
    }
}

#[test]
fn p10_allowances() {
    let settings = Settings::from_numbers(A);
    assert_eq!(allowance(&settings, 6), Ok(600));
    assert_eq!(allowance(&settings, 0), Ok(150));
}

#[test]
fn lines_that_are_malformed() {
    assert_eq!(read_line(b"0;7;3"), Err(refusal::MALFORMED_LINE));
    assert_eq!(read_line(b"00;7;3\n"), Err(refusal::MALFORMED_LINE));
}
