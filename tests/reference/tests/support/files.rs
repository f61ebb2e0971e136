//! The files of `tests/files`: their names, and the networks in them.

use std::path::PathBuf;

use reference::coordinator::Phase;

use super::saved::announcing;
use super::{arrival, message, TestNetwork, A};

/// Files that are read, and saved again to the same bytes. Those of one site have these bytes in
/// the older layout too.
pub fn files() -> [(&'static str, TestNetwork); 5] {
    let mut after_p3 = TestNetwork::start(A);
    after_p3.take(&[arrival(0, 7, 3); 6]);
    [
        ("a_fresh.bench", TestNetwork::start(A)),
        ("a_after_p3.bench", after_p3),
        ("a_announcing.bench", announcing()),
        ("two_decks.bench", two_decks()),
        ("three_probing.bench", three_probing()),
    ]
}

/// Files of two and more sites in the older layout, which has one count of messages: refused by 15.
pub fn older_files() -> [(&'static str, TestNetwork); 2] {
    [("two_decks_older.bench", two_decks()), ("three_probing_older.bench", three_probing())]
}

pub fn path(name: &str) -> PathBuf {
    PathBuf::from(env!("CARGO_MANIFEST_DIR")).join("../files").join(name)
}

/// Settings A but for the sites.
fn start(sites: u32) -> TestNetwork {
    let [_, epsilon, phi, rank, capacity, universe] = A;
    TestNetwork::start([sites, epsilon, phi, rank, capacity, universe])
}

/// `0;7;3` and `1;7;3` by the batch call: five messages of each site.
fn two_decks() -> TestNetwork {
    let mut network = start(2);
    network.take(&[arrival(0, 7, 3), arrival(1, 7, 3)]);
    network
}

/// 17 arrivals by the batch call; the 18th closes the round and is delivered by single calls up to
/// site 0's answer to the first probe.
fn three_probing() -> TestNetwork {
    let mut network = start(3);
    for place in 0..17 {
        network.take(&[arrival(place % 3, 1, 5)]);
    }
    let (_, mut waiting) = network.observe(arrival(2, 1, 5));
    while waiting[0] != message(5, 1, 511, 0) {
        let next = waiting.remove(0);
        waiting.extend(network.hand_over(next).1);
    }
    let probing = Phase::Probing { site: 1, low: 0, high: 1023, sum: 6 };
    assert_eq!(network.coordinator.phase, probing);
    network
}
