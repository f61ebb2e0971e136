//! Document 01's instances P2 to P5 by the batch call on the proved code, request N1's of a code
//! that leaves unsent, and a batch on records that the calls never leave.

use boundary::*;

const A: [u32; 6] = [1, 1000, 1000, 500, 6, 10];
const SITE_WORDS: usize = 4 * 6 + 1024;
const COORDINATOR_WORDS: usize = 10 + 1024;
const P2: Arrival = Arrival { site: 0, item: 7, value: 3 };
/// The place of site 0's message count in the numbers of all sites.
const MESSAGES: usize = 32 * SITE_NUMBERS;

/// A network under settings A with a log for eight arrivals.
#[derive(Clone, Debug, PartialEq)]
struct Network {
    sites: Vec<u64>,
    coordinator: Vec<u64>,
    site_memory: Vec<u32>,
    coordinator_memory: Vec<u64>,
    log: Vec<u64>,
    out: Vec<u64>,
}

impl Network {
    fn start() -> Network {
        let mut network = Network {
            sites: vec![77; SITES_NUMBERS],
            coordinator: vec![77; 10],
            site_memory: vec![77; SITE_WORDS],
            coordinator_memory: vec![77; COORDINATOR_WORDS],
            log: vec![77; 4 * 25 * 8],
            out: vec![77; 2],
        };
        let Network { sites, coordinator, site_memory, coordinator_memory, .. } = &mut network;
        assert_eq!(start_sites(&A, site_memory, sites), 0);
        assert_eq!(start_coordinator(&A, coordinator_memory, coordinator), 0);
        network
    }

    fn run(&mut self, settings: &[u32], arrivals: &[Arrival]) -> u32 {
        let batch = Batch {
            sites: &mut self.sites,
            coordinator: &mut self.coordinator,
            site_memory: &mut self.site_memory,
            coordinator_memory: &mut self.coordinator_memory,
            log: &mut self.log,
            out: &mut self.out,
        };
        run_batch(settings, arrivals, batch)
    }

    /// How many messages follow each of these arrivals.
    fn messages(&mut self, arrivals: &[Arrival]) -> Vec<u64> {
        let one = |arrival: &Arrival| {
            assert_eq!(self.run(&A, &[*arrival]), 0);
            assert_eq!(self.out[0], 1);
            self.out[1]
        };
        arrivals.iter().map(one).collect()
    }

    fn threshold(&self) -> u64 {
        self.coordinator[2]
    }

    /// Draws, pending, threshold, slots in use and forgotten draws of the only deck.
    fn record(&self) -> &[u64] {
        &self.sites[..SITE_NUMBERS]
    }
}

#[test]
fn one_draw_of_p2() {
    let mut network = Network::start();
    assert_eq!(network.run(&A, &[P2]), 0);
    assert_eq!(network.out, [1, 5]);
    let messages = [[1, 0, 7, 1], [2, 0, 1, 3], [3, 0, 0, 0], [4, 0, 0, 0], [7, 0, 1, 1]];
    assert_eq!(network.log[..20], messages.concat());
    assert!(network.log[20..].iter().all(|&number| number == 77));
    assert_eq!(network.sites[MESSAGES], 5);
    let (mut list, mut out) = ([77; 3], [77; 2]);
    let Network { coordinator, coordinator_memory, .. } = &network;
    assert_eq!(list_heavy_hitters(&A, coordinator, coordinator_memory, &mut list, &mut out), 0);
    assert_eq!((list, out[0]), ([7, 77, 77], 1));
    assert_eq!(read_quantile(&A, coordinator, coordinator_memory, &mut out), 0);
    assert_eq!(out, [1, 3]);
}

#[test]
fn six_and_eight_draws_of_p3_and_p4() {
    let mut network = Network::start();
    assert_eq!(network.messages(&[P2; 6]), [5, 5, 5, 5, 5, 25]);
    assert_eq!((network.sites[MESSAGES], network.threshold()), (50, 2));
    assert_eq!(network.messages(&[P2; 2]), [0, 25]);
    assert_eq!(network.threshold(), 2);
    // The same in one batch.
    let mut at_once = Network::start();
    assert_eq!(at_once.run(&A, &[P2; 8]), 0);
    assert_eq!(at_once.out, [8, 75]);
    assert_eq!(at_once.sites, network.sites);
    assert_eq!(at_once.coordinator, network.coordinator);
    assert_eq!(at_once.site_memory, network.site_memory);
    assert_eq!(at_once.coordinator_memory, network.coordinator_memory);
}

#[test]
fn a_code_leaves_in_p5() {
    let mut network = Network::start();
    let arrivals: Vec<Arrival> = (0..7).map(|item| Arrival { site: 0, item, value: 3 }).collect();
    assert_eq!(network.run(&A, &arrivals), 0);
    assert_eq!(network.site_memory[..4], [6, 2, 1, 0]);
    let others = (1..6).flat_map(|item| [item, 1, 0, 1]);
    assert!(network.site_memory[4..24].iter().copied().eq(others));
    // It says nothing: the 50 messages are those of the first six, which closed at threshold 2.
    assert_eq!((network.out[0], network.out[1], network.threshold()), (7, 50, 2));
    // Code 0 had been sent, so nothing went with it: 6 sent, 1 unsent and 0 forgotten are 7.
    assert_eq!(network.record(), [7, 1, 2, 6, 0]);
}

/// Request N1: after six draws `0;7;3` the threshold is 2; codes 0 to 4 fill the slots, and code 5
/// replaces code 0, which leaves with its one draw unsent.
#[test]
fn a_code_leaves_unsent() {
    let mut network = Network::start();
    let others = (0..6).map(|item| Arrival { site: 0, item, value: 3 });
    let arrivals: Vec<Arrival> = [P2; 6].into_iter().chain(others).collect();
    assert_eq!(network.messages(&arrivals[..11]), [5, 5, 5, 5, 5, 25, 0, 24, 0, 24, 0]);
    assert_eq!(network.site_memory[4..8], [0, 1, 0, 0]);
    assert_eq!(network.record(), [11, 1, 3, 6, 0]);
    assert_eq!(network.messages(&arrivals[11..]), [0]);
    assert_eq!(network.site_memory[4..8], [5, 2, 1, 0]);
    assert_eq!(network.record(), [12, 2, 3, 6, 1]);
    // 6 sent of code 7, one unsent each of codes 1 to 5, and 1 forgotten are the 12 draws.
    let slots = network.site_memory[..24].chunks_exact(4);
    let unsent: Vec<u32> = slots.map(|slot| slot[1] - slot[2] - slot[3]).collect();
    assert_eq!((network.coordinator_memory[7], unsent), (6, vec![0, 1, 1, 1, 1, 1]));
}

/// A coordinator's record that the calls never leave is 11, and nothing is changed but the counts.
#[test]
fn malformed_coordinators_of_a_batch() {
    let fresh = Network::start();
    for (place, number) in [
        (3, 1 << 32),
        (4, 1 << 32),
        (5, 4),
        (6, 1 << 32),
        (6, 1),
        (7, 1 << 32),
        (8, u64::MAX),
        (9, 1),
    ] {
        let mut network = fresh.clone();
        network.coordinator[place] = number;
        let mut after = network.clone();
        after.out = vec![0, 0];
        assert_eq!(network.run(&A, &[P2]), 11, "{place} {number}");
        assert_eq!(network, after);
    }
}

/// A log of no records is enough for no arrivals, and 14 for one.
#[test]
fn no_log() {
    let mut network = Network::start();
    network.log.clear();
    assert_eq!((network.run(&A, &[]), network.out.clone()), (0, vec![0, 0]));
    assert_eq!((network.run(&A, &[P2]), network.out.clone()), (14, vec![0, 0]));
    network.log = vec![77; 4 * 25 - 1];
    assert_eq!((network.run(&A, &[P2]), network.out.clone()), (14, vec![0, 0]));
    assert!(network.log.iter().all(|&number| number == 77));
}
