//! The causes of refusal 11, each just outside its limit, in networks of two sites.

use reference::coordinator::Phase;
use reference::site::SiteRecord;

use super::{arrival, TestNetwork};

/// Two sites of ten counters and a universe of 20 items.
pub const SETTINGS: [u32; 6] = [2, 600, 700, 500, 10, 20];
/// Numbers of one site's memory.
pub const SITE: usize = 40 + 1024;

/// A network at rest with some counters in use, at threshold 1.
pub fn at_threshold_1() -> TestNetwork {
    let mut network = TestNetwork::start(SETTINGS);
    network.take(&[arrival(0, 1, 2), arrival(1, 3, 4), arrival(1, 3, 5)]);
    assert_eq!((network.coordinator.threshold, network.coordinator.signals), (1, 1));
    network
}

/// A network at rest at a threshold above 2, all counters of site 1 in use.
pub fn above_threshold_1() -> TestNetwork {
    let mut network = TestNetwork::start(SETTINGS);
    for round in 0..60 {
        network.take(&[arrival(round % 2, round % 20, 1 + round)]);
    }
    assert!(network.coordinator.threshold > 2);
    network
}

/// Each of these changes, made to site 1 by itself, is inconsistent.
pub const SITE_CAUSES: [fn(&mut SiteRecord, &mut [u32]); 18] = [
    |record, _| record.used = 11,
    |record, _| record.used = u64::MAX,
    |_, memory| memory[0] = 20,
    |_, memory| memory[0] = u32::MAX,
    |record, memory| {
        memory[40] += (1_000_000_001 - record.arrivals) as u32;
        record.arrivals = 1_000_000_001;
    },
    |_, memory| memory[40 + 1023] += 1,
    |record, _| record.arrivals += 1,
    |record, _| record.arrivals = u64::MAX,
    |_, memory| memory[2] = memory[1] + 1 - memory[3],
    |_, memory| memory[3] = memory[1] + 1 - memory[2],
    |_, memory| (memory[2], memory[3]) = (u32::MAX, u32::MAX),
    |record, memory| {
        memory[1] = record.arrivals as u32 + 1;
        memory[2] = memory[1] - memory[3];
    },
    |record, memory| {
        // Unreported reaches the threshold.
        memory[1] = record.arrivals as u32;
        memory[3] = 0;
        memory[2] = memory[1] - record.threshold as u32;
    },
    |record, _| record.pending = record.threshold,
    |record, _| record.threshold = 0,
    |record, _| record.threshold = 1_000_000_001,
    |record, _| record.dropped = record.arrivals + 1,
    |record, _| record.dropped = u64::MAX,
];

/// Each of these changes, made to the coordinator, is inconsistent.
pub const COORDINATOR_CAUSES: [fn(&mut TestNetwork); 22] = [
    |network| network.coordinator.signals = 2,
    |network| network.coordinator.signals = u64::MAX,
    |network| in_phase(network, Phase::Collecting { site: 0 }, 1),
    |network| in_phase(network, Phase::Collecting { site: 0 }, 3),
    |network| in_phase(network, Phase::Announcing { site: 0 }, 0),
    |network| in_phase(network, Phase::Probing { site: 0, low: 0, high: 1, sum: 0 }, 1),
    |network| in_phase(network, Phase::Collecting { site: 2 }, 2),
    |network| in_phase(network, Phase::Announcing { site: u64::MAX }, 2),
    |network| in_phase(network, Phase::Probing { site: 2, low: 0, high: 1, sum: 0 }, 2),
    |network| in_phase(network, Phase::Probing { site: 0, low: 7, high: 7, sum: 0 }, 2),
    |network| in_phase(network, Phase::Probing { site: 0, low: 8, high: 7, sum: 0 }, 2),
    |network| in_phase(network, Phase::Probing { site: 0, low: 0, high: 1024, sum: 0 }, 2),
    |network| {
        let sum = 100_000_000_001;
        in_phase(network, Phase::Probing { site: 0, low: 0, high: 1, sum }, 2)
    },
    |network| network.coordinator.threshold += 1,
    |network| network.coordinator.threshold -= 1,
    |network| network.coordinator.base = u64::MAX,
    |network| network.coordinator.base = network.coordinator.total + 1,
    |network| network.coordinator.quantile = 1024,
    |network| network.coordinator.total = 100_000_000_001,
    |network| network.coordinator_memory[19] = 100_000_000_001,
    |network| network.coordinator_memory[20 + 1023] = 100_000_000_001,
    |network| network.coordinator_memory[0] = u64::MAX,
];

/// Each of these is inconsistent while the threshold is 1.
pub const THRESHOLD_1_CAUSES: [fn(&mut TestNetwork); 3] = [
    |network| network.coordinator_memory[20] += 1,
    |network| network.coordinator.total += 1,
    |network| network.coordinator_memory[20..].fill(100_000_000_000),
];

pub fn in_phase(network: &mut TestNetwork, phase: Phase, signals: u64) {
    network.coordinator.phase = phase;
    network.coordinator.signals = signals;
}

/// Each of these parts passes alone, but they do not fit together.
pub const NETWORK_CAUSES: [fn(&mut TestNetwork); 6] = [
    |network| in_phase(network, Phase::Collecting { site: 0 }, 2),
    |network| in_phase(network, Phase::Probing { site: 0, low: 0, high: 1, sum: 0 }, 2),
    |network| in_phase(network, Phase::Announcing { site: 1 }, 2),
    |network| network.sites.records[0].threshold += 1,
    |network| {
        for record in &mut network.sites.records {
            record.threshold += 1;
        }
    },
    |network| {
        network.sites.records[0].arrivals += 1;
        network.site_memory[40] += 1;
    },
];

/// Each of these makes a site's count of messages too large: inconsistent for the batch call, and
/// on saving and reading.
pub const COUNT_CAUSES: [fn(&mut TestNetwork); 5] = [
    |network| network.sites.messages[0] = 100_000_000_000_001,
    |network| network.sites.messages[1] = 100_000_000_000_001,
    |network| network.sites.messages[0] = u64::MAX,
    |network| network.sites.messages[1] = u64::MAX,
    |network| network.sites.messages[..2].fill(1 << 63),
];
