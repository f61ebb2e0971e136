//! Whole rounds: every message, one by one, and the coordinator's numbers after
//! each arrival, against the plain network.

mod support;

use support::plain::PlainNetwork;
use support::streams::{Source, ALL};
use support::{Random, TestNetwork};

fn random_settings(random: &mut Random) -> [u32; 6] {
    let sites = random.pick(&[1, 2, 3, 6, 32]);
    let epsilon = random.pick(&[150, 400, 999, 1000]);
    let capacity = 6000_u32.div_ceil(epsilon);
    let rank = random.between(1, 1000);
    let universe = random.pick(&[1, 5, 50, 90]);
    [sites, epsilon, random.between(epsilon, 1000), rank, capacity, universe]
}

#[test]
fn every_message_one_by_one() {
    let mut random = Random::new(901);
    for round in 0..12 {
        for stream in ALL {
            let numbers = random_settings(&mut random);
            println!("settings {numbers:?}");
            let mut network = TestNetwork::start(numbers);
            let mut plain = PlainNetwork::start(network.settings);
            let mut source = Source::new(stream, 910 + round);
            for _ in 0..1500 {
                let next = source.next(&network);
                assert_eq!(network.take(&[next]), plain.take(next));
                let record = network.coordinator;
                let numbers = [record.total, record.base, record.threshold, record.signals];
                assert_eq!(numbers, [plain.total, plain.base, plain.threshold, plain.signals]);
                assert_eq!(record.quantile, plain.quantile);
            }
            let universe = network.settings.universe as usize;
            assert_eq!(network.coordinator_memory[..universe], plain.estimates);
        }
    }
}
