//! Sites and coordinator as processes that know nothing of each other but bytes, fed a random
//! worklist: all messages, list and class, records and memory are those of the batch call on the
//! same draws. One line in ten is a touch. Touches and damaged messages come in between too: a
//! touch is accepted, a damaged message refused by its number, and neither changes anything.

#[path = "../../reference/tests/support/touches.rs"]
mod touches;
mod trial;

use draw_tracker::{Bench, Draw, Message};
use pipes::{coordinator_numbers, read_numbers_of, site_numbers, MessageBytes};
use reference::message::TOUCH;
use touches::value_or_touch;
use trial::{Random, Trial};

/// What the batch call makes of a worklist: messages, class and list, and what it leaves.
#[derive(PartialEq)]
struct Batched {
    messages: Vec<MessageBytes>,
    read: Vec<u64>,
    /// Each site's record and memory.
    sites: Vec<Vec<u64>>,
    /// The coordinator's record and memory.
    coordinator: Vec<u64>,
}

fn batched(settings: [u32; 6], worklist: &[[u32; 3]]) -> Batched {
    let mut bench = Bench::start(pipes::settings(settings)).expect("the bench starts");
    let draws: Vec<Draw> =
        worklist.iter().map(|&[deck, code, class]| Draw { deck, code, class }).collect();
    let mut messages = Vec::new();
    let run = bench.run_all(&draws, |message| messages.push(message.to_bytes()));
    assert_eq!((run.accepted, run.written, run.stopped), (draws.len(), messages.len(), None));
    assert_eq!(bench.messages(), messages.len() as u64);
    for deck in 0..settings[0] {
        let names = |bytes: &&MessageBytes| Message::from_bytes(bytes).deck == u64::from(deck);
        let of_deck = messages.iter().filter(names).count() as u64;
        assert_eq!(bench.messages_of(deck), Some(of_deck), "deck {deck}");
    }
    let site = |number: u32| {
        let record = bench.deck(number).expect("a site");
        site_numbers(record, bench.deck_memory(number).expect("a site"))
    };
    let class = bench.class().expect("a class or none");
    Batched {
        messages,
        read: read_numbers_of(class, &bench.listed().expect("a list")),
        sites: (0..settings[0]).map(site).collect(),
        coordinator: coordinator_numbers(bench.desk(), bench.desk_memory()),
    }
}

/// Few codes are frequent, many rare; classes gather around one that moves.
fn some_worklist(settings: [u32; 6], draws: u64, random: &mut Random) -> Vec<[u32; 3]> {
    let [sites, _, _, _, _, universe] = settings.map(u64::from);
    let draw = |number: u64| {
        let item_bound = 1 << random.below(12);
        let item = random.below(item_bound) % universe;
        let value = 1 + (number + random.below(200) + random.below(200)) % 1023;
        let value = value_or_touch(random.below(u64::MAX), value as u32);
        [random.below(sites) as u32, item as u32, value]
    };
    (0..draws).map(draw).collect()
}

/// One network from start to end; answers how often each refusal was met.
fn run(settings: [u32; 6], draws: u64, seed: u64) -> [u64; 15] {
    println!("settings {settings:?}, seed {seed}");
    let worklist = some_worklist(settings, draws, &mut Random(seed));
    let mut trial = Trial::start(settings, seed + 1);
    for &draw in &worklist {
        trial.take(draw);
    }
    let expected = batched(settings, &worklist);
    // The draws alone come to the same.
    let is_draw = |&[_, _, value]: &[u32; 3]| value != TOUCH;
    let draws: Vec<[u32; 3]> = worklist.into_iter().filter(is_draw).collect();
    assert!(batched(settings, &draws) == expected);
    assert!(trial.messages == expected.messages);
    assert_eq!(trial.read(), expected.read);
    let (sites, coordinator) = trial.state();
    assert!(sites == expected.sites);
    assert!(coordinator == expected.coordinator);
    let refused = trial.refused;
    trial.finish();
    refused
}

#[test]
fn processes_do_as_the_batch_call() {
    let mut refused = [0; 15];
    for sites in 1..=8 {
        for (place, [epsilon, phi, rank, capacity, universe, draws]) in [
            [1000, 1000, 500, 6, 10, 300],
            [500, 500, 900, 12, 40, 400],
            [60, 100, 250, 100, 1000, 250],
        ]
        .into_iter()
        .enumerate()
        {
            let settings = [sites, epsilon, phi, rank, capacity, universe];
            for seed in 0..3 {
                let seed = 100 * u64::from(sites) + 10 * place as u64 + seed;
                for (all, now) in refused.iter_mut().zip(run(settings, u64::from(draws), seed)) {
                    *all += now;
                }
            }
        }
    }
    println!("refused {refused:?}");
    for number in [5, 6, 7, 9, 10] {
        assert!(refused[number] > 100, "refusal {number}");
    }
}

/// No draws at all: nothing is said, nothing listed, and there is no class.
#[test]
fn no_draws() {
    let mut trial = Trial::start([3, 500, 500, 900, 12, 40], 1);
    assert_eq!(trial.read(), [0, 0]);
    trial.finish();
}
