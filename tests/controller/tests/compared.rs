//! Random settings and lines, valid and damaged, through the exported calls and the separate
//! implementation: every answer equal, and a refusal leaves the lent numbers as they were.

use controller::{allowance, test_line, test_settings, LineNumbers, Numbers};
use reference::settings::{self, Settings};
use reference::worklist;

const CASES: u32 = 100_000;

/// A small generator of our own (splitmix64), so that a seed gives the same cases everywhere.
struct Random(u64);

impl Random {
    fn next(&mut self) -> u64 {
        self.0 = self.0.wrapping_add(0x9e37_79b9_7f4a_7c15);
        let mut z = self.0;
        z = (z ^ (z >> 30)).wrapping_mul(0xbf58_476d_1ce4_e5b9);
        z = (z ^ (z >> 27)).wrapping_mul(0x94d0_49bb_1331_11eb);
        z ^ (z >> 31)
    }

    fn below(&mut self, n: u64) -> u64 {
        self.next() % n
    }

    fn one_of<T: Copy>(&mut self, choices: &[T]) -> T {
        choices[self.below(choices.len() as u64) as usize]
    }
}

/// A number inside its range, at its edges, just outside, or anything.
fn number(random: &mut Random, low: u32, high: u32) -> u32 {
    match random.below(10) {
        0 => random.one_of(&[low.wrapping_sub(1), low, high, high.wrapping_add(1)]),
        1 => random.next() as u32,
        _ => low + random.below(u64::from(high - low + 1)) as u32,
    }
}

fn some_settings(random: &mut Random) -> Numbers {
    let phi = number(random, 1, 1000);
    let epsilon = if random.below(2) == 0 { phi } else { number(random, 2, 1000) };
    // Capacities near 6000 / e, where refusal 3 begins.
    let enough = 6000 / epsilon.clamp(1, 1000);
    let anywhere = number(random, 1, 3000);
    let capacity = random.one_of(&[enough, enough + 1, anywhere]);
    [
        number(random, 1, 32),
        epsilon,
        phi,
        number(random, 1, 1000),
        capacity,
        number(random, 1, 65536),
    ]
}

#[test]
fn settings_and_allowance_agree() {
    let seed = 1;
    println!("seed {seed}");
    let mut random = Random(seed);
    let mut accepted = 0;
    for _ in 0..CASES {
        let numbers = some_settings(&mut random);
        let shift = random.below(64);
        let arrivals = random.next() >> shift;
        let settings = Settings::from_numbers(numbers);
        let refusal = u32::from(settings::settings_refusal(&settings));
        assert_eq!(test_settings(numbers), refusal, "{numbers:?}");
        let expected = match settings::allowance(&settings, arrivals) {
            Ok(messages) => (0, messages),
            Err(refusal) => (u32::from(refusal), 4711),
        };
        assert_eq!(allowance(numbers, arrivals, 4711), expected, "{numbers:?} {arrivals}");
        accepted += u32::from(refusal == 0);
    }
    // Enough of both sorts for the comparison to mean something.
    assert!(accepted > CASES / 5 && accepted < CASES * 9 / 10, "{accepted} accepted");
}

/// A well-formed line, or one with some bytes changed, left out or put in; perhaps more after it.
fn some_line(random: &mut Random) -> Vec<u8> {
    let mut text = String::new();
    for mark in [";", ";", "\n"] {
        let digits = random.one_of(&[1, 1, 2, 3, 5, 7, 7, 8]);
        let number = random.below(10u64.pow(digits));
        text.push_str(&number.to_string());
        text.push_str(mark);
    }
    let mut bytes = text.into_bytes();
    for _ in 0..random.one_of(&[0, 0, 0, 1, 1, 2, 5]) {
        let at = random.below(bytes.len() as u64 + 1) as usize;
        let byte = random.one_of(b"0;0;\n\n19:/ \r-+a\0\xff");
        match random.below(3) {
            0 if at < bytes.len() => bytes[at] = byte,
            1 if at < bytes.len() => drop(bytes.remove(at)),
            _ => bytes.insert(at, byte),
        }
    }
    let tail = random.below(12) as usize;
    bytes.extend((0..tail).map(|_| random.next() as u8));
    bytes
}

#[test]
fn lines_agree() {
    let seed = 2;
    println!("seed {seed}");
    let mut random = Random(seed);
    let before = LineNumbers { site: 1, item: 2, value: 3, used: 4 };
    let mut accepted = 0;
    for _ in 0..CASES {
        let bytes = some_line(&mut random);
        let expected = match worklist::read_line(&bytes) {
            Ok((arrival, used)) => (
                0,
                LineNumbers { site: arrival.site, item: arrival.item, value: arrival.value, used },
            ),
            Err(refusal) => (u32::from(refusal), before),
        };
        assert_eq!(test_line(&bytes, before), expected, "{bytes:?}");
        accepted += u32::from(expected.0 == 0);
    }
    assert!(accepted > CASES / 5 && accepted < CASES * 9 / 10, "{accepted} accepted");
}
