//! The proved sums beside a plain one, at every short length and at some long ones.

use reference::snapshot::byte_sum;
use sums::{agree, by_words, by_words_held, singly, singly_held, taken, Taken};

/// The bytes that a full bench's file sums.
const FULL: usize = 2_200_586;

/// Numbers that look random and are the same in every run.
struct Random(u64);

impl Random {
    fn byte(&mut self) -> u8 {
        self.0 = self.0.wrapping_mul(6_364_136_223_846_793_005).wrapping_add(1);
        (self.0 >> 56) as u8
    }

    fn bytes(&mut self, length: usize) -> Vec<u8> {
        (0..length).map(|_| self.byte()).collect()
    }
}

/// All six calls on the same bytes.
fn check(bytes: &[u8]) {
    let sum = bytes.iter().map(|&byte| u64::from(byte)).sum::<u64>() % 65_536;
    let length = bytes.len();
    assert_eq!(u64::from(byte_sum(bytes)), sum, "separate implementation, length {length}");
    assert_eq!(by_words(bytes), sum, "by words, length {length}");
    assert_eq!(singly(bytes), sum, "singly, length {length}");
    assert_eq!(u64::from(by_words_held(bytes)), sum, "by words, held, length {length}");
    assert_eq!(u64::from(singly_held(bytes)), sum, "singly, held, length {length}");
    assert_eq!(taken(bytes), Taken { sum, rounds: length / 8, singles: length % 8 });
    assert!(agree(bytes), "length {length}");
}

#[test]
fn every_length_to_300() {
    let mut random = Random(1);
    for length in 0..=300 {
        check(&vec![0; length]);
        check(&vec![255; length]);
        check(&(0..length).map(|i| i as u8).collect::<Vec<_>>());
        for _ in 0..20 {
            check(&random.bytes(length));
        }
    }
}

/// A slice may begin anywhere, and what stands before and behind it counts for nothing.
#[test]
fn every_beginning() {
    let mut random = Random(2);
    for length in 0..=40 {
        for before in 0..=16 {
            let inside = random.bytes(length);
            for around in [0, 255] {
                let mut all = vec![around; before];
                all.extend(&inside);
                all.extend([around; 24]);
                check(&all[before..before + length]);
                assert_eq!(by_words(&all[before..before + length]), by_words(&inside));
            }
        }
    }
}

/// Each byte counts once, wherever it stands.
#[test]
fn every_place() {
    for length in [1, 7, 8, 9, 41, 2048, 2055, 2056] {
        let mut bytes = vec![0; length];
        for place in 0..length {
            for byte in [1, 128, 255] {
                bytes[place] = byte;
                assert_eq!(by_words(&bytes), u64::from(byte), "place {place} of {length}");
            }
            bytes[place] = 0;
        }
    }
}

/// Around the ends of blocks of 256 words, with the lanes at their most, and where the sum passes
/// 65,535.
#[test]
fn ends_of_blocks() {
    let mut random = Random(3);
    let ends = (1..=4).map(|blocks| 2048 * blocks);
    for length in ends.flat_map(|end| end - 17..=end + 17).chain([257, 258, 514, 515]) {
        check(&vec![255; length]);
        check(&random.bytes(length));
    }
}

#[test]
fn long_ones() {
    let mut random = Random(4);
    for length in [4096, 65_535, 65_536, 65_537, 100_003, 1_000_000, FULL, FULL + 5] {
        check(&vec![255; length]);
        check(&random.bytes(length));
    }
}

/// A full bench, and the length that request N4's page names: "2,200,338 bytes, 275,042 rounds and
/// 2 single bytes".
#[test]
fn a_full_bench() {
    for (length, expected) in [(FULL, 275_073), (2_200_338, 275_042)] {
        let Taken { rounds, singles, .. } = taken(&Random(5).bytes(length));
        assert_eq!((rounds, singles), (expected, 2));
    }
}

/// The files of tests/files: the sum that they end in.
#[test]
fn saved_files() {
    for name in [
        "a_fresh",
        "a_after_p3",
        "a_announcing",
        "two_decks",
        "two_decks_older",
        "three_probing",
        "three_probing_older",
    ] {
        let path = format!("{}/../files/{name}.bench", env!("CARGO_MANIFEST_DIR"));
        let file = std::fs::read(path).expect("the file is there");
        let (summed, sum) = file.split_at(file.len() - 2);
        check(summed);
        assert_eq!(by_words_held(summed).to_le_bytes(), sum, "{name}");
    }
}
