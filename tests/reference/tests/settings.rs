//! The settings test, thresholds, binary digits and the allowance.

mod support;

use reference::refusal::{ACCEPTED, PHI_BELOW_EPSILON, SETTING_RANGE, TOO_FEW_COUNTERS};
use reference::settings::{allowance, digits, settings_refusal, threshold_of, Settings};
use support::{Random, A};

/// The settings test as document 01's sentences have it, in wide numbers.
fn expected_refusal(numbers: [u32; 6]) -> u8 {
    let [k, e, p, q, c, u] = numbers.map(u64::from);
    let ranges =
        [(k, 1, 32), (e, 2, 1000), (p, 1, 1000), (q, 1, 1000), (c, 1, 3000), (u, 1, 65536)];
    if ranges.iter().any(|&(number, low, high)| number < low || number > high) {
        SETTING_RANGE
    } else if p < e {
        PHI_BELOW_EPSILON
    } else if c * e < 6000 {
        TOO_FEW_COUNTERS
    } else {
        ACCEPTED
    }
}

#[test]
fn each_end_of_each_range() {
    let widest = [32, 2, 1000, 1000, 3000, 65_536];
    assert_eq!(settings_refusal(&Settings::from_numbers(widest)), ACCEPTED);
    let least = [1, 1000, 1000, 1, 6, 1];
    assert_eq!(settings_refusal(&Settings::from_numbers(least)), ACCEPTED);
    let outside = [[0, 33], [1, 1001], [0, 1001], [0, 1001], [0, 3001], [0, 65_537]];
    for (place, ends) in outside.into_iter().enumerate() {
        for number in ends.into_iter().chain([u32::MAX]) {
            let mut numbers = A;
            numbers[place] = number;
            assert_eq!(settings_refusal(&Settings::from_numbers(numbers)), SETTING_RANGE);
        }
    }
}

#[test]
fn refusals_in_order() {
    let refusals = [
        ([1, 500, 499, 500, 11, 10], PHI_BELOW_EPSILON),
        ([1, 500, 499, 500, 0, 10], SETTING_RANGE),
        ([1, 500, 500, 500, 11, 10], TOO_FEW_COUNTERS),
        ([1, 500, 500, 500, 12, 10], ACCEPTED),
        ([33, 500, 499, 500, 11, 10], SETTING_RANGE),
    ];
    for (numbers, refusal) in refusals {
        assert_eq!(settings_refusal(&Settings::from_numbers(numbers)), refusal);
        let allowed = allowance(&Settings::from_numbers(numbers), 1);
        assert_eq!(allowed.err().unwrap_or(ACCEPTED), refusal);
    }
}

#[test]
fn random_settings() {
    let mut random = Random::new(21);
    let choices =
        [0, 1, 2, 3, 5, 6, 7, 32, 33, 500, 857, 858, 1000, 1001, 3000, 3001, 65_536, 65_537];
    let mut seen = [0; 4];
    for _ in 0..300_000 {
        let mut numbers = [0; 6].map(|_| random.pick(&choices));
        if random.one_in(2) {
            numbers[0] = 1 + random.below32(32);
            numbers[3] = 1 + random.below32(1000);
            numbers[5] = 1 + random.below32(65_536);
        }
        let refusal = settings_refusal(&Settings::from_numbers(numbers));
        assert_eq!(refusal, expected_refusal(numbers), "{numbers:?}");
        seen[usize::from(refusal)] += 1;
    }
    assert!(seen.iter().all(|&times| times > 100), "{seen:?}");
}

#[test]
fn thresholds() {
    let mut random = Random::new(22);
    for _ in 0..100_000 {
        let (sites, epsilon) = (random.between(1, 32), random.between(2, 1000));
        let settings = Settings::from_numbers([sites, epsilon, 1000, 500, 3000, 10]);
        let base = random.below(100_000_000_001) >> random.below(38);
        let threshold = threshold_of(&settings, base);
        let (product, divisor) = (u64::from(epsilon) * base, 3000 * u64::from(sites));
        assert!(threshold >= 1 && product < (threshold + 1) * divisor);
        assert!(threshold == 1 || threshold * divisor <= product);
    }
}

/// Whatever the bits, the threshold is some number.
#[test]
fn thresholds_of_any_bits() {
    let settings = Settings::from_numbers([0, u32::MAX, 0, 0, 0, 0]);
    assert_eq!(threshold_of(&settings, u64::MAX), 1);
    let settings = Settings::from_numbers([1, u32::MAX, 0, 0, 0, 0]);
    assert_eq!(threshold_of(&settings, u64::MAX), u64::MAX);
}

#[test]
fn digits_are_halvings() {
    let mut random = Random::new(23);
    let few = (0..2000).chain([u64::MAX, u64::MAX / 2, u64::MAX / 2 + 1]);
    let many: Vec<u64> = (0..2000).map(|_| random.next() >> random.below(64)).collect();
    for number in few.chain(many) {
        let (mut rest, mut halvings) = (number, 0);
        while rest > 0 {
            rest /= 2;
            halvings += 1;
        }
        assert_eq!(digits(number), halvings);
    }
}

#[test]
fn allowances() {
    let widest = Settings::from_numbers([32, 2, 1000, 1000, 3000, 65_536]);
    assert_eq!(allowance(&widest, u64::MAX), Ok(150_000 * 32 * 65 / 2));
    let sevenths = Settings::from_numbers([1, 7, 7, 500, 858, 10]);
    assert_eq!(allowance(&sevenths, 1), Ok(300_000 / 7));
}
