//! The settings, their test, and what follows from them alone.

use crate::refusal;

/// Most sites that a network may have.
pub const MAX_SITES: u32 = 32;
/// Least epsilon, in thousandths.
pub const MIN_EPSILON: u32 = 2;
/// One whole, in thousandths: the largest epsilon, phi and rank.
pub const THOUSAND: u32 = 1000;
/// Most counters of a site.
pub const MAX_CAPACITY: u32 = 3000;
/// Largest universe of items.
pub const MAX_UNIVERSE: u32 = 65_536;
/// Capacity times epsilon must reach this.
pub const MIN_CAPACITY_TIMES_EPSILON: u32 = 6000;
/// Numbers of values: values run from 0 to 1023.
pub const VALUES: usize = 1024;
/// The largest value.
pub const MAX_VALUE: u32 = 1023;
/// Numbers that one counter takes in a site's memory.
pub const COUNTER_NUMBERS: usize = 4;

/// Numbers of the settings.
pub const SETTINGS_NUMBERS: usize = 6;

/// The threshold is epsilon × base / (this × sites).
const THRESHOLD_DIVISOR: u128 = 3000;
/// The allowance is this × sites × (digits + 1) / epsilon.
const ALLOWANCE_FACTOR: u64 = 150_000;

/// Document 01's settings k, e, p, q, c and u, in this order.
#[derive(Clone, Copy, Debug, PartialEq, Eq)]
pub struct Settings {
    /// Document 01's decks k.
    pub sites: u32,
    /// Document 01's leeway e, in thousandths.
    pub epsilon: u32,
    /// Document 01's list share p, in thousandths.
    pub phi: u32,
    /// Document 01's rank q: a relative rank in thousandths, not a position.
    pub rank: u32,
    /// Document 01's slots c of each deck.
    pub capacity: u32,
    /// Document 01's code space u.
    pub universe: u32,
}

impl Settings {
    /// All numbers 0: no settings.
    pub const ZERO: Settings =
        Settings { sites: 0, epsilon: 0, phi: 0, rank: 0, capacity: 0, universe: 0 };

    /// The settings from k, e, p, q, c, u.
    pub fn from_numbers(numbers: [u32; SETTINGS_NUMBERS]) -> Settings {
        let [sites, epsilon, phi, rank, capacity, universe] = numbers;
        Settings { sites, epsilon, phi, rank, capacity, universe }
    }

    /// k, e, p, q, c, u.
    pub fn to_numbers(self) -> [u32; SETTINGS_NUMBERS] {
        [self.sites, self.epsilon, self.phi, self.rank, self.capacity, self.universe]
    }

    /// Numbers of one site's memory that precede its histogram.
    pub fn counters_len(&self) -> usize {
        COUNTER_NUMBERS.saturating_mul(self.capacity as usize)
    }

    /// Numbers in one site's memory.
    pub fn site_memory_len(&self) -> usize {
        self.counters_len().saturating_add(VALUES)
    }

    /// Numbers in the memory of all sites, which stand one after another.
    pub fn sites_memory_len(&self) -> usize {
        self.site_memory_len().saturating_mul(self.sites as usize)
    }

    /// Numbers in the coordinator's memory.
    pub fn coordinator_memory_len(&self) -> usize {
        (self.universe as usize).saturating_add(VALUES)
    }

    /// Most messages that may follow one arrival: 23 × k + 2.
    pub fn messages_per_arrival(&self) -> usize {
        (self.sites as usize).saturating_mul(23).saturating_add(2)
    }
}

/// Document 01's settings test: refusals 1, 2 and 3 in this order, or 0.
pub fn settings_refusal(settings: &Settings) -> u8 {
    if !in_range(settings) {
        refusal::SETTING_RANGE
    } else if settings.phi < settings.epsilon {
        refusal::PHI_BELOW_EPSILON
    } else if settings.capacity * settings.epsilon < MIN_CAPACITY_TIMES_EPSILON {
        refusal::TOO_FEW_COUNTERS
    } else {
        refusal::ACCEPTED
    }
}

fn in_range(settings: &Settings) -> bool {
    (1..=MAX_SITES).contains(&settings.sites)
        && (MIN_EPSILON..=THOUSAND).contains(&settings.epsilon)
        && (1..=THOUSAND).contains(&settings.phi)
        && (1..=THOUSAND).contains(&settings.rank)
        && (1..=MAX_CAPACITY).contains(&settings.capacity)
        && (1..=MAX_UNIVERSE).contains(&settings.universe)
}

/// The threshold that a base gives: epsilon × base / (3000 × sites) rounded
/// down, at least 1. Settings that do not pass their test give some number
/// too: no sites give 1, and what passes 64 bits gives the largest number.
pub fn threshold_of(settings: &Settings, base: u64) -> u64 {
    let product = u128::from(settings.epsilon) * u128::from(base);
    let divisor = THRESHOLD_DIVISOR * u128::from(settings.sites);
    let quotient = product.checked_div(divisor).unwrap_or(0);
    u64::try_from(quotient).unwrap_or(u64::MAX).max(1)
}

/// Binary digits of n: the halvings, each rounded down, that bring n to 0.
pub fn digits(n: u64) -> u32 {
    u64::BITS - n.leading_zeros()
}

/// Document 01's allowance of messages for n draws, or refusal 1, 2 or 3.
pub fn allowance(settings: &Settings, n: u64) -> Result<u64, u8> {
    match settings_refusal(settings) {
        refusal::ACCEPTED => {
            let factor = ALLOWANCE_FACTOR * u64::from(settings.sites);
            let steps = u64::from(digits(n)) + 1;
            Ok(factor * steps / u64::from(settings.epsilon))
        }
        number => Err(number),
    }
}
