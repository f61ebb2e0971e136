//! Request N5's counts of messages, one for each site that a message names, whichever way it goes:
//! recomputed from the log, summed over the network, and around their limit.

use reference::message::Message;

use super::{Random, TestNetwork};

/// The counts of all sites, those from k on unused.
pub type Counts = [u64; 32];

/// The largest count that passes, the old limit of the one count.
pub const LIMIT: u64 = 100_000_000_000_000;

/// These counts and one more for each message, at the site that is its second number.
pub fn counted_up(mut counts: Counts, log: &[Message]) -> Counts {
    for message in log {
        counts[message.to_numbers()[1] as usize] += 1;
    }
    counts
}

/// The counts of these messages alone.
pub fn counts_of(log: &[Message]) -> Counts {
    counted_up([0; 32], log)
}

impl TestNetwork {
    /// The network's messages: the sum over its own sites.
    pub fn all_messages(&self) -> u64 {
        let mut sum = 0;
        for site in 0..self.settings.sites {
            sum += self.sites.messages[site as usize];
        }
        sum
    }

    /// Whether one of the network's own sites counts more than its limit: the causes of 11.
    pub fn counts_too_much(&self) -> bool {
        (0..self.settings.sites).any(|site| self.sites.messages[site as usize] > LIMIT)
    }

    /// Gives the sites from k on any counts, above the limit too. No call tests or changes them.
    pub fn fill_unused_counts(&mut self, random: &mut Random) {
        for count in &mut self.sites.messages[self.settings.sites as usize..] {
            let some = random.next();
            *count = random.pick(&[0, 1, LIMIT, LIMIT + 1, u64::MAX, some]);
        }
    }

    /// The network as reading a file leaves its sites from k on: no message counted.
    pub fn without_unused_counts(mut self) -> TestNetwork {
        self.sites.messages[self.settings.sites as usize..].fill(0);
        self
    }
}
