//! The true counts of a stream, and demands 2 and 3 held against them, with requests N2 and N10:
//! draws are arrivals of value 1 or more, and so are the n of both message bounds and of the
//! allowance.

use reference::coordinator::{self, Phase};
use reference::message::{Arrival, TOUCH};
use reference::settings::{allowance, digits, Settings};

use super::firm::LeewayUsed;
use super::TestNetwork;

/// What was really drawn, and how many messages it took.
pub struct Truth {
    pub items: Vec<u64>,
    pub values: Vec<u64>,
    pub draws: u64,
    pub messages: u64,
    pub leeway_used: LeewayUsed,
    listed: Vec<u32>,
}

impl Truth {
    pub fn new(settings: &Settings) -> Truth {
        let universe = settings.universe as usize;
        Truth {
            items: vec![0; universe],
            values: vec![0; 1024],
            draws: 0,
            messages: 0,
            leeway_used: LeewayUsed::none(settings),
            listed: vec![0; universe],
        }
    }

    /// Counts an accepted arrival and the messages that followed it. A touch counts nowhere.
    pub fn count(&mut self, settings: &Settings, arrival: &Arrival, messages: usize) {
        if !arrival.is_draw() {
            assert_eq!(messages, 0, "messages after a touch");
            return;
        }
        self.items[arrival.item as usize] += 1;
        self.values[arrival.value as usize] += 1;
        self.draws += 1;
        self.messages += messages as u64;
        assert!(messages <= 23 * settings.sites as usize + 2, "messages after one arrival");
    }

    /// Demands 2 and 3 of a network at rest.
    pub fn check(&mut self, network: &TestNetwork) {
        assert_eq!(network.refusal(), 0, "consistent after {} draws", self.draws);
        assert_eq!(network.coordinator.phase, Phase::Idle);
        let sites = &network.sites.records[..network.settings.sites as usize];
        let taken: u64 = sites.iter().map(|record| record.arrivals).sum();
        assert_eq!(taken, self.draws, "what the sites count is the draws");
        self.check_heavy_hitters(network);
        self.check_quantile(network);
        self.check_messages(&network.settings);
    }

    /// Whoever has p thousandths is listed, and nobody below p - e, nor below p - 5e / 6.
    fn check_heavy_hitters(&mut self, network: &TestNetwork) {
        let count = coordinator::list_heavy_hitters(
            &network.settings,
            &network.coordinator,
            &network.coordinator_memory,
            &mut self.listed,
        )
        .expect("the list is as long as the universe");
        let (phi, epsilon) = (network.settings.phi, network.settings.epsilon);
        let mut listed = self.listed[..count].iter().copied().peekable();
        for (item, &times) in self.items.iter().enumerate() {
            let is_listed = listed.next_if_eq(&(item as u32)).is_some();
            let share = 1000 * times;
            let heavy = self.draws >= 1 && share >= u64::from(phi) * self.draws;
            assert!(is_listed || !heavy, "item {item} is missing at {}", self.draws);
            let light = share < u64::from(phi - epsilon) * self.draws;
            assert!(!is_listed || !light, "item {item} is too light at {}", self.draws);
            if is_listed {
                self.leeway_used.listed(&network.settings, times, self.draws);
            }
        }
        assert_eq!(listed.next(), None, "the list is in rising order");
        assert!(self.draws > 0 || count == 0, "nothing was drawn, so nothing is listed");
    }

    /// The quantile is within e on both sides, and none only before all draws. None of these has
    /// value 0, so that is never the answer.
    fn check_quantile(&self, network: &TestNetwork) {
        let Some(quantile) = network.quantile() else {
            assert_eq!(self.draws, 0, "a quantile is due");
            return;
        };
        assert!(self.draws > 0, "no quantile is due");
        assert_ne!(quantile, TOUCH, "the quantile is the value of a draw");
        let quantile = quantile as usize;
        let (rank, epsilon) =
            (u64::from(network.settings.rank), u64::from(network.settings.epsilon));
        let below: u64 = self.values[..quantile].iter().sum();
        let above: u64 = self.values[quantile + 1..].iter().sum();
        assert!(1000 * below <= (rank + epsilon) * self.draws, "below at {}", self.draws);
        let limit = (1000 - rank + epsilon) * self.draws;
        assert!(1000 * above <= limit, "above at {}", self.draws);
        // The coordinator knows all draws while the threshold is 1 and right
        // after a close: then the quantile is exact.
        if network.coordinator.threshold == 1 || network.coordinator.base == self.draws {
            assert_eq!(Some(quantile), self.exact_quantile(rank));
        }
    }

    /// The least value with rank thousandths of the draws at or below it.
    fn exact_quantile(&self, rank: u64) -> Option<usize> {
        let mut below = 0;
        self.values.iter().position(|&times| {
            below += times;
            1000 * below >= rank * self.draws
        })
    }

    /// The messages are few: demand 3, and never more than 25 a draw.
    fn check_messages(&self, settings: &Settings) {
        let steps = u64::from(digits(self.draws)) + 1;
        let limit = 150_000 * u64::from(settings.sites) * steps;
        assert!(u64::from(settings.epsilon) * self.messages <= limit, "demand 3");
        assert!(self.messages <= 25 * self.draws);
        let allowed = allowance(settings, self.draws).expect("the settings pass");
        assert!(self.messages <= allowed);
    }
}
