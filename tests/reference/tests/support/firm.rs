//! Request N10's firmer word on the list, held against exact counts: each listed item has
//! 6000 × (its draws) + 5e × (all draws) ≥ 6p × (all draws).

use std::io::Write;

use reference::settings::Settings;

/// The most of the leeway 5e that a listed item has used, and where. Nothing used is 0, all of it
/// 1, and more would be a wrong list.
#[derive(Clone, Copy, Debug)]
pub struct LeewayUsed {
    missing: u64,
    leeway: u64,
    settings: Settings,
    of_item: u64,
    draws: u64,
}

impl LeewayUsed {
    pub fn none(settings: &Settings) -> LeewayUsed {
        LeewayUsed { missing: 0, leeway: 1, settings: *settings, of_item: 0, draws: 0 }
    }

    /// A listed item, with so many of all draws.
    pub fn listed(&mut self, settings: &Settings, of_item: u64, draws: u64) {
        let asked = 6 * u64::from(settings.phi) * draws;
        let leeway = 5 * u64::from(settings.epsilon) * draws;
        assert!(
            6000 * of_item + leeway >= asked,
            "listed with {of_item} of {draws} under {settings:?}"
        );
        let missing = asked.saturating_sub(6000 * of_item);
        self.or_tighter(&LeewayUsed { missing, leeway, settings: *settings, of_item, draws });
    }

    /// The tighter of the two.
    pub fn or_tighter(&mut self, other: &LeewayUsed) {
        let product = |missing, leeway| u128::from(missing) * u128::from(leeway);
        if product(other.missing, self.leeway) > product(self.missing, other.leeway) {
            *self = *other;
        }
    }

    pub fn fraction(&self) -> f64 {
        self.missing as f64 / self.leeway as f64
    }

    /// Shown also where the test passes: what a test prints with `println!` is not.
    pub fn show(&self, name: &str) {
        let Settings { sites, epsilon, phi, .. } = self.settings;
        let line = format!(
            "\nleeway used, {name}: {:.4} ({} of {} draws, k {sites}, share {phi} with leeway \
             {epsilon})\n",
            self.fraction(),
            self.of_item,
            self.draws
        );
        std::io::stdout().write_all(line.as_bytes()).expect("standard output");
    }
}
