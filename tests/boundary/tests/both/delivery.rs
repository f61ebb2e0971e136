//! An arrival with full delivery: the proved code's one call of it, and the single calls of the
//! separate implementation one by one.

use std::collections::VecDeque;

use boundary::Delivery;
use reference::coordinator::Phase;
use reference::message::{Arrival, Message};
use reference::refusal::{ACCEPTED, UNKNOWN_SITE};
use reference::site;

use super::batch::{numbers_of, Records};
use super::{is_wide, Both, JUNK};
use crate::support::TestNetwork;

/// Why the arrival was refused, if it was; the number of a call that stopped its delivery, if one
/// did; and the messages that went out, in order.
pub struct Delivered {
    pub refusal: u8,
    pub stopped: u8,
    pub messages: Vec<Message>,
}

impl Delivered {
    fn refused(refusal: u8) -> Delivered {
        Delivered { refusal, stopped: ACCEPTED, messages: Vec::new() }
    }
}

impl Both {
    /// Records, both memories and the answer are the same on both sides; a refused arrival changes
    /// nothing, and neither does a touch. The proved call hands out how many messages went out:
    /// those of the separate implementation are answered.
    pub fn deliver_arrival(&mut self, network: &mut TestNetwork, next: Arrival) -> Delivered {
        let before = network.clone();
        let mut proved = network.clone();
        let (number, out) = proved_delivery(&mut proved, next);
        self.wide += u64::from(is_wide(&network.coordinator));
        let delivered = by_single_calls(network, next);
        self.count(number, delivered.refusal, "deliver_arrival");
        let call = || format!("deliver_arrival {:?} {next:?}", before.settings);
        let (carried, stopped) = if delivered.refusal == ACCEPTED {
            (delivered.messages.len() as u64, u64::from(delivered.stopped))
        } else {
            (JUNK, JUNK)
        };
        assert_eq!(out, [carried, stopped, JUNK], "{}", call());
        assert!(proved == *network, "{}", call());
        let taken = delivered.refusal == ACCEPTED && next.is_draw();
        assert!(taken || *network == before, "{}", call());
        assert!(taken || delivered.messages.is_empty(), "{}", call());
        delivered
    }
}

/// The call on the proved code: its refusal, and what it left in three numbers.
fn proved_delivery(network: &mut TestNetwork, next: Arrival) -> (u32, [u64; 3]) {
    let mut records = Records::of(network);
    let mut out = [JUNK; 3];
    let delivery = Delivery {
        sites: &mut records.sites,
        coordinator: &mut records.coordinator,
        site_memory: &mut network.site_memory,
        coordinator_memory: &mut network.coordinator_memory,
        out: &mut out,
    };
    let numbers_of_arrival = [next.site, next.item, next.value];
    let answer =
        boundary::deliver_arrival(&numbers_of(&network.settings), numbers_of_arrival, delivery);
    records.hand_back(network);
    (answer, out)
}

/// The whole network is tested first, as the batch call tests it; then the arrival goes to its
/// site, and then call by call, until none is due or one is refused.
fn by_single_calls(network: &mut TestNetwork, next: Arrival) -> Delivered {
    let settings = network.settings;
    let refusal = network.refusal();
    if refusal != ACCEPTED {
        return Delivered::refused(refusal);
    }
    if next.site >= settings.sites {
        return Delivered::refused(UNKNOWN_SITE);
    }
    let site = next.site as usize;
    let memory = &mut network.site_memory[settings.site_memory_len() * site..];
    let outgoing = site::observe(&settings, next, &mut network.sites.records[site], memory);
    if outgoing.refusal != ACCEPTED {
        return Delivered::refused(outgoing.refusal);
    }
    let mut messages = outgoing.sent().to_vec();
    let mut waiting = VecDeque::from(messages.clone());
    loop {
        let (refusal, sent) = match waiting.front() {
            Some(&message) => network.hand_over(message),
            None if is_announcing(network) => network.next_announcement(),
            None => break,
        };
        if refusal != ACCEPTED {
            return Delivered { refusal: ACCEPTED, stopped: refusal, messages };
        }
        waiting.pop_front();
        messages.extend(&sent);
        waiting.extend(sent);
    }
    assert_eq!(network.coordinator.phase, Phase::Idle);
    Delivered { refusal: ACCEPTED, stopped: ACCEPTED, messages }
}

fn is_announcing(network: &TestNetwork) -> bool {
    matches!(network.coordinator.phase, Phase::Announcing { .. })
}
