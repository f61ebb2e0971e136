//! What the tests share.

// Each test file uses a part of this module only.
#![allow(dead_code)]

use std::collections::VecDeque;

use draw_tracker::{Bench, Draw, Message, Refusal, Settings, TOP_CLASS};

/// Document 01's settings A.
pub const A: Settings =
    Settings { decks: 1, leeway: 1000, share: 1000, rank: 500, slots: 6, codes: 10 };

/// Document 01's P2: one draw under settings A.
pub const P2: Draw = Draw { deck: 0, code: 7, class: 3 };

pub const fn message(kind: u64, deck: u64, a: u64, b: u64) -> Message {
    Message { kind, deck, a, b }
}

/// A draw with the delivery written out; the messages in the order of going out.
pub fn take(bench: &mut Bench, draw: Draw) -> Result<Vec<Message>, Refusal> {
    let mut waiting: VecDeque<Message> = bench.draw(draw)?.into_iter().collect();
    let mut sent = Vec::new();
    loop {
        let next = match waiting.pop_front() {
            Some(next) => next,
            None => match bench.announcement()? {
                Some(announcement) => announcement,
                None => return Ok(sent),
            },
        };
        sent.push(next);
        waiting.extend(bench.hand_over(next)?);
    }
}

/// So many draws of few frequent codes and many rare ones; one in ten is of class 0.
pub fn some_draws(settings: &Settings, count: usize, seed: u32) -> Vec<Draw> {
    let mut x = seed;
    let mut next = || {
        x = x.wrapping_mul(1_664_525).wrapping_add(1_013_904_223);
        x >> 8
    };
    let draw = |_| {
        let (deck, part, code) = (next() % settings.decks, next() % 10, next());
        let code = code % if part < 6 { settings.codes.min(3) } else { settings.codes };
        let class = if next() % 10 == 0 { 0 } else { 1 + next() % TOP_CLASS };
        Draw { deck, code, class }
    };
    (0..count).map(draw).collect()
}

/// Settings of several sizes.
pub const SOME_SETTINGS: [Settings; 5] = [
    A,
    Settings { decks: 2, leeway: 600, share: 700, rank: 250, slots: 10, codes: 40 },
    Settings { decks: 3, leeway: 60, share: 300, rank: 500, slots: 100, codes: 1000 },
    Settings { decks: 8, leeway: 250, share: 400, rank: 900, slots: 24, codes: 30 },
    Settings { decks: 32, leeway: 1000, share: 1000, rank: 1, slots: 6, codes: 20 },
];
