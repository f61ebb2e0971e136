//! Three decks and a desk in one process. 10,000 draws are taken one by one, with the delivery
//! written out, and once more in batches with a small log: the same messages, list and class.

use std::collections::VecDeque;

use draw_tracker::{most_messages, Bench, Draw, Message, Refusal, Settings, TOP_CLASS};

const SETTINGS: Settings =
    Settings { decks: 3, leeway: 60, share: 300, rank: 500, slots: 100, codes: 1000 };

/// Four draws in ten are of code 42, three of code 7, the rest of any.
fn some_draws() -> Vec<Draw> {
    let mut x: u32 = 1;
    let draw = |_| {
        x = x.wrapping_mul(1_664_525).wrapping_add(1_013_904_223);
        let code = match (x >> 8) % 10 {
            0..=3 => 42,
            4..=6 => 7,
            _ => (x >> 12) % SETTINGS.codes,
        };
        Draw { deck: (x >> 8) % SETTINGS.decks, code, class: 1 + (x >> 20) % TOP_CLASS }
    };
    (0..10_000).map(draw).collect()
}

/// One draw and all messages that follow it, each handed over in the order of going out.
fn take(bench: &mut Bench, draw: Draw, sent: &mut Vec<Message>) -> Result<(), Refusal> {
    let mut waiting: VecDeque<Message> = bench.draw(draw)?.into_iter().collect();
    loop {
        let message = match waiting.pop_front() {
            Some(message) => message,
            // Nothing waits: is there a kind 7?
            None => match bench.announcement()? {
                Some(announcement) => announcement,
                None => return Ok(()),
            },
        };
        sent.push(message);
        waiting.extend(bench.hand_over(message)?);
    }
}

/// All draws in batches, with a log for two draws' messages. `Bench::run_all` does the same.
fn take_in_batches(bench: &mut Bench, draws: &[Draw]) -> Result<(Vec<Message>, usize), Refusal> {
    let mut log = vec![Message::NONE; 2 * most_messages(SETTINGS.decks)];
    let (mut logged, mut taken, mut logs) = (Vec::new(), 0, 0);
    loop {
        let run = bench.run(&draws[taken..], &mut log);
        logged.extend(&log[..run.written]);
        taken += run.accepted;
        logs += 1;
        // On 14 the log was emptied above, and the run goes on at `accepted`.
        match run.stopped {
            Some(Refusal::LogTooShort) => {}
            Some(refusal) => return Err(refusal),
            None => return Ok((logged, logs)),
        }
    }
}

fn main() -> Result<(), Refusal> {
    let draws = some_draws();
    let (mut single, mut sent) = (Bench::start(SETTINGS)?, Vec::new());
    for &draw in &draws {
        take(&mut single, draw, &mut sent)?;
    }
    println!("one by one: {} draws, {} messages", draws.len(), sent.len());
    let mut batch = Bench::start(SETTINGS)?;
    let (logged, logs) = take_in_batches(&mut batch, &draws)?;
    println!("in batches: {} draws, {} messages in {logs} logs", draws.len(), logged.len());
    // Each deck's own, and the bench's.
    for deck in 0..SETTINGS.decks {
        println!("deck {deck}: {} messages", batch.messages_of(deck).unwrap_or(0));
    }
    let allowance = SETTINGS.allowance(draws.len() as u64)?;
    println!("all decks: {} messages, allowance {allowance}", batch.messages());
    let same = sent == logged && single.desk() == batch.desk();
    println!("the same messages and desk: {}", if same { "yes" } else { "no" });
    for code in batch.listed()? {
        println!("listed {code}, margin {}", batch.margin(code)?);
    }
    if let Some(class) = batch.class()? {
        println!("class {class}");
    }
    Ok(())
}
