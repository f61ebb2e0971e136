//! The bytes between the processes of a network, each of which holds one site or the coordinator.
//!
//! A request is a byte that says which, then numbers, least byte first. The process answers each
//! request with a refusal (4 bytes) and a number of messages (4 bytes), then the messages. Where
//! the request asks for numbers, 8 bytes each follow in their place.

use std::io::{ErrorKind, Read, Result, Write};

use draw_tracker::{DeckRecord, DeskRecord, Message, Refusal, Settings};

/// A message as it travels.
pub type MessageBytes = [u8; Message::BYTES];

/// What a process is asked for.
#[derive(Clone, Copy, Debug)]
pub enum Request {
    /// An arrival for a site: deck, code, class.
    Arrival([u32; 3]),
    /// A message for the process.
    Message(MessageBytes),
    /// The list, then the class, from the coordinator.
    Read,
    /// Record and memory.
    State,
}

pub fn write_request(pipe: &mut impl Write, request: Request) -> Result<()> {
    match request {
        Request::Arrival(numbers) => {
            pipe.write_all(&[1])?;
            for number in numbers {
                pipe.write_all(&number.to_le_bytes())?;
            }
        }
        Request::Message(bytes) => {
            pipe.write_all(&[2])?;
            pipe.write_all(&bytes)?;
        }
        Request::Read => pipe.write_all(&[3])?,
        Request::State => pipe.write_all(&[4])?,
    }
    pipe.flush()
}

/// The next request, or none where the pipe was closed between two of them.
pub fn read_request(pipe: &mut impl Read) -> Result<Option<Request>> {
    let mut which = [0];
    match pipe.read_exact(&mut which) {
        Err(error) if error.kind() == ErrorKind::UnexpectedEof => return Ok(None),
        other => other?,
    }
    let request = match which[0] {
        1 => Request::Arrival([read_u32(pipe)?, read_u32(pipe)?, read_u32(pipe)?]),
        2 => Request::Message(read_message(pipe)?),
        3 => Request::Read,
        4 => Request::State,
        other => panic!("no request {other}"),
    };
    Ok(Some(request))
}

/// Writes what a call answered: its refusal, which has no messages, or 0 and the messages.
pub fn write_answer(
    pipe: &mut impl Write,
    answer: std::result::Result<Vec<Message>, Refusal>,
) -> Result<()> {
    let (refusal, messages) = match answer {
        Ok(messages) => (0, messages),
        Err(refusal) => (refusal.number(), Vec::new()),
    };
    pipe.write_all(&refusal.to_le_bytes())?;
    pipe.write_all(&(messages.len() as u32).to_le_bytes())?;
    for message in messages {
        pipe.write_all(&message.to_bytes())?;
    }
    pipe.flush()
}

pub fn read_answer(pipe: &mut impl Read) -> Result<(u32, Vec<MessageBytes>)> {
    let refusal = read_u32(pipe)?;
    let count = read_u32(pipe)?;
    let messages = (0..count).map(|_| read_message(pipe)).collect::<Result<_>>()?;
    Ok((refusal, messages))
}

pub fn write_numbers(pipe: &mut impl Write, numbers: &[u64]) -> Result<()> {
    let mut bytes = Vec::new();
    // No refusal.
    bytes.extend(0_u32.to_le_bytes());
    bytes.extend((numbers.len() as u32).to_le_bytes());
    bytes.extend(numbers.iter().flat_map(|number| number.to_le_bytes()));
    pipe.write_all(&bytes)?;
    pipe.flush()
}

pub fn read_numbers(pipe: &mut impl Read) -> Result<(u32, Vec<u64>)> {
    let refusal = read_u32(pipe)?;
    let count = read_u32(pipe)? as usize;
    let mut bytes = vec![0; 8 * count];
    pipe.read_exact(&mut bytes)?;
    let number = |place: &[u8]| place.iter().rev().fold(0, |high, &b| high << 8 | u64::from(b));
    Ok((refusal, bytes.chunks_exact(8).map(number).collect()))
}

fn read_u32(pipe: &mut impl Read) -> Result<u32> {
    let mut bytes = [0; 4];
    pipe.read_exact(&mut bytes)?;
    Ok(u32::from_le_bytes(bytes))
}

fn read_message(pipe: &mut impl Read) -> Result<MessageBytes> {
    let mut bytes = [0; Message::BYTES];
    pipe.read_exact(&mut bytes)?;
    Ok(bytes)
}

/// The settings and the other numbers that a process is started with.
pub fn arguments() -> (Settings, Vec<u32>) {
    let mut numbers = std::env::args().skip(1).map(|word| word.parse().expect("a number"));
    let mut next = || numbers.next().expect("six settings");
    let settings = settings([next(), next(), next(), next(), next(), next()]);
    (settings, numbers.collect())
}

/// The settings of these numbers.
pub fn settings([decks, leeway, share, rank, slots, codes]: [u32; 6]) -> Settings {
    Settings { decks, leeway, share, rank, slots, codes }
}

/// A site's record and memory as plain numbers.
pub fn site_numbers(record: &DeckRecord, memory: &[u32]) -> Vec<u64> {
    let record =
        [record.draws, record.pending, record.threshold, record.slots_in_use, record.forgotten];
    record.into_iter().chain(memory.iter().map(|&number| u64::from(number))).collect()
}

/// The coordinator's record and memory as plain numbers.
pub fn coordinator_numbers(record: &DeskRecord, memory: &[u64]) -> Vec<u64> {
    let record = [
        record.total,
        record.base,
        record.threshold,
        record.signals,
        record.class,
        record.phase,
        record.phase_deck,
        record.phase_low,
        record.phase_high,
        record.phase_sum,
    ];
    record.into_iter().chain(memory.iter().copied()).collect()
}

/// The class (1 and its number, or 0 and 0), then the listed codes.
pub fn read_numbers_of(class: Option<u32>, listed: &[u32]) -> Vec<u64> {
    let class = class.map_or([0, 0], |class| [1, u64::from(class)]);
    class.into_iter().chain(listed.iter().map(|&code| u64::from(code))).collect()
}
