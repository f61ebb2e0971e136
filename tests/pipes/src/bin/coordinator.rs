//! The coordinator as a process: `coordinator K E P Q C U`. It owns its record and its memory, and
//! ends when its input is closed.

use std::io::{stdin, stdout, BufReader, BufWriter, Result};

use draw_tracker::{Desk, Message, Refusal};
use pipes::{
    coordinator_numbers, read_numbers_of, read_request, write_answer, write_numbers, Request,
};

/// Takes a message. The kinds 7 that it leads to are asked for at once.
fn receive(desk: &mut Desk, message: Message) -> std::result::Result<Vec<Message>, Refusal> {
    let before = desk.clone();
    let answer = desk.receive(message);
    // A refused call changes nothing.
    assert!(answer.is_ok() || *desk == before);
    let mut sent: Vec<Message> = answer?.into_iter().collect();
    while let Some(announcement) = desk.announcement()? {
        sent.push(announcement);
    }
    Ok(sent)
}

fn main() -> Result<()> {
    let (settings, _) = pipes::arguments();
    let mut desk = Desk::start(settings).expect("the coordinator starts");
    let (mut input, mut output) = (BufReader::new(stdin()), BufWriter::new(stdout()));
    while let Some(request) = read_request(&mut input)? {
        match request {
            Request::Message(bytes) => {
                let sent = receive(&mut desk, Message::from_bytes(&bytes));
                write_answer(&mut output, sent)?;
            }
            Request::Read => {
                let class = desk.class().expect("a class or none");
                let listed = desk.listed().expect("a list");
                write_numbers(&mut output, &read_numbers_of(class, &listed))?;
            }
            Request::State => {
                write_numbers(&mut output, &coordinator_numbers(desk.record(), desk.memory()))?;
            }
            Request::Arrival(_) => panic!("arrivals are for sites"),
        }
    }
    Ok(())
}
