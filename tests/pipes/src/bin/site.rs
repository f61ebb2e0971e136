//! A site as a process: `site K E P Q C U NUMBER`. It owns its record and its memory, and ends when
//! its input is closed.

use std::io::{stdin, stdout, BufReader, BufWriter, Result};

use draw_tracker::{Deck, Draw, Message};
use pipes::{read_request, site_numbers, write_answer, write_numbers, Request};

fn main() -> Result<()> {
    let (settings, numbers) = pipes::arguments();
    let mut site = Deck::start(settings, numbers[0]).expect("the site starts");
    let (mut input, mut output) = (BufReader::new(stdin()), BufWriter::new(stdout()));
    while let Some(request) = read_request(&mut input)? {
        let before = site.clone();
        let answer = match request {
            Request::Arrival([deck, code, class]) => {
                site.draw(Draw { deck, code, class }).map(|sent| sent.to_vec())
            }
            Request::Message(bytes) => {
                site.receive(Message::from_bytes(&bytes)).map(|reply| reply.into_iter().collect())
            }
            Request::State => {
                write_numbers(&mut output, &site_numbers(site.record(), site.memory()))?;
                continue;
            }
            Request::Read => panic!("a site reads nothing"),
        };
        // A refused call changes nothing.
        assert!(answer.is_ok() || site == before);
        write_answer(&mut output, answer)?;
    }
    Ok(())
}
