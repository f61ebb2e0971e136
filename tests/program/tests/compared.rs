//! The built programs, proved and with an exit status, against the separate implementation, byte
//! for byte, on inputs of every sort. PROGRAM_INPUTS and PROGRAM_SEED ask for more of them, and for
//! others.

use program::reason::reason;
use program::{input, program_with_status, proved_program, run, run_program, Answer, Random};
use reference::drawtrack::transcript;

fn number(name: &str, otherwise: u64) -> u64 {
    std::env::var(name).ok().and_then(|text| text.parse().ok()).unwrap_or(otherwise)
}

#[test]
fn same_transcript() {
    let seed = number("PROGRAM_SEED", 1);
    let mut random = Random::new(seed);
    for sort in 0..number("PROGRAM_INPUTS", 320) {
        let bytes = input(&mut random, sort);
        let said = reason(&bytes);
        let status = i32::from(!said.is_empty());
        let expected = Answer { written: transcript(&bytes), said, status };
        let answer = run(&program_with_status(), &bytes);
        let text = String::from_utf8_lossy(&bytes).into_owned();
        assert_eq!(answer, expected, "seed {seed}, input {sort}: {text:?}");
        let proved = run(&proved_program(), &bytes);
        assert_eq!(proved, Answer { status: 0, ..expected }, "seed {seed}, input {sort}: {text:?}");
    }
}

#[test]
fn instance_p2() {
    let expected = "1 0 7 1\n2 0 1 3\n3 0 0 0\n4 0 0 0\n7 0 1 1\nlisted 7\nclass 3\nmessages 5\n";
    assert_eq!(run_program(b"1;1000;1000;500;6;10\n0;7;3\n"), expected.as_bytes());
}

/// Request N5: the line `messages` is the sum over the decks, each of which has its own count.
#[test]
fn messages_of_all_decks() {
    for decks in 1..=4 {
        let worklist: String = (0..9).map(|place| format!("{};7;3\n", place % decks)).collect();
        let input = format!("{decks};1000;1000;500;6;10\n{worklist}");
        let text = String::from_utf8(run_program(input.as_bytes())).expect("it writes text");
        let lines: Vec<&str> = text.lines().collect();
        let (last, before) = lines.split_last().expect("lines");
        // All lines but the list, the class and this one are messages.
        assert_eq!(*last, format!("messages {}", before.len() - 2), "{decks} decks");
        let names = |deck: u32| {
            let named = format!(" {deck} ");
            before.iter().filter(|line| line[1..].starts_with(&named)).count()
        };
        assert!((0..decks).all(|deck| names(deck) > 0), "{decks} decks");
        assert_eq!((0..decks).map(names).sum::<usize>(), before.len() - 2, "{decks} decks");
    }
}

/// Request N2: a touch writes nothing, but is tested for 5 and 6.
#[test]
fn touches() {
    let written = |worklist: &str| {
        let input = format!("1;1000;1000;500;6;10\n{worklist}");
        String::from_utf8(run_program(input.as_bytes())).expect("it writes text")
    };
    assert_eq!(written("0;7;0\n"), "listed\nclass none\nmessages 0\n");
    assert_eq!(written("0;7;3\n0;8;0\n"), written("0;7;3\n"));
    assert_eq!(written("1;7;0\n"), "refused 5\n");
    assert_eq!(written("0;10;0\n"), "refused 6\n");
}

#[test]
fn worklist_length() {
    let settings = b"1;1000;1000;500;6;10\n".to_vec();
    let rubbish = |n: usize| [settings.clone(), vec![b'x'; n]].concat();
    assert_eq!(run_program(&rubbish(8192)), b"refused 13\n");
    assert_eq!(run_program(&rubbish(8193)), b"refused 4\n");
    // The longest settings line, and one byte more than a worklist may have: all that is read.
    let longest = b"9999999;9999999;9999999;9999999;9999999;9999999\n".to_vec();
    assert_eq!(run_program(&[longest, vec![b'x'; 8193]].concat()), b"refused 1\n");
}
