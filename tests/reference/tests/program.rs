//! Transcripts of the program `drawtrack`.

use std::io::Write;
use std::process::{Command, Stdio};

use reference::drawtrack::transcript;

const SETTINGS: &str = "1;1000;1000;500;6;10\n";
const FIRST_DRAW: &str = "1 0 7 1\n2 0 1 3\n3 0 0 0\n4 0 0 0\n7 0 1 1\n";

fn written(input: &str) -> String {
    String::from_utf8(transcript(input.as_bytes())).expect("the transcript is text")
}

#[test]
fn settings_line_malformed() {
    for input in ["", "\n", "1;1000;1000;500;6;10", "1;1000;1000;500;6\n", "0;7;3\n", "x\n0;7;3\n"]
    {
        assert_eq!(written(input), "refused 13\n", "{input:?}");
    }
    assert_eq!(written("10000000;1000;1000;500;6;10\n"), "refused 13\n");
    assert_eq!(written("01;1000;1000;500;6;10\n"), "refused 13\n");
}

#[test]
fn settings_refused() {
    assert_eq!(written("9999999;1000;1000;500;6;10\n"), "refused 1\n");
    assert_eq!(written("0;1000;1000;500;6;10\n"), "refused 1\n");
    assert_eq!(written("1;1000;999;500;6;10\n"), "refused 2\n");
    assert_eq!(written("1;1000;1000;500;5;10\n"), "refused 3\n");
    // The settings come before everything in the worklist, and before 4.
    assert_eq!(written("5;1000;999;500;6;10\nrubbish"), "refused 2\n");
    assert_eq!(written("33;1000;1000;500;6;10\nrubbish"), "refused 1\n");
}

#[test]
fn sizes_beyond_the_memory() {
    let empty = "listed\nclass none\nmessages 0\n";
    assert_eq!(written("4;60;60;500;100;1000\n"), empty);
    assert_eq!(written("5;60;60;500;100;1000\n0;7;3\n"), "refused 4\n");
    assert_eq!(written("4;60;60;500;101;1000\n0;7;3\n"), "refused 4\n");
    assert_eq!(written("4;60;60;500;100;1001\n0;7;3\nrubbish"), "refused 4\n");
}

#[test]
fn worklist_length() {
    let rubbish = |length| format!("{SETTINGS}{}", "x".repeat(length));
    assert_eq!(written(&rubbish(8192)), "refused 13\n");
    assert_eq!(written(&rubbish(8193)), "refused 4\n");
    // 1365 lines of 6 bytes are 8190 bytes; a longer first line makes it 8192.
    let draws = "0;7;3\n".repeat(1364);
    let full = written(&format!("{SETTINGS}0;7;345\n{draws}"));
    assert!(full.starts_with("1 0 7 1\n2 0 1 345\n"));
    assert!(full.contains("\nlisted 7\nclass 3\nmessages "), "{full}");
    assert_eq!(written(&format!("{SETTINGS}0;7;345\n{draws}\n")), "refused 4\n");
}

#[test]
fn no_draws() {
    assert_eq!(written(SETTINGS), "listed\nclass none\nmessages 0\n");
}

#[test]
fn refused_draws_keep_what_was_written() {
    for (line, number) in [
        ("1;7;3", 5),
        ("9999999;9999999;9999999", 5),
        ("0;10;3", 6),
        ("0;10;1024", 6),
        ("0;7;1024", 7),
        ("0;7;9999999", 7),
    ] {
        let refused = format!("refused {number}\n");
        assert_eq!(written(&format!("{SETTINGS}{line}\n0;7;3\n")), refused);
        let later = format!("{SETTINGS}0;7;3\n{line}\n0;7;3\n");
        assert_eq!(written(&later), format!("{FIRST_DRAW}{refused}"));
    }
}

#[test]
fn malformed_lines_keep_what_was_written() {
    let refused = format!("{FIRST_DRAW}refused 13\n");
    for line in
        ["\n", "0;7;3", "00;7;3\n", "0;7\n", "0;7;3;\n", "5;99;10000000\n", " \n", "0;7;3\r\n"]
    {
        assert_eq!(written(&format!("{SETTINGS}0;7;3\n{line}")), refused, "{line:?}");
    }
    // A line is read before it is a draw, so 13 comes before 5.
    assert_eq!(written(&format!("{SETTINGS}9;07;3\n")), "refused 13\n");
    // A refused draw stops the program before it reads the next line.
    assert_eq!(written(&format!("{SETTINGS}9;7;3\n\n")), "refused 5\n");
}

#[test]
fn eight_draws() {
    let probes = |classes: [u32; 10], below: u64| -> String {
        let pair = |class: &u32| {
            let sum = if *class >= 3 { below } else { 0 };
            format!("5 0 {class} 0\n6 0 {class} {sum}\n")
        };
        classes.iter().map(pair).collect()
    };
    let classes = [511, 255, 127, 63, 31, 15, 7, 3, 1, 2];
    let mut expected = String::new();
    for draws in 1..=5 {
        expected += &format!("1 0 7 1\n2 0 1 3\n3 0 0 0\n4 0 0 0\n7 0 1 {draws}\n");
    }
    expected += "1 0 7 1\n2 0 1 3\n3 0 0 0\n4 0 0 0\n";
    expected += &probes(classes, 6);
    expected += "7 0 2 6\n1 0 7 2\n2 0 2 0\n3 0 0 0\n4 0 0 0\n";
    expected += &probes(classes, 8);
    expected += "7 0 2 8\nlisted 7\nclass 3\nmessages 75\n";
    assert_eq!(written(&format!("{SETTINGS}{}", "0;7;3\n".repeat(8))), expected);
}

#[test]
fn several_listed_and_none_listed() {
    let half = "2;500;500;500;12;10\n";
    let text = written(&format!("{half}0;4;1\n1;2;9\n"));
    assert!(text.ends_with("listed 2 4\nclass 1\nmessages 10\n"), "{text}");
    // The rule's share is p - e/2, here three quarters: halves are not listed.
    let most = "2;500;1000;500;12;10\n";
    let text = written(&format!("{most}0;4;1\n1;2;9\n"));
    assert!(text.ends_with("listed\nclass 1\nmessages 10\n"), "{text}");
}

/// The program itself reads all of its input and writes the transcript.
#[test]
fn the_program_itself() {
    let inputs = ["", "1;1000;1000;500;6;10\n0;7;3\n", "1;1000;1000;500;6;10\n0;7;3\n0;7;3"];
    for input in inputs {
        let mut program = Command::new(env!("CARGO_BIN_EXE_drawtrack"))
            .stdin(Stdio::piped())
            .stdout(Stdio::piped())
            .spawn()
            .expect("the program starts");
        let mut stdin = program.stdin.take().expect("its input is a pipe");
        stdin.write_all(input.as_bytes()).expect("it reads its input");
        drop(stdin);
        let output = program.wait_with_output().expect("it ends");
        assert!(output.status.success());
        assert_eq!(output.stdout, transcript(input.as_bytes()));
    }
}
