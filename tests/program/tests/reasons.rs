//! What the programs say on standard error for each refusal that they meet, and the exit status.

use program::{program_with_status, proved_program, run};

/// The line on standard error, and the last line on standard output, of both programs.
fn refused(input: &[u8], said: &str, last: &str) {
    for (program, status) in [(program_with_status(), 1), (proved_program(), 0)] {
        let answer = run(&program, input);
        assert_eq!(answer.said, format!("drawtrack: {said}\n"));
        assert_eq!(answer.status, status);
        let written = String::from_utf8(answer.written).expect("it writes text");
        assert_eq!(written.lines().last(), Some(last));
    }
}

/// Document 01's settings A, and then these lines.
fn after_settings(worklist: &str) -> Vec<u8> {
    format!("1;1000;1000;500;6;10\n{worklist}").into_bytes()
}

#[test]
fn settings_line() {
    refused(
        b"0;1000;1000;500;6;10\n",
        "settings line: refused 1: setting outside its range",
        "refused 1",
    );
    refused(
        b"1;1000;999;500;6;10\n",
        "settings line: refused 2: list share below leeway",
        "refused 2",
    );
    refused(
        b"1;1000;1000;500;5;10\n",
        "settings line: refused 3: too few slots for the leeway",
        "refused 3",
    );
    refused(
        b"5;1000;1000;500;6;10\n0;7;3\n",
        "settings line: refused 4: beyond what this program serves",
        "refused 4",
    );
    for settings in ["", "\n", "1;1000;1000;500;6\n", "1;1000;1000;500;6;10", "x"] {
        refused(settings.as_bytes(), "settings line: refused 13: malformed line", "refused 13");
    }
}

#[test]
fn worklist() {
    let long = "0;7;3\n".repeat(1366);
    refused(
        &after_settings(&long),
        "worklist: refused 4: beyond what this program serves",
        "refused 4",
    );
    // Settings that are beyond the limits too come first.
    let both = [b"1;1000;1000;500;6;1001\n".to_vec(), long.into_bytes()].concat();
    refused(&both, "settings line: refused 4: beyond what this program serves", "refused 4");
}

#[test]
fn lines() {
    refused(&after_settings("1;7;3\n"), "line 2: refused 5: unknown deck", "refused 5");
    refused(&after_settings("0;10;3\n"), "line 2: refused 6: unknown code", "refused 6");
    refused(&after_settings("0;7;1024\n"), "line 2: refused 7: class above 1023", "refused 7");
    refused(&after_settings("0;7;3"), "line 2: refused 13: malformed line", "refused 13");
    refused(
        &after_settings("0;7;3\n\n0;7;3\n"),
        "line 3: refused 13: malformed line",
        "refused 13",
    );
    refused(&after_settings("0;7;3\r\n"), "line 2: refused 13: malformed line", "refused 13");
    // Lines of class 0 are lines; so is the last that fits.
    let touches = "0;7;0\n".repeat(611);
    let input = after_settings(&format!("{touches}0;99;0\n"));
    refused(&input, "line 613: refused 6: unknown code", "refused 6");
    let full = "0;7;3\n".repeat(1364);
    let input = after_settings(&format!("{full}0;7;3;"));
    refused(&input, "line 1366: refused 13: malformed line", "refused 13");
}

/// Results say nothing, and the rule by which an output is known to be whole.
#[test]
fn results() {
    for (program, worklist) in
        [program_with_status(), proved_program()].iter().flat_map(|p| [(p, ""), (p, "0;7;3\n")])
    {
        let answer = run(program, &after_settings(worklist));
        assert_eq!((answer.said.as_str(), answer.status), ("", 0));
        let written = String::from_utf8(answer.written).expect("it writes text");
        assert!(written.lines().last().expect("it has lines").starts_with("messages "));
        assert!(written.ends_with('\n'));
    }
}
