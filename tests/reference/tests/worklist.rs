//! Lines, the settings line and the reader.

mod support;

use reference::refusal::MALFORMED_LINE;
use reference::settings::Settings;
use reference::worklist::{read_line, read_settings_line, write_line, Malformed, Reader};
use support::{arrival, Random};

#[test]
fn lines_that_are_read() {
    assert_eq!(read_line(b"0;7;3\n"), Ok((arrival(0, 7, 3), 6)));
    assert_eq!(read_line(b"0;0;0\nrubbish"), Ok((arrival(0, 0, 0), 6)));
    let largest = arrival(9_999_999, 9_999_999, 9_999_999);
    assert_eq!(read_line(b"9999999;9999999;9999999\n"), Ok((largest, 24)));
    assert_eq!(read_line(b"10;20;30\n\n"), Ok((arrival(10, 20, 30), 9)));
}

#[test]
fn lines_that_are_malformed() {
    let malformed: [&[u8]; 27] = [
        b"",
        b"\n",
        b"0",
        b"0\n",
        b"0;7\n",
        b"0;7;\n",
        b";7;3\n",
        b"0;;3\n",
        b"0;7;3",
        b"0;7;3;\n",
        b"0;7;3;4\n",
        b"00;7;3\n",
        b"0;07;3\n",
        b"0;7;03\n",
        b"0;7;00\n",
        b" 0;7;3\n",
        b"0;7;3 \n",
        b"0;7;3\r\n",
        b"-0;7;3\n",
        b"+1;7;3\n",
        b"10000000;7;3\n",
        b"0;12345678;3\n",
        b"0;7;12345678\n",
        b"0,7,3\n",
        b"a;7;3\n",
        b"0;7\n;3\n",
        b"\xff;7;3\n",
    ];
    for line in malformed {
        assert_eq!(read_line(line), Err(MALFORMED_LINE), "{}", line.escape_ascii());
    }
}

#[test]
fn settings_lines() {
    let settings = Settings::from_numbers([1, 1000, 1000, 500, 6, 10]);
    assert_eq!(read_settings_line(b"1;1000;1000;500;6;10\n0;"), Ok((settings, 21)));
    let malformed: [&[u8]; 6] = [
        b"",
        b"1;1000;1000;500;6;10",
        b"1;1000;1000;500;6\n",
        b"1;1000;1000;500;6;10;1\n",
        b"1;1000;1000;500;06;10\n",
        b"10000000;1000;1000;500;6;10\n",
    ];
    for line in malformed {
        assert_eq!(read_settings_line(line), Err(MALFORMED_LINE), "{}", line.escape_ascii());
    }
}

#[test]
fn written_lines_are_read_again() {
    let mut random = Random::new(11);
    for _ in 0..10_000 {
        let bound = random.pick(&[1, 10, 1000, 10_000_000]);
        let written = arrival(random.below32(bound), random.below32(bound), random.below32(bound));
        let line = write_line(&written);
        assert_eq!(read_line(&line), Ok((written, line.len())));
    }
}

/// A line that differs from a good one in one byte is read as its text says or
/// not at all: whatever is read is written the same way.
#[test]
fn whatever_is_read_is_written_the_same() {
    let mut random = Random::new(12);
    let alphabet = b"0123456789;\n -a";
    let mut read = 0;
    for _ in 0..200_000 {
        let length = random.below(9) as usize;
        let mut bytes = b"12;70;305\n".to_vec();
        bytes[length] = random.pick(alphabet);
        if random.one_in(3) {
            bytes[random.below(9) as usize] = random.pick(alphabet);
        }
        if let Ok((arrival, used)) = read_line(&bytes) {
            assert_eq!(write_line(&arrival), &bytes[..used]);
            read += 1;
        }
    }
    assert!(read > 1000);
}

#[test]
fn the_reader_gives_arrivals_then_the_end() {
    let mut reader = Reader::new(b"0;7;3\n1;2;4\n");
    assert_eq!(reader.next_arrival(), Ok(Some(arrival(0, 7, 3))));
    assert_eq!(reader.next_arrival(), Ok(Some(arrival(1, 2, 4))));
    assert_eq!(reader.next_arrival(), Ok(None));
    assert_eq!(reader.next_arrival(), Ok(None));
    assert_eq!(Reader::new(b"").next_arrival(), Ok(None));
}

#[test]
fn the_reader_names_the_malformed_line() {
    for (text, good) in [("\n", 0), ("0;7;3\n0;7;3", 1), ("0;7;3\n0;7;3\n\n0;7;3\n", 2)] {
        let mut reader = Reader::new(text.as_bytes());
        for _ in 0..good {
            assert_eq!(reader.next_arrival(), Ok(Some(arrival(0, 7, 3))));
        }
        let malformed = Malformed { refusal: MALFORMED_LINE, line: good };
        assert_eq!(reader.next_arrival(), Err(malformed));
        assert_eq!(reader.next_arrival(), Err(malformed));
    }
}
