//! Inputs of the program `drawtrack`, and what the built program writes for them.

#[path = "../../reference/tests/support/touches.rs"]
mod touches;

pub mod reason;

use std::io::Write;
use std::path::{Path, PathBuf};
use std::process::{Command, Stdio};

use touches::value_or_touch;

/// The generator splitmix64.
pub struct Random(u64);

impl Random {
    pub fn new(seed: u64) -> Random {
        Random(seed)
    }

    fn next(&mut self) -> u64 {
        self.0 = self.0.wrapping_add(0x9e37_79b9_7f4a_7c15);
        let mut mixed = self.0;
        mixed = (mixed ^ (mixed >> 30)).wrapping_mul(0xbf58_476d_1ce4_e5b9);
        mixed = (mixed ^ (mixed >> 27)).wrapping_mul(0x94d0_49bb_1331_11eb);
        mixed ^ (mixed >> 31)
    }

    /// A number below `bound`, which is at least 1.
    pub fn below(&mut self, bound: u64) -> u64 {
        self.next() % bound
    }

    /// A number from `low` to `high`, both included.
    pub fn between(&mut self, low: u64, high: u64) -> u64 {
        low + self.below(high - low + 1)
    }

    /// One of these.
    pub fn pick<'a, T>(&mut self, choices: &'a [T]) -> &'a T {
        &choices[self.below(choices.len() as u64) as usize]
    }
}

fn below_root(path: &str) -> PathBuf {
    Path::new(env!("CARGO_MANIFEST_DIR")).join("../..").join(path)
}

/// Where the gate leaves the proved program, which has no exit status.
pub fn proved_program() -> PathBuf {
    below_root("target/bin/drawtrack")
}

/// Where library/drawtrack/build.sh leaves the same run under a `main` of C.
pub fn program_with_status() -> PathBuf {
    below_root("target/library/drawtrack")
}

/// What a program wrote, and its exit status.
#[derive(Debug, PartialEq)]
pub struct Answer {
    pub written: Vec<u8>,
    pub said: String,
    pub status: i32,
}

/// What the proved program writes for this input.
pub fn run_program(input: &[u8]) -> Vec<u8> {
    run(&proved_program(), input).written
}

/// What a program answers for this input.
pub fn run(program: &Path, input: &[u8]) -> Answer {
    let mut child = Command::new(program)
        .stdin(Stdio::piped())
        .stdout(Stdio::piped())
        .stderr(Stdio::piped())
        .spawn()
        .expect("examples/run.sh and library/drawtrack/build.sh have built the programs");
    let mut stdin = child.stdin.take().expect("its input is a pipe");
    let bytes = input.to_vec();
    // The program reads no more than it needs, so a longer input may meet a closed pipe.
    let writer = std::thread::spawn(move || {
        let _ = stdin.write_all(&bytes);
    });
    let output = child.wait_with_output().expect("it ends");
    writer.join().expect("the writer ends");
    Answer {
        written: output.stdout,
        said: String::from_utf8(output.stderr).expect("it says text"),
        status: output.status.code().expect("it never traps"),
    }
}

/// Settings that pass and that the program serves.
pub fn served_settings(random: &mut Random) -> [u64; 6] {
    let sites = random.between(1, 4);
    let epsilon = *random.pick(&[60, 61, 100, 250, 500, 999, 1000]);
    let phi = random.between(epsilon, 1000);
    let rank = *random.pick(&[1, 2, 250, 500, 501, 750, 999, 1000]);
    let least = 6000_u64.div_ceil(epsilon);
    let capacity = random.between(least, 100);
    let universe = *random.pick(&[1, 2, 5, 10, 37, 999, 1000]);
    [sites, epsilon, phi, rank, capacity, universe]
}

pub fn line_of(numbers: &[u64]) -> Vec<u8> {
    let words: Vec<String> = numbers.iter().map(u64::to_string).collect();
    format!("{}\n", words.join(";")).into_bytes()
}

/// A draw or a touch that is accepted; a few codes and classes come again and again.
pub fn accepted_arrival(random: &mut Random, settings: &[u64; 6]) -> [u64; 3] {
    let item = if random.below(3) == 0 { 0 } else { random.below(settings[5]) };
    let value = if random.below(4) == 0 { 1023 } else { random.between(1, 1023) };
    let value = value_or_touch(random.next(), value as u32);
    [random.below(settings[0]), item, u64::from(value)]
}

/// A worklist of accepted draws and touches of at most so many bytes.
pub fn worklist(random: &mut Random, settings: &[u64; 6], most: usize) -> Vec<u8> {
    let mut bytes = Vec::new();
    loop {
        let line = line_of(&accepted_arrival(random, settings));
        if bytes.len() + line.len() > most {
            return bytes;
        }
        bytes.extend(line);
    }
}

/// A line that is malformed.
fn malformed_line(random: &mut Random) -> Vec<u8> {
    random
        .pick::<&[u8]>(&[
            b"\n",
            b"0;7\n",
            b"0;7;3;1\n",
            b"00;7;3\n",
            b"0;07;3\n",
            b"0;7;03\n",
            b"0;7;3",
            b";7;3\n",
            b"0;;3\n",
            b"0;7;\n",
            b"10000000;7;3\n",
            b"0;12345678;3\n",
            b"0;7;3\r\n",
            b" 0;7;3\n",
            b"0;7;3 \n",
            b"-1;7;3\n",
            b"0,7,3\n",
            b"0;7;\x003\n",
            b"\xff\n",
            b"0;a;3\n",
        ])
        .to_vec()
}

/// An input of one of the sorts that the program can meet.
pub fn input(random: &mut Random, sort: u64) -> Vec<u8> {
    let mut settings = served_settings(random);
    let most = *random.pick(&[0, 6, 60, 400, 2000]);
    match sort % 16 {
        // all draws accepted, up to the full length
        0 | 1 => {
            let lines = worklist(random, &settings, most);
            [line_of(&settings), lines].concat()
        }
        2 => {
            let length = random.between(8180, 8192) as usize;
            let lines = worklist(random, &settings, length);
            [line_of(&settings), lines].concat()
        }
        // a refused draw or touch after accepted ones: 5, 6, 7
        3..=5 => {
            let mut draw = accepted_arrival(random, &settings);
            let which = (sort % 16 - 3) as usize;
            let limit = [settings[0], settings[5], 1024][which];
            draw[which] = *random.pick(&[limit, limit + 1, 9_999_999]);
            let before = worklist(random, &settings, most);
            let after = worklist(random, &settings, 60);
            [line_of(&settings), before, line_of(&draw), after].concat()
        }
        // a malformed line after accepted ones: 13
        6 | 7 => {
            let before = worklist(random, &settings, most);
            let bad = malformed_line(random);
            let after = worklist(random, &settings, 60);
            [line_of(&settings), before, bad, after].concat()
        }
        // no final line feed
        8 => {
            let mut bytes = [line_of(&settings), worklist(random, &settings, most + 30)].concat();
            bytes.pop();
            bytes
        }
        // a setting at or past its limit: 1, 2, 3, 4 or accepted
        9 => {
            let which = random.below(6) as usize;
            let limits: [&[u64]; 6] = [
                &[0, 1, 4, 5, 32, 33, 9_999_999],
                &[0, 1, 2, 59, 60, 1000, 1001],
                &[0, 1, 59, 60, 1000, 1001],
                &[0, 1, 1000, 1001],
                &[0, 1, 5, 6, 100, 101, 3000, 3001],
                &[0, 1, 1000, 1001, 65_536, 65_537],
            ];
            settings[which] = *random.pick(limits[which]);
            let served = served_settings(&mut Random::new(1));
            [line_of(&settings), worklist(random, &served, 60)].concat()
        }
        // p below e, and c * e around 6000
        10 => {
            settings[1] = random.between(59, 1000);
            settings[2] = (settings[1] + random.below(3)).saturating_sub(1);
            settings[4] = 6000 / settings[1] + random.below(2);
            [line_of(&settings), worklist(random, &settings, 60)].concat()
        }
        // a malformed settings line
        11 => {
            let mut line = line_of(&settings);
            let place = random.below(line.len() as u64) as usize;
            match random.below(4) {
                0 => line[place] = random.below(256) as u8,
                1 => line.truncate(place),
                2 => line.insert(place, b'0'),
                _ => line.insert(place, b';'),
            }
            [line, worklist(random, &settings, 60)].concat()
        }
        // a worklist of about the most bytes, of rubbish or of draws: 4, 13 or whatever comes first
        12 => {
            let length = random.between(8190, 8194) as usize;
            let mut lines = worklist(random, &settings, length);
            let fill = *random.pick(b"x0\n;");
            lines.resize(length, fill);
            [line_of(&settings), lines].concat()
        }
        // much too long
        13 => {
            let length = random.between(8193, 100_000) as usize;
            let lines = worklist(random, &settings, length);
            [line_of(&settings), lines].concat()
        }
        // any bytes
        14 => {
            let length = random.below(200);
            (0..length).map(|_| random.below(256) as u8).collect()
        }
        // nothing, or little
        _ => random
            .pick::<&[u8]>(&[
                b"",
                b"\n",
                b";",
                b"1",
                b"1;1000;1000;500;6;10",
                b"1;1000;1000;500;6;10\n",
            ])
            .to_vec(),
    }
}
