//! The byte sum of a full network's file (request N4): by words, byte by byte, and in Rust.

use std::hint::black_box;

use reference::snapshot::{byte_sum, file_len};

use crate::networks::Reference;
use crate::streams::{Source, Stream};
use crate::timing;

/// k, e, p, q, c, u of the longest file there is, and after how many arrivals all counters are in
/// use.
const FULL: [u32; 6] = [32, 2, 3, 990, 3000, 65_536];
const ARRIVALS: u64 = 200_000;
/// Arrivals in a batch, and places of a log that it never fills.
const BATCH: usize = 1000;
const LOG: usize = 40 * BATCH;
/// The last bytes of a file, which hold the sum of all others.
const SUM: usize = 2;

/// The proved sums compiled without vector instructions.
mod plain {
    extern "C" {
        fn plain_byte_sum_by_words(bytes: *const u8, length: usize) -> u64;
        fn plain_byte_sum_singly(bytes: *const u8, length: usize) -> u64;
        fn plain_byte_sum_singly_held(bytes: *const u8, length: usize) -> u16;
    }

    pub fn by_words(bytes: &[u8]) -> u64 {
        // Safety: a slice is lent for the call, and only read.
        unsafe { plain_byte_sum_by_words(bytes.as_ptr(), bytes.len()) }
    }

    pub fn singly(bytes: &[u8]) -> u64 {
        // Safety: as above.
        unsafe { plain_byte_sum_singly(bytes.as_ptr(), bytes.len()) }
    }

    pub fn singly_held(bytes: &[u8]) -> u64 {
        // Safety: as above.
        u64::from(unsafe { plain_byte_sum_singly_held(bytes.as_ptr(), bytes.len()) })
    }
}

fn singly_held(bytes: &[u8]) -> u64 {
    u64::from(sums::singly_held(bytes))
}

/// The separate implementation's, in a function of its own.
#[inline(never)]
fn separate(bytes: &[u8]) -> u64 {
    u64::from(byte_sum(bytes))
}

/// Each byte added to a number of 64 bits.
#[inline(never)]
fn wide(bytes: &[u8]) -> u64 {
    bytes.iter().map(|&byte| u64::from(byte)).sum::<u64>() % 65_536
}

type Sum = fn(&[u8]) -> u64;
const SUMS: [(&str, Sum); 8] = [
    ("proved, by words", sums::by_words),
    ("proved, byte by byte", sums::singly),
    ("proved, byte by byte, two bytes of it wanted", singly_held),
    ("separate implementation, byte by byte, in 16 bits", separate),
    ("Rust, byte by byte, in 64 bits", wide),
    ("no vectors: proved, by words", plain::by_words),
    ("no vectors: proved, byte by byte", plain::singly),
    ("no vectors: proved, byte by byte, two bytes wanted", plain::singly_held),
];

/// The bytes that the file of a full network sums.
fn summed() -> Vec<u8> {
    let mut source = Source::new(Stream::Uniform, FULL, 1);
    let mut network = Reference::start(FULL, LOG);
    while source.sent < ARRIVALS {
        network.run(&source.take(BATCH));
    }
    let mut file = vec![0; file_len(&network.settings)];
    network.save(&mut file);
    file.truncate(file.len() - SUM);
    file
}

/// All sums of the same bytes, in turns.
pub fn measure() {
    let bytes = summed();
    let right = wide(&bytes);
    assert!(SUMS.iter().all(|(_, sum)| sum(&bytes) == right));
    let mut calls = SUMS.map(|(_, sum)| {
        let bytes = &bytes;
        move || {
            black_box(sum(black_box(bytes)));
        }
    });
    let times = timing::least(calls.each_mut().map(|call| call as &mut dyn FnMut()));
    let taken = sums::taken(&bytes);
    println!("{} bytes, {} rounds, {} single bytes", bytes.len(), taken.rounds, taken.singles);
    println!("| sum | us | ns a byte | to that by words |");
    println!("|---|---|---|---|");
    for ((name, _), time) in SUMS.iter().zip(times) {
        let (micros, byte) = (time / 1000.0, time / bytes.len() as f64);
        println!("| {name} | {micros:.0} | {byte:.3} | {:.2} |", time / times[0]);
    }
}

/// Each proved sum once, for whoever counts instructions.
pub fn once() {
    let bytes = summed();
    for (name, sum) in SUMS {
        println!("{name}: {}", sum(black_box(&bytes)));
    }
}
