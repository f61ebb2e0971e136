//! The proved sums of bytes (request N4): by words, as files are closed, and byte by byte, as they
//! were before. Crate `checksum_singly` exports them for tests and benchmarks alone.

mod raw {
    extern "C" {
        pub fn byte_sum_by_words(bytes: *const u8, length: usize) -> u64;
        pub fn byte_sum_by_words_held(bytes: *const u8, length: usize) -> u16;
        pub fn byte_sum_singly(bytes: *const u8, length: usize) -> u64;
        pub fn byte_sum_singly_held(bytes: *const u8, length: usize) -> u16;
        pub fn byte_sum_taken(
            bytes: *const u8,
            length: usize,
            rounds: *mut usize,
            singles: *mut usize,
        ) -> u64;
        pub fn byte_sums_agree(bytes: *const u8, length: usize) -> bool;
    }
}

/// A sum by words, with the rounds and the single bytes that it took.
#[derive(Clone, Copy, Debug, PartialEq, Eq)]
pub struct Taken {
    pub sum: u64,
    pub rounds: usize,
    pub singles: usize,
}

pub fn by_words(bytes: &[u8]) -> u64 {
    // Safety: a slice is lent for the call, and only read.
    unsafe { raw::byte_sum_by_words(bytes.as_ptr(), bytes.len()) }
}

pub fn by_words_held(bytes: &[u8]) -> u16 {
    // Safety: as above.
    unsafe { raw::byte_sum_by_words_held(bytes.as_ptr(), bytes.len()) }
}

pub fn singly(bytes: &[u8]) -> u64 {
    // Safety: as above.
    unsafe { raw::byte_sum_singly(bytes.as_ptr(), bytes.len()) }
}

pub fn singly_held(bytes: &[u8]) -> u16 {
    // Safety: as above.
    unsafe { raw::byte_sum_singly_held(bytes.as_ptr(), bytes.len()) }
}

pub fn taken(bytes: &[u8]) -> Taken {
    let (mut rounds, mut singles) = (usize::MAX, usize::MAX);
    // Safety: as above; the two numbers are lent besides, and overlap nothing.
    let sum =
        unsafe { raw::byte_sum_taken(bytes.as_ptr(), bytes.len(), &mut rounds, &mut singles) };
    Taken { sum, rounds, singles }
}

pub fn agree(bytes: &[u8]) -> bool {
    // Safety: as above.
    unsafe { raw::byte_sums_agree(bytes.as_ptr(), bytes.len()) }
}
