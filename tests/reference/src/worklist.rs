//! The worklist: its lines, the settings line before it, and its reader.

use crate::message::Arrival;
use crate::refusal;
use crate::settings::Settings;

/// Most digits of a number in a line.
const MAX_DIGITS: usize = 7;

/// Reads the first line of `bytes` as an arrival: the arrival and the bytes
/// taken, the line feed included, or refusal 13.
pub fn read_line(bytes: &[u8]) -> Result<(Arrival, usize), u8> {
    let ([site, item, value], used) = read_numbers(bytes)?;
    Ok((Arrival { site, item, value }, used))
}

/// Reads the first line of `bytes` as k;e;p;q;c;u: the settings, untested, and
/// the bytes taken, or refusal 13.
pub fn read_settings_line(bytes: &[u8]) -> Result<(Settings, usize), u8> {
    let (numbers, used) = read_numbers(bytes)?;
    Ok((Settings::from_numbers(numbers), used))
}

/// The line that reads as this arrival. A number above 9,999,999 gives a line
/// that is malformed, since no line can hold it.
pub fn write_line(arrival: &Arrival) -> Vec<u8> {
    format!("{};{};{}\n", arrival.site, arrival.item, arrival.value).into_bytes()
}

/// Reads the first line as exactly COUNT numbers with semicolons between.
fn read_numbers<const COUNT: usize>(bytes: &[u8]) -> Result<([u32; COUNT], usize), u8> {
    let mut numbers = [0; COUNT];
    let mut position = 0;
    for (index, number) in numbers.iter_mut().enumerate() {
        let (read, used) = read_number(&bytes[position..])?;
        position += used;
        let end = if index + 1 == COUNT { b'\n' } else { b';' };
        if bytes.get(position) != Some(&end) {
            return Err(refusal::MALFORMED_LINE);
        }
        position += 1;
        *number = read;
    }
    Ok((numbers, position))
}

/// Reads the digits at the start of `bytes`: 1 to 7 of them, and no leading
/// zero but in 0 itself.
fn read_number(bytes: &[u8]) -> Result<(u32, usize), u8> {
    let used = bytes.iter().take(MAX_DIGITS + 1).take_while(|byte| byte.is_ascii_digit()).count();
    let leading_zero = used > 1 && bytes[0] == b'0';
    if used == 0 || used > MAX_DIGITS || leading_zero {
        return Err(refusal::MALFORMED_LINE);
    }
    let number = bytes[..used].iter().fold(0, |number, byte| number * 10 + u32::from(byte - b'0'));
    Ok((number, used))
}

/// A malformed line met by the reader.
#[derive(Clone, Copy, Debug, PartialEq, Eq)]
pub struct Malformed {
    /// Always 13.
    pub refusal: u8,
    /// The line's number in the file, from 0.
    pub line: u64,
}

/// A walk over a worklist's bytes, line by line.
#[derive(Clone, Copy, Debug)]
pub struct Reader<'a> {
    bytes: &'a [u8],
    position: usize,
    line: u64,
}

impl<'a> Reader<'a> {
    /// A reader that stands before the first line.
    pub fn new(bytes: &'a [u8]) -> Reader<'a> {
        Reader { bytes, position: 0, line: 0 }
    }

    /// The next line's arrival, or `None` at the end of the file. A malformed
    /// line leaves the reader before that line, so it is met again.
    pub fn next_arrival(&mut self) -> Result<Option<Arrival>, Malformed> {
        if self.position == self.bytes.len() {
            return Ok(None);
        }
        match read_line(&self.bytes[self.position..]) {
            Ok((arrival, used)) => {
                self.position += used;
                self.line += 1;
                Ok(Some(arrival))
            }
            Err(refusal) => Err(Malformed { refusal, line: self.line }),
        }
    }
}
