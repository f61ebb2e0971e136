//! Where and why an input is refused, found by the separate implementation: its transcript of ever
//! fewer lines tells the line that brings the refusal.

use reference::drawtrack::transcript;

/// The words of document 01's refusals, from number 1 on.
const WORDS: [&str; 14] = [
    "setting outside its range",
    "list share below leeway",
    "too few slots for the leeway",
    "beyond what this program serves",
    "unknown deck",
    "unknown code",
    "class above 1023",
    "deck full",
    "message not due",
    "amount not due",
    "memory inconsistent",
    "list too short",
    "malformed line",
    "log too short",
];

/// The number on the line `refused N` that ends a transcript.
fn refusal(input: &[u8]) -> Option<usize> {
    let text = String::from_utf8(transcript(input)).expect("a transcript is text");
    let last = text.lines().last()?;
    last.strip_prefix("refused ")?.parse().ok()
}

/// The bytes of the first so many lines; of all, if there are fewer.
fn first_lines(input: &[u8], lines: usize) -> &[u8] {
    let ends = input.iter().enumerate().filter(|(_, byte)| **byte == b'\n').map(|(at, _)| at + 1);
    &input[..ends.take(lines).nth(lines - 1).unwrap_or(input.len())]
}

/// What the program is to say on standard error: nothing after results.
pub fn reason(input: &[u8]) -> String {
    let Some(number) = refusal(input) else {
        return String::new();
    };
    let place = if refusal(first_lines(input, 1)).is_some() {
        "settings line".to_string()
    } else if number == 4 {
        "worklist".to_string()
    } else {
        // The last line is refused with all before it: the first such line is in between.
        let mut fine = 1;
        let mut refused = input.iter().filter(|byte| **byte == b'\n').count() + 1;
        while refused - fine > 1 {
            let middle = (fine + refused) / 2;
            if refusal(first_lines(input, middle)).is_some() {
                refused = middle;
            } else {
                fine = middle;
            }
        }
        format!("line {refused}")
    };
    format!("drawtrack: {place}: refused {number}: {}\n", WORDS[number - 1])
}
