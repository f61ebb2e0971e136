//! Touches in random streams: request N2's arrivals of value 0, one in ten. A file by itself, since
//! test crates with a generator of their own take it by its path.

use reference::message::TOUCH;

/// One arrival in so many is a touch.
const ONE_IN: u64 = 10;

/// The value of the next arrival of a random stream: that of a touch now and then, as a random
/// number has it, and else this one, which is a draw's.
pub fn value_or_touch(random_number: u64, value: u32) -> u32 {
    assert_ne!(value, TOUCH, "the value of a draw");
    if random_number.is_multiple_of(ONE_IN) {
        TOUCH
    } else {
        value
    }
}
