//! Safe functions over the three calls that `libcontroller.a` exports.

/// Settings as the exported calls take them: k, e, p, q, c, u.
pub type Numbers = [u32; 6];

extern "C" {
    fn tracker_test_settings(k: u32, e: u32, p: u32, q: u32, c: u32, u: u32) -> u32;
    fn tracker_allowance(
        k: u32,
        e: u32,
        p: u32,
        q: u32,
        c: u32,
        u: u32,
        arrivals: u64,
        messages: *mut u64,
    ) -> u32;
    fn tracker_test_line(
        bytes: *const u8,
        length: usize,
        site: *mut u32,
        item: *mut u32,
        value: *mut u32,
        used: *mut usize,
    ) -> u32;
}

/// The refusal of settings.
pub fn test_settings(n: Numbers) -> u32 {
    // SAFETY: plain numbers.
    unsafe { tracker_test_settings(n[0], n[1], n[2], n[3], n[4], n[5]) }
}

/// The refusal of settings, and the number that held `before` after the call.
pub fn allowance(n: Numbers, arrivals: u64, before: u64) -> (u32, u64) {
    let mut messages = before;
    // SAFETY: the pointer is to a local that lives through the call.
    let refusal =
        unsafe { tracker_allowance(n[0], n[1], n[2], n[3], n[4], n[5], arrivals, &mut messages) };
    (refusal, messages)
}

/// The four numbers that a line test hands out.
#[derive(Clone, Copy, Debug, PartialEq, Eq)]
pub struct LineNumbers {
    pub site: u32,
    pub item: u32,
    pub value: u32,
    pub used: usize,
}

/// The refusal of the first line, and the numbers after the call.
pub fn test_line(bytes: &[u8], before: LineNumbers) -> (u32, LineNumbers) {
    let mut after = before;
    // SAFETY: pointer and length are those of a slice; the others are to separate locals.
    let refusal = unsafe {
        tracker_test_line(
            bytes.as_ptr(),
            bytes.len(),
            &mut after.site,
            &mut after.item,
            &mut after.value,
            &mut after.used,
        )
    };
    (refusal, after)
}
