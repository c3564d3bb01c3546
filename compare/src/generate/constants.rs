//! Constants for generated expressions and rows, and words that are none.

mod decided;

pub use decided::{decided, Decided, Place};

use crate::random::Random;

/// The largest constant; the lowest is its opposite.
pub const LARGEST: i64 = 4_000_000_000;

/// Constants from here on are far, and so are their opposites.
pub const FAR: i64 = 1_000_001;

/// A second of an epoch, in the year 2023.
const SECOND: i64 = 1_700_000_000;

/// A constant above 1,000,000 or below -1,000,000: a second of an epoch, a limit, where the high word
/// changes, or any.
pub fn far(random: &mut Random) -> i64 {
    let size = match random.below(8) {
        0 => LARGEST - random.number(0, 2),
        1 => FAR + random.number(0, 2),
        2 => 1_000_000 * random.number(2, 4_000) - random.number(0, 1),
        3 => random.number(FAR, LARGEST),
        // What 32 bits hold and no more.
        4 => *random.pick(&[1 << 31, (1 << 31) - 1, (1 << 31) + 1]),
        _ => SECOND + random.number(-86_400, 86_400),
    };
    *random.pick(&[1, -1]) * size
}

/// High and low words that no constant has: one beyond each limit, a low word out of its range, and
/// a high word at the ends of 32 bits.
pub const BEYOND: [[i32; 2]; 12] = [
    [4_000, 1],
    [-4_001, 999_999],
    [4_001, 0],
    [-4_001, 0],
    [0, 1_000_000],
    [0, -1],
    [3_999, 1_000_000],
    [-4_000, -1],
    [0, i32::MAX],
    [0, i32::MIN],
    [i32::MAX, 0],
    [i32::MIN, 0],
];
