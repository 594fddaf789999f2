//! Keys of offset tables: numbers at both ends, around the sign change, and any.

use crate::random::Random;
use crate::sort;
use std::collections::BTreeSet;

/// Both ends, the sign change, and the numbers on both sides of which a further byte differs.
pub const MARKED: [i32; 22] = [
    i32::MIN,
    i32::MIN + 1,
    -0x0100_0001,
    -0x0100_0000,
    -0x0001_0001,
    -0x0001_0000,
    -257,
    -256,
    -2,
    -1,
    0,
    1,
    2,
    127,
    128,
    255,
    256,
    0xffff,
    0x0001_0000,
    0x00ff_ffff,
    i32::MAX - 1,
    i32::MAX,
];

/// The key of a number.
pub fn key(number: i32) -> Vec<u8> {
    number.to_be_bytes().to_vec()
}

/// A number: a marked one, one near the sign change, or any.
fn any(random: &mut Random) -> i32 {
    match random.below(3) {
        0 => *random.pick(&MARKED),
        1 => random.below(64) as i32 - 32,
        _ => random.next_u64() as i32,
    }
}

/// A key that an offset table may hold.
pub fn any_key(random: &mut Random) -> Vec<u8> {
    key(any(random))
}

/// A key beside another: one or two above or below it, or with the other sign. Beside one that is not
/// of four bytes, any.
pub fn beside(random: &mut Random, other: &[u8]) -> Vec<u8> {
    let number = sort::number(other).unwrap_or_else(|| any(random));
    key(match random.below(5) {
        0 => number ^ i32::MIN,
        1 => number.wrapping_sub(2),
        2 => number.wrapping_sub(1),
        3 => number.wrapping_add(1),
        _ => number.wrapping_add(2),
    })
}

/// So many numbers, or fewer where some come twice, in rising order: a run over the sign change, or
/// any; of both signs, or of one.
pub fn rising(random: &mut Random, wanted: usize) -> Vec<Vec<u8>> {
    let first = -(random.below(wanted + 1) as i32);
    let is_run = random.percent(30);
    let sign = random.below(8);
    let mut numbers = BTreeSet::new();
    for place in 0..wanted as i32 {
        let number = match is_run {
            true => first + place,
            false => any(random),
        };
        numbers.insert(match sign {
            0 => number | i32::MIN,
            1 => number & i32::MAX,
            _ => number,
        });
    }
    numbers.into_iter().map(key).collect()
}
