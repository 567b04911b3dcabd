//! Changes of bytes that know nothing of records.

use crate::requests::random::Random;

/// Turns one bit. Once more, and it is what it was.
pub fn turn_bit(bytes: &mut [u8], bit: usize) {
    bytes[bit / 8] ^= 1 << (bit % 8);
}

/// Noise in which zero bytes are more likely than others, by a chance that is
/// drawn as well, so that fields are right now and then.
pub fn sparse_noise(random: &mut Random, bytes: &mut [u8]) {
    let zeros = random.below(4);
    for byte in bytes {
        let drawn = random.bits() as u8;
        *byte = if random.below(4) < zeros { 0 } else { drawn };
    }
}
