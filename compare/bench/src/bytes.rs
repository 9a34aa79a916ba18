//! The bytes that passes work on.

/// The bytes of a block as --blocks counts them.
pub const BLOCK: usize = 4_096;

/// The user data of one call where a call takes much.
pub const RUN: usize = 64 * BLOCK;

/// Bytes that look random, the same on every run.
pub fn noise(length: usize) -> Vec<u8> {
    let mut state = 0x2545_F491_4F6C_DD1Du64;
    let words = std::iter::repeat_with(|| {
        state ^= state << 13;
        state ^= state >> 7;
        state ^= state << 17;
        state.to_le_bytes()
    });
    words.flatten().take(length).collect()
}

/// How often a call that takes so many bytes is made in a pass over `blocks`
/// blocks: an odd number, so that what undoes itself does not come out as if it
/// had never been done.
pub fn repeats(blocks: usize, bytes: usize) -> usize {
    (blocks * BLOCK / bytes) | 1
}
