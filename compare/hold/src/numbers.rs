//! Numbers that look random, the same for the same seed, and biased to limits.

pub struct Numbers(u64);

impl Numbers {
    pub fn new(seed: u64) -> Self {
        Numbers(seed)
    }

    /// Splitmix64.
    pub fn number(&mut self) -> u64 {
        self.0 = self.0.wrapping_add(0x9E37_79B9_7F4A_7C15);
        let mut z = self.0;
        z = (z ^ (z >> 30)).wrapping_mul(0xBF58_476D_1CE4_E5B9);
        z = (z ^ (z >> 27)).wrapping_mul(0x94D0_49BB_1331_11EB);
        z ^ (z >> 31)
    }

    pub fn below(&mut self, limit: u64) -> u64 {
        self.number() % limit
    }

    pub fn place(&mut self, length: usize) -> usize {
        self.below(length as u64) as usize
    }

    /// True once in `times`.
    pub fn once_in(&mut self, times: u64) -> bool {
        self.below(times) == 0
    }

    pub fn pick<T: Copy>(&mut self, from: &[T]) -> T {
        from[self.place(from.len())]
    }

    pub fn bytes(&mut self, length: usize) -> Vec<u8> {
        let mut out = vec![0; length];
        for part in out.chunks_mut(8) {
            part.copy_from_slice(&self.number().to_le_bytes()[..part.len()]);
        }
        out
    }

    /// Bytes of one of the kinds that data has: any, all alike, few ones.
    pub fn data(&mut self, length: usize) -> Vec<u8> {
        match self.below(8) {
            0 => vec![self.pick(&[0x00, 0xFF, 0x01, 0x80]); length],
            1 => {
                let mut out = vec![0; length];
                if length > 0 {
                    out[self.place(length)] = 1 << self.below(8);
                }
                out
            }
            _ => self.bytes(length),
        }
    }

    /// A number at or beside one where something changes, or any.
    pub fn edge(&mut self) -> u64 {
        match self.below(8) {
            0 => self.number(),
            1 => 1 << self.below(64),
            _ => {
                let edge = self.pick(&EDGES);
                edge.wrapping_add(self.below(5)).wrapping_sub(2)
            }
        }
    }

    /// A number near this one.
    pub fn beside(&mut self, number: u64) -> u64 {
        number.wrapping_add(self.below(9)).wrapping_sub(4)
    }
}

const EDGES: [u64; 12] = [
    0,
    3,
    8,
    16,
    0xFF,
    4_096,
    65_536,
    1 << 31,
    1 << 32,
    (1 << 32) + 8,
    1 << 63,
    u64::MAX,
];
