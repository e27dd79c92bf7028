//! Random numbers from a fixed seed (splitmix64), so that every failure can be replayed.

use crate::case::Bytes;

pub struct Random {
    pub seed: u64,
    state: u64,
}

/// Numbers at which a test of a field can go wrong: the paper's limits, powers of two, the ends.
const EDGES: [u64; 16] = [
    0,
    3,
    7,
    16,
    32,
    255,
    65_536,
    1_048_576,
    16_777_216,
    (1 << 31) - 1,
    1 << 32,
    1 << 44,
    1 << 60,
    1 << 61,
    1 << 63,
    u64::MAX,
];

impl Random {
    pub fn new(seed: u64) -> Self {
        Random { seed, state: seed }
    }

    pub fn number(&mut self) -> u64 {
        self.state = self.state.wrapping_add(0x9E37_79B9_7F4A_7C15);
        let mut mixed = self.state;
        mixed = (mixed ^ (mixed >> 30)).wrapping_mul(0xBF58_476D_1CE4_E5B9);
        mixed = (mixed ^ (mixed >> 27)).wrapping_mul(0x94D0_49BB_1331_11EB);
        mixed ^ (mixed >> 31)
    }

    /// A number from 0 to `end - 1`.
    pub fn below(&mut self, end: u64) -> u64 {
        self.number() % end
    }

    /// True in one of `times` calls.
    pub fn once_in(&mut self, times: u64) -> bool {
        self.below(times) == 0
    }

    pub fn pick<T: Copy>(&mut self, choices: &[T]) -> T {
        choices[self.below(choices.len() as u64) as usize]
    }

    /// An edge or a neighbour of one.
    pub fn edge(&mut self) -> u64 {
        let away = self.pick(&[-1, 0, 1]);
        self.pick(&EDGES).wrapping_add_signed(away)
    }

    pub fn bytes(&mut self, length: usize) -> Bytes {
        let mut bytes = vec![0; length];
        for chunk in bytes.chunks_mut(8) {
            let random = self.number().to_le_bytes();
            chunk.copy_from_slice(&random[..chunk.len()]);
        }
        Bytes(bytes)
    }

    /// None, or a few bytes.
    pub fn slack(&mut self) -> Bytes {
        let length = self.below(20).saturating_sub(10);
        self.bytes(length as usize)
    }
}
