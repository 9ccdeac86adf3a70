//! Numbers and keys that the inputs are made of.
use anchor_lang::prelude::Pubkey;

/// Numbers without a pattern (splitmix64), the same from the same start.
pub struct Numbers(pub u64);

impl Numbers {
    pub fn next(&mut self) -> u64 {
        self.0 = self.0.wrapping_add(0x9e37_79b9_7f4a_7c15);
        let z = (self.0 ^ (self.0 >> 30)).wrapping_mul(0xbf58_476d_1ce4_e5b9);
        let z = (z ^ (z >> 27)).wrapping_mul(0x94d0_49bb_1331_11eb);
        z ^ (z >> 31)
    }

    /// From `low` to `high - 1`.
    pub fn between(&mut self, low: u64, high: u64) -> u64 {
        low + self.next() % (high - low)
    }

    pub fn key(&mut self) -> Pubkey {
        key_of(&[self.next(), self.next(), self.next(), self.next()])
    }
}

pub fn key_words(key: &Pubkey) -> [u64; 4] {
    let bytes = key.to_bytes();
    std::array::from_fn(|i| u64::from_le_bytes(bytes[8 * i..8 * i + 8].try_into().unwrap()))
}

pub fn key_of(words: &[u64]) -> Pubkey {
    let mut bytes = [0; 32];
    for (part, word) in bytes.chunks_exact_mut(8).zip(words) {
        part.copy_from_slice(&word.to_le_bytes());
    }
    Pubkey::from(bytes)
}
