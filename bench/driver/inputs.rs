//! What the calls are handed besides the pool: caps messages, positions. The same in every run.
use {
    crate::{
        numbers::{key_words, Numbers},
        pools::{LAST, P},
    },
    anchor_lang::prelude::Pubkey,
    integrity_pool::utils::clock::EPOCH_DURATION,
    staking::utils::clock::UNLOCKING_DURATION,
};

pub const SECONDS: u64 = EPOCH_DURATION;
pub const UNLOCKING: u64 = UNLOCKING_DURATION;

/// As many publishers as there are seats, none of them seated.
pub fn strangers() -> Vec<Pubkey> {
    let mut numbers = Numbers(7);
    (0..P).map(|_| numbers.key()).collect()
}

/// Weights of clients, none of them 0.
pub fn weights(count: usize, below: u64) -> Vec<u64> {
    let mut numbers = Numbers(9);
    (0..count).map(|_| numbers.between(1, below)).collect()
}

/// Weights for so many calls, each of which has them begin with the next client: so no call in a row has its remainders in the order of the one before.
pub fn turning(weights: &[u64], calls: u64) -> Vec<u64> {
    weights.iter().copied().cycle().take(weights.len() + calls as usize).collect()
}

/// A message of epoch `now` with a row for each key.
pub fn message(now: u64, mut keys: Vec<Pubkey>) -> Vec<u8> {
    let mut numbers = Numbers(2);
    keys.sort();
    let mut bytes = vec![2];
    bytes.extend(((now * SECONDS) as i64).to_be_bytes());
    bytes.extend((keys.len() as u16).to_be_bytes());
    for key in keys {
        bytes.extend(key.to_bytes());
        bytes.extend(numbers.between(500_000_000, 2_000_000_000).to_be_bytes());
    }
    bytes
}

/// Positions, the i-th in the publisher `of(i)`. They are activated from 60 to 21 epochs ago;
/// every fourth has a start of unlocking, from 20 epochs ago to 20 ahead.
pub fn positions(count: usize, of: impl Fn(usize) -> Pubkey) -> Vec<u64> {
    let mut numbers = Numbers(3);
    let mut words = Vec::new();
    for i in 0..count {
        let activation = numbers.between(LAST - 60, LAST - 20);
        let flag = (i % 4 == 3) as u64;
        let start = flag * numbers.between(LAST - 20, LAST + 21);
        words.extend([2, numbers.between(1_000, 1_000_000), activation, flag, start]);
        words.extend(key_words(&of(i)));
    }
    words
}
