//! The pools that the calls begin from, as words. The same in every run.
use {
    crate::numbers::{key_of, key_words, Numbers},
    anchor_lang::prelude::Pubkey,
    integrity_pool::{
        state::pool::PoolData,
        utils::constants::{MAX_EVENTS, MAX_PUBLISHERS},
    },
};

pub const P: usize = MAX_PUBLISHERS;
pub const E: usize = MAX_EVENTS;

/// The pool's last epoch, and how many events it has had.
pub const LAST: u64 = 2_000;
const EVENTS: u64 = 1_000;

pub const EVENT_LEN: usize = 9 + 3 * P;
const CLAIMABLE_AT: usize = 1;
const KEYS_AT: usize = 2;
const OTHER_AT: usize = KEYS_AT + 4 * P;
const SELF_AT: usize = OTHER_AT + 2 * P;
const ACCOUNTS_AT: usize = SELF_AT + 2 * P;
const EVENTS_AT: usize = ACCOUNTS_AT + 4 * P;
const COUNT_AT: usize = EVENTS_AT + E * EVENT_LEN;
const SLASHES_AT: usize = COUNT_AT + 1;
const FEES_AT: usize = SLASHES_AT + P;
pub const WORDS: usize = FEES_AT + P;
const _: () = assert!(size_of::<PoolData>() == 8 * WORDS && align_of::<PoolData>() == 8);

/// The pool as the mirror takes it.
pub fn words(p: &PoolData) -> &[u64] {
    unsafe { std::slice::from_raw_parts(p as *const PoolData as *const u64, WORDS) }
}

pub fn words_mut(p: &mut PoolData) -> &mut [u64] {
    unsafe { std::slice::from_raw_parts_mut(p as *mut PoolData as *mut u64, WORDS) }
}

/// One side: its total, and a change of either sign.
fn side(numbers: &mut Numbers, words: &mut [u64]) {
    words[0] = numbers.between(1_000_000, 1_000_000_000);
    words[1] = numbers.between(0, 200_000).wrapping_sub(100_000);
}

/// The event j before the newest.
fn event(numbers: &mut Numbers, j: u64, words: &mut [u64]) {
    words[0] = LAST - 1 - j;
    words[1] = 10_000;
    for ratios in words[9..].chunks_exact_mut(3) {
        ratios[0] = numbers.between(0, 1_000_001);
        ratios[1] = numbers.between(0, 1_000_001);
        ratios[2] = 200_000;
    }
}

/// Every seat taken, each with stake on both sides and a stake account of its own; every slot of the
/// ring written.
fn full(keys: &[Pubkey]) -> Vec<u64> {
    let mut numbers = Numbers(1);
    let mut image = vec![0; WORDS];
    image[0] = LAST;
    image[CLAIMABLE_AT] = 1 << 58;
    let seats = image[KEYS_AT..OTHER_AT].chunks_exact_mut(4);
    seats.zip(keys).for_each(|(seat, key)| seat.copy_from_slice(&key_words(key)));
    let sides = image[OTHER_AT..ACCOUNTS_AT].chunks_exact_mut(2);
    sides.for_each(|s| side(&mut numbers, s));
    image[ACCOUNTS_AT..EVENTS_AT].fill_with(|| numbers.next());
    for j in 0..E as u64 {
        let at = EVENTS_AT + ((EVENTS - 1 - j) % E as u64) as usize * EVENT_LEN;
        event(&mut numbers, j, &mut image[at..at + EVENT_LEN]);
    }
    image[COUNT_AT] = EVENTS;
    image[SLASHES_AT..FEES_AT].fill(3);
    image[FEES_AT..].fill(200_000);
    image
}

/// Full pools of the same publishers, which differ in where these sit.
pub struct Pools {
    /// In no order of the keys.
    pub mixed:  Vec<u64>,
    /// In the order of the keys, as a first advance seats the rows of its message.
    pub sorted: Vec<u64>,
}

pub fn pools() -> Pools {
    let mut numbers = Numbers(8);
    let mut keys: Vec<_> = (0..P).map(|_| numbers.key()).collect();
    let mixed = full(&keys);
    keys.sort();
    Pools { mixed, sorted: full(&keys) }
}

/// The words of all events, slot by slot.
pub fn events_mut(image: &mut [u64]) -> &mut [u64] {
    &mut image[EVENTS_AT..COUNT_AT]
}

/// The words of all keys, and of both sides.
pub fn keys(image: &[u64]) -> &[u64] {
    &image[KEYS_AT..OTHER_AT]
}

pub fn sides_mut(image: &mut [u64]) -> &mut [u64] {
    &mut image[OTHER_AT..ACCOUNTS_AT]
}

pub fn fees_mut(image: &mut [u64]) -> &mut [u64] {
    &mut image[FEES_AT..]
}

pub fn claimable(image: &[u64]) -> u64 {
    image[CLAIMABLE_AT]
}

pub fn publisher(image: &[u64], seat: usize) -> Pubkey {
    key_of(&image[KEYS_AT + 4 * seat..][..4])
}

/// The publishers of the first `count` seats.
pub fn publishers(image: &[u64], count: usize) -> Vec<Pubkey> {
    (0..count).map(|seat| publisher(image, seat)).collect()
}

pub fn stake_account(image: &[u64], seat: usize) -> Pubkey {
    key_of(&image[ACCOUNTS_AT + 4 * seat..][..4])
}
