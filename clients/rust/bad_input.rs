//! Bad input for each of the twelve functions. A case is a good input with one fault and the number that must be returned; it is tried alone, and with
//! all faults that stand behind it in the order of the refusals. Each time every word of the input, pool, record and parts included, must be as it was
//! (the answer's are compared in pool_mirror.rs). Then input at the limits, which is accepted. The numbers of the cases are the same in clients/c/bad_input.c.
mod pool_mirror;

use pool_mirror::{image_len, position_state, split, state_name, Account, Given, Key, Pool};
use pool_mirror::{LOCKED, LOCKING, MAX_WEIGHTS, PREUNLOCKING, UNLOCKED, UNLOCKING};

const NAMES: [&str; 12] =
    ["fresh", "advance", "forecast", "payment", "add", "remove", "position_state", "create_slash_event", "slash", "fee", "stake_account", "split"];
const FRESH: usize = 0;
const ADVANCE: usize = 1;
const FORECAST: usize = 2;
const PAYMENT: usize = 3;
const ADD: usize = 4;
const REMOVE: usize = 5;
const POSITION_STATE: usize = 6;
const CREATE_SLASH_EVENT: usize = 7;
const SLASH: usize = 8;
const FEE: usize = 9;
const STAKE_ACCOUNT: usize = 10;
const SPLIT: usize = 11;

const HALF: u64 = 1 << 63;
const MAX: u64 = u64::MAX;
const SIZE_MAX: usize = usize::MAX;

/// The good image has 2 seats and 4 events; the largest that a case uses would have 1,025 seats.
const P: usize = 2;
const E: usize = 4;
const OTHERS: usize = 2 + 4 * P;
const OWN: usize = 2 + 6 * P;
const ACCOUNTS: usize = 2 + 8 * P;
const EVENTS: usize = 2 + 12 * P;
const EVENT: usize = 9 + 3 * P;
const COUNT: usize = EVENTS + E * EVENT;
const SLASHES: usize = COUNT + 1;

/// R of the good advance: 1 % of 1,000,000 and 500,000 of A's two sides and of B's cap of 500.
const REWARDS: u64 = 15_005;

const ZERO: Key = [0; 4];
const A: Key = [1, 2, 3, 4];
const B: Key = [2, 0, 0, 0];
const C: Key = [3, 0, 0, 0];
const OWN_KEY: Key = [4, 0, 0, 0];
const STAKER: Key = [5, 0, 0, 0];
const OWNER: Key = [6, 0, 0, 0];
const AUTHORITY: Key = [7, 0, 0, 0];
const NEW: Key = [8, 0, 0, 0];

/// All arguments of all functions. Words behind a list's length must stay as they were too.
#[derive(Clone, PartialEq)]
struct Input {
    pool: Vec<u64>,
    pool_len: usize,
    p: usize,
    e: usize,
    epoch: u64,
    now: u64,
    y: u64,
    custody: u64,
    verified: u64,
    seconds: u64,
    caps: Vec<u8>,
    caps_len: usize,
    publisher: Key,
    account: Key,
    record: [u64; 2],
    publisher_account: Option<Key>,
    custody_flag: u64,
    positions: Vec<u64>,
    positions_len: usize,
    unlocking: u64,
    amount: u64,
    state: u64,
    index: u64,
    event_epoch: u64,
    locked: u64,
    preunlocking: u64,
    fee: u64,
    signer: Key,
    authority: Key,
    has_old: bool,
    old_account: Key,
    old_owner: Key,
    old_positions: Vec<u64>,
    old_len: usize,
    has_new: bool,
    new_account: Key,
    new_positions: Vec<u64>,
    new_len: usize,
    reward: u64,
    weights: Vec<u64>,
    weights_len: usize,
    parts: Vec<u64>,
    parts_len: usize,
}

fn set_position(list: &mut [u64], i: usize, kind: u64, amount: u64, flag: u64, start: u64, publisher: Key) {
    list[9 * i..9 * i + 5].copy_from_slice(&[kind, amount, 10, flag, start]);
    list[9 * i + 5..9 * i + 9].copy_from_slice(&publisher);
}

impl Input {
    fn set_time(&mut self, time: u64) {
        self.caps[1..9].copy_from_slice(&time.to_be_bytes());
    }

    fn set_rows(&mut self, rows: u16) {
        self.caps[9..11].copy_from_slice(&rows.to_be_bytes());
    }

    fn set_row(&mut self, i: usize, key: Key, cap: u64) {
        let at = &mut self.caps[11 + 40 * i..51 + 40 * i];
        for (j, word) in key.iter().enumerate() {
            at[8 * j..8 * j + 8].copy_from_slice(&word.to_le_bytes());
        }
        at[32..].copy_from_slice(&cap.to_be_bytes());
    }

    fn set_lens(&mut self, weights_len: usize, parts_len: usize) {
        (self.weights_len, self.parts_len) = (weights_len, parts_len);
    }

    /// These weights, and room for as many parts.
    fn set_weights(&mut self, weights: &[u64]) {
        self.weights[..weights.len()].copy_from_slice(weights);
        self.set_lens(weights.len(), weights.len());
    }
}

/// An input that the function accepts. Each event pays 1 % and the publisher keeps a tenth, so the payment is 1,800 and 200.
fn good(f: usize) -> Input {
    let mut pool = vec![0; image_len(1025, E)];
    (pool[0], pool[1], pool[COUNT], pool[SLASHES]) = (20, 50_000, 2, 3);
    pool[2..6].copy_from_slice(&A);
    pool[6..10].copy_from_slice(&B);
    pool[ACCOUNTS..ACCOUNTS + 4].copy_from_slice(&OWN_KEY);
    (pool[OTHERS], pool[OTHERS + 2], pool[OWN]) = (1_000_000, 1_000, 500_000);
    for t in 0..2 {
        let at = EVENTS + t * EVENT;
        (pool[at], pool[at + 1]) = (18 + t as u64, 10_000);
        pool[at + 9..at + 15].copy_from_slice(&[1_000_000, 1_000_000, 100_000, 1_000_000, 1_000_000, 100_000]);
    }
    let mut i = Input {
        pool,
        pool_len: image_len(P, E),
        p: P,
        e: E,
        epoch: 20,
        now: if f == ADVANCE || f == FORECAST { 21 } else { 20 },
        y: 10_000,
        custody: 100_000,
        verified: 1,
        seconds: 604_800,
        caps: vec![0; 40_972],
        caps_len: 91,
        publisher: A,
        account: STAKER,
        record: [if f == SLASH { 20 } else { 18 }, 3],
        publisher_account: Some(OWN_KEY),
        custody_flag: 1,
        positions: vec![0; 2_313],
        positions_len: if f == POSITION_STATE { 9 } else { 18 },
        unlocking: 1,
        amount: 5,
        state: LOCKED,
        index: 3,
        event_epoch: 20,
        locked: 10,
        preunlocking: 5,
        fee: 50_000,
        signer: OWNER,
        authority: AUTHORITY,
        has_old: true,
        old_account: OWN_KEY,
        old_owner: OWNER,
        old_positions: vec![0; 2_313],
        old_len: 18,
        has_new: true,
        new_account: NEW,
        new_positions: vec![0; 2_313],
        new_len: 9,
        reward: 100,
        weights: vec![1; 256 + MAX_WEIGHTS],
        weights_len: 3,
        parts: vec![7_777; 256 + MAX_WEIGHTS],
        parts_len: 3,
    };
    i.set_time(21 * 604_800);
    i.set_rows(2);
    i.set_row(0, A, 2_000_000);
    i.set_row(1, B, 500);
    set_position(&mut i.positions, 0, 2, 100_000, 0, 0, A);
    set_position(&mut i.positions, 1, 0, MAX, MAX, MAX, [MAX; 4]);
    set_position(&mut i.old_positions, 0, 1, 5, 0, 0, A);
    set_position(&mut i.old_positions, 1, 2, 5, 0, 0, B);
    set_position(&mut i.new_positions, 0, 2, 5, 0, 0, C);
    i.set_weights(&[4, 11, 6]);
    i
}

/// 0, or the refusal's number.
fn call(f: usize, i: &mut Input) -> u64 {
    fn number<T>(answer: Result<T, u64>) -> u64 {
        answer.err().unwrap_or(0)
    }
    let mut pool = Pool { words: &mut i.pool[..i.pool_len], p: i.p, e: i.e };
    let given = Given {
        current_epoch: i.now,
        y: i.y,
        custody: i.custody,
        verified: i.verified,
        caps: &i.caps[..i.caps_len],
        epoch_duration: i.seconds,
    };
    match f {
        FRESH => number(pool.fresh(i.epoch)),
        ADVANCE => number(pool.advance(given)),
        FORECAST => number(pool.forecast(given)),
        PAYMENT => {
            let positions = &i.positions[..i.positions_len];
            let account = i.publisher_account.as_ref();
            number(pool.payment(i.now, &i.publisher, &i.account, &mut i.record, account, i.custody_flag, positions, i.unlocking))
        }
        ADD => number(pool.add(i.now, &i.publisher, &i.account, i.amount)),
        REMOVE => number(pool.remove(i.now, &i.publisher, &i.account, i.amount, i.state)),
        POSITION_STATE => number(position_state(i.now, &i.positions[..i.positions_len], i.unlocking)),
        CREATE_SLASH_EVENT => number(pool.create_slash_event(i.now, &i.publisher, i.index)),
        SLASH => {
            number(pool.slash(i.now, &i.publisher, &i.account, &mut i.record, i.index, i.event_epoch, i.locked, i.preunlocking))
        }
        FEE => number(pool.fee(i.fee)),
        STAKE_ACCOUNT => {
            let old = Account { key: i.old_account, owner: i.old_owner, positions: &i.old_positions[..i.old_len] };
            let new = Account { key: i.new_account, owner: i.new_account, positions: &i.new_positions[..i.new_len] };
            number(pool.stake_account(&i.publisher, &i.signer, &i.authority, i.has_old.then_some(old), i.has_new.then_some(new)))
        }
        _ => number(split(i.reward, &i.weights[..i.weights_len], &mut i.parts[..i.parts_len])),
    }
}

// Each of these puts fault k into the input and returns the number for it, or 0 where there is no fault k.

const SIZES: usize = 13;
const IMAGE: usize = 15;
const UP_TO_DATE: usize = 4;

fn image_fault(i: &mut Input, k: usize) -> u64 {
    match k {
        0 => i.pool_len = 0,
        1 => i.pool_len = image_len(P, E) - 1,
        2 => i.pool_len = image_len(P, E) + 1,
        3 => i.p = 0,
        4 => (i.p, i.pool_len) = (0, image_len(0, E)),
        5 => (i.p, i.pool_len) = (1025, image_len(1025, E)),
        6 => (i.e, i.pool_len) = (0, image_len(P, 0)),
        7 => (i.e, i.pool_len) = (53, image_len(P, 53)),
        8 => i.p = SIZE_MAX,
        9 => i.e = SIZE_MAX,
        10 => (i.p, i.e) = (SIZE_MAX, SIZE_MAX),
        // In 64 bits these come to the lengths given.
        11 => (i.p, i.e, i.pool_len) = (SIZE_MAX, 4, 13),
        12 => (i.p, i.e, i.pool_len) = (1, (1 << 62) + 4, image_len(1, 4)),
        13 => i.pool[COUNT] = HALF,
        14 => i.pool[COUNT] = MAX,
        _ => return 0,
    }
    1
}

fn fresh_fault(i: &mut Input, k: usize) -> u64 {
    if k < SIZES {
        return image_fault(i, k);
    }
    match k - SIZES {
        0 => { i.epoch = 0; 2 }
        _ => 0,
    }
}

fn advance_fault(i: &mut Input, k: usize) -> u64 {
    if k < IMAGE {
        return image_fault(i, k);
    }
    match k - IMAGE {
        0 => { i.seconds = 0; 2 }
        1 => { i.caps_len = 0; 3 }
        2 => { i.caps_len = 10; 3 }
        3 => { i.caps_len = 90; 3 }
        4 => { i.caps_len = 40_972; 3 }
        5 => { i.set_rows(1_025); i.caps_len = 40_971; 3 }
        6 => { i.set_rows(65_535); i.caps_len = 40_971; 3 }
        7 => { i.set_row(0, ZERO, 1); 3 }
        8 => { i.set_row(0, A, 1); i.set_row(1, A, 1); 3 }
        9 => { i.set_row(0, B, 1); i.set_row(1, A, 1); 3 }
        // Ascending as little-endian words, not as bytes.
        10 => { i.set_row(0, [0x0002, 0, 0, 0], 1); i.set_row(1, [0x0100, 0, 0, 0], 1); 3 }
        11 => { i.y = 10_001; 5 }
        12 => { i.y = MAX; 5 }
        13 => { i.verified = 0; 7 }
        14 => { i.verified = 2; 7 }
        15 => { i.now = 20; 8 }
        16 => { i.now = 0; 8 }
        17 => { i.set_time(HALF); 13 }
        18 => { i.set_time(MAX); 13 }
        19 => { i.set_time(21 * 604_800 - 1); 9 }
        20 => { i.set_time(22 * 604_800); 9 }
        21 => { i.pool[OTHERS] = HALF; 13 }
        22 => { i.pool[OTHERS] = 5; i.pool[OTHERS + 1] = 6u64.wrapping_neg(); 13 }
        23 => { i.pool[OWN] = HALF - 1; i.pool[OWN + 1] = 1; 13 }
        24 => { i.pool[OTHERS] = HALF - 1; i.pool[OWN] = HALF - 1; i.pool[OTHERS + 2] = HALF - 1; i.set_row(0, A, MAX); i.set_row(1, B, MAX); 13 }
        25 => { i.pool[COUNT] = HALF - 1; 13 }
        // R and claimable together; claimable is above custody, here and with all faults before, then under it.
        26 => { i.pool[1] = MAX - REWARDS + 1; i.custody = 0; 13 }
        27 => { i.pool[1] = MAX - REWARDS + 1; i.custody = MAX; 13 }
        _ => 0,
    }
}

/// The publisher and the pool's epoch: 10, 11, 12.
fn seat_fault(i: &mut Input, k: usize) -> u64 {
    match k {
        0 => { i.publisher = ZERO; 10 }
        1 => { i.publisher = C; 11 }
        2 => { i.now = 19; 12 }
        3 => { i.now = 21; 12 }
        _ => 0,
    }
}

fn payment_fault(i: &mut Input, k: usize) -> u64 {
    const LISTS: usize = IMAGE + 8;
    const REST: usize = LISTS + UP_TO_DATE;
    if k < IMAGE {
        return image_fault(i, k);
    }
    if (LISTS..REST).contains(&k) {
        return seat_fault(i, k - LISTS);
    }
    match if k < LISTS { k - IMAGE } else { k - UP_TO_DATE - IMAGE } {
        0 => { i.positions_len = 1; 4 }
        1 => { i.positions_len = 17; 4 }
        2 => { i.positions_len = 2_313; 4 }
        3 => { i.positions_len = 2_304 + 8; 4 }
        4 => { i.positions[0] = 3; 4 }
        5 => { i.positions[0] = MAX; 4 }
        6 => { i.positions[3] = 2; 4 }
        7 => { i.positions[0] = 1; i.positions[3] = MAX; 4 }
        // The end of unlocking; a slot's amount; a rate; a reward; a publisher's part above it; both slots' rewards together.
        8 => { set_position(&mut i.positions, 0, 2, 100_000, 1, MAX, A); 13 }
        9 => { set_position(&mut i.positions, 0, 2, HALF, 0, 0, A); set_position(&mut i.positions, 1, 2, HALF, 0, 0, A); 13 }
        10 => { i.pool[EVENTS + 1] = MAX; i.pool[EVENTS + 10] = 2_000_000; 13 }
        11 => { i.pool[EVENTS + 1] = 2_000_000; i.positions[1] = MAX; 13 }
        12 => { i.pool[EVENTS + 11] = 2_000_000; 13 }
        13 => { i.pool[EVENTS + 1] = 1_000_000; i.pool[EVENTS + EVENT + 1] = 1_000_000; i.positions[1] = MAX; 13 }
        14 => { i.pool[1] = 1_999; 16 }
        15 => { i.pool[1] = 0; 16 }
        16 => { i.publisher_account = Some(STAKER); 17 }
        17 => { i.publisher_account = Some(OWN_KEY); i.pool[ACCOUNTS..ACCOUNTS + 4].copy_from_slice(&ZERO); 17 }
        18 => { i.publisher_account = None; 17 }
        19 => { i.custody_flag = 0; 18 }
        _ => 0,
    }
}

fn add_fault(i: &mut Input, k: usize) -> u64 {
    if k < IMAGE {
        return image_fault(i, k);
    }
    if k < IMAGE + UP_TO_DATE {
        return seat_fault(i, k - IMAGE);
    }
    match k - IMAGE - UP_TO_DATE {
        0 => { i.amount = HALF; 13 }
        1 => { i.amount = MAX; 13 }
        2 => { i.pool[OTHERS + 1] = HALF - 5; 13 }
        _ => 0,
    }
}

fn remove_fault(i: &mut Input, k: usize) -> u64 {
    if k < IMAGE {
        return image_fault(i, k);
    }
    if k < IMAGE + UP_TO_DATE {
        return seat_fault(i, k - IMAGE);
    }
    match k - IMAGE - UP_TO_DATE {
        0 => { i.amount = MAX; i.state = UNLOCKED; 13 }
        1 => { i.amount = HALF; 13 }
        2 => { i.state = PREUNLOCKING; 15 }
        3 => { i.state = UNLOCKING; 15 }
        4 => { i.state = 5; 15 }
        5 => { i.state = MAX; 15 }
        6 => { i.pool[OTHERS + 1] = HALF; i.state = LOCKED; 13 }
        7 => { i.pool[OTHERS + 1] = HALF + 4; i.state = LOCKING; 13 }
        _ => 0,
    }
}

/// A start of unlocking for the first position, which is active from epoch 10 on.
fn set_unlocking(i: &mut Input, start: u64, unlocking: u64) {
    (i.positions[3], i.positions[4], i.unlocking) = (1, start, unlocking);
}

fn position_state_fault(i: &mut Input, k: usize) -> u64 {
    match k {
        0 => { i.positions_len = 0; 4 }
        1 => { i.positions_len = 8; 4 }
        2 => { i.positions_len = 10; 4 }
        3 => { i.positions_len = 18; 4 }
        4 => { i.positions_len = 2_313; 4 }
        5 => { i.positions[0] = 3; 4 }
        6 => { i.positions[0] = MAX; 4 }
        7 => { i.positions[3] = 2; 4 }
        8 => { i.positions[0] = 1; i.positions[3] = MAX; 4 }
        9 => { i.positions[0] = 0; 4 }
        10 => { set_unlocking(i, MAX, 1); 13 }
        11 => { set_unlocking(i, MAX, 1); i.now = 10; 13 }
        12 => { set_unlocking(i, HALF, HALF); 13 }
        13 => { set_unlocking(i, 1, MAX); 13 }
        _ => 0,
    }
}

fn create_slash_event_fault(i: &mut Input, k: usize) -> u64 {
    if k < IMAGE {
        return image_fault(i, k);
    }
    match k - IMAGE {
        0 => { i.publisher = ZERO; 10 }
        1 => { i.publisher = C; 11 }
        2 => { i.index = 2; 21 }
        3 => { i.index = 4; 21 }
        4 => { i.pool[SLASHES] = MAX; i.index = MAX; 13 }
        _ => 0,
    }
}

fn slash_fault(i: &mut Input, k: usize) -> u64 {
    if k < IMAGE {
        return image_fault(i, k);
    }
    match k - IMAGE {
        0 => { i.record[0] = 19; 19 }
        1 => { i.record[0] = 21; 19 }
        2 => { i.event_epoch = 21; 22 }
        3 => { i.event_epoch = MAX; 22 }
        4 => { i.index = 2; i.event_epoch = 20; 20 }
        5 => { i.index = 2; i.event_epoch = 19; 20 }
        6 => { i.index = 4; i.event_epoch = 20; 20 }
        7 => { i.index = MAX; i.record[1] = 3; i.event_epoch = 20; 20 }
        8 => { i.index = MAX; i.event_epoch = 19; 13 }
        9 => { i.index = MAX; i.record[1] = MAX; i.event_epoch = 20; 13 }
        10 => { i.pool[0] = 19; 12 }
        11 => { i.pool[0] = 21; 12 }
        12 => { i.publisher = ZERO; 10 }
        13 => { i.publisher = C; 11 }
        14 => { i.locked = 1_000_000; 13 }
        15 => { i.locked = MAX; i.preunlocking = MAX; 13 }
        16 => { i.pool[OTHERS] = MAX; i.preunlocking = HALF; 13 }
        17 => { i.pool[OTHERS + 1] = HALF - 5; 13 }
        _ => 0,
    }
}

fn fee_fault(i: &mut Input, k: usize) -> u64 {
    if k < IMAGE {
        return image_fault(i, k);
    }
    match k - IMAGE {
        0 => { i.fee = 1_000_001; 6 }
        1 => { i.fee = MAX; 6 }
        _ => 0,
    }
}

fn stake_account_fault(i: &mut Input, k: usize) -> u64 {
    if k < IMAGE {
        return image_fault(i, k);
    }
    match k - IMAGE {
        0 => { i.has_old = true; i.old_len = 1; 4 }
        1 => { i.has_old = true; i.old_len = 2_313; 4 }
        2 => { i.has_old = true; i.old_positions[9] = 3; 4 }
        3 => { i.new_len = 10; 4 }
        4 => { i.new_len = 2_313; 4 }
        5 => { i.new_positions[3] = 2; 4 }
        6 => { i.publisher = ZERO; 10 }
        7 => { i.publisher = C; 11 }
        8 => { i.publisher = B; i.signer = STAKER; 23 }
        9 => { i.has_old = false; 26 }
        10 => { i.old_account = STAKER; 17 }
        11 => { i.old_positions[14..18].copy_from_slice(&A); 24 }
        12 => { i.signer = STAKER; 25 }
        13 => {
            set_position(&mut i.new_positions, 0, 2, 5, 0, 0, B);
            set_position(&mut i.new_positions, 1, 2, 5, 0, 0, A);
            i.new_len = 18;
            27
        }
        _ => 0,
    }
}

/// Weights don't add up to more than 64 bits and to 0 at once: 28 is ahead of 29 in the first cases, and of 13 in the others with all behind them.
fn split_fault(i: &mut Input, k: usize) -> u64 {
    match k {
        0 => { i.set_weights(&[0; MAX_WEIGHTS + 1]); 28 }
        1 => { i.set_weights(&[0; 3]); i.parts_len = 2; 28 }
        2 => { i.set_weights(&[0; 3]); i.parts_len = 4; 28 }
        3 => { i.set_lens(0, 1); 28 }
        4 => { i.set_lens(MAX_WEIGHTS + 1, MAX_WEIGHTS + 1); 28 }
        5 => { i.set_lens(MAX_WEIGHTS + 1, MAX_WEIGHTS); 28 }
        6 => { i.set_lens(MAX_WEIGHTS, MAX_WEIGHTS + 1); 28 }
        7 => { i.set_lens(MAX_WEIGHTS, MAX_WEIGHTS - 1); 28 }
        // 64 in eight bits.
        8 => { i.set_lens(256 + MAX_WEIGHTS, 256 + MAX_WEIGHTS); 28 }
        9 => { i.set_lens(3, 2); 28 }
        10 => { i.set_lens(3, 4); 28 }
        11 => { i.set_lens(3, 0); 28 }
        // In 64 bits these come to 0, and the fourth to 5.
        12 => { i.set_weights(&[HALF, HALF, 0]); 13 }
        13 => { i.set_weights(&[0, 1, MAX]); 13 }
        14 => { i.set_weights(&[MAX, MAX, 2]); 13 }
        15 => { i.set_weights(&[MAX, 1, 5]); 13 }
        16 => { i.set_weights(&[1 << 58; MAX_WEIGHTS]); 13 }
        17 => { i.set_weights(&[0; 3]); 29 }
        18 => { i.set_weights(&[0; 3]); i.reward = 0; 29 }
        19 => { i.set_weights(&[0]); 29 }
        20 => { i.set_weights(&[0; MAX_WEIGHTS]); 29 }
        21 => { i.set_weights(&[]); 29 }
        _ => 0,
    }
}

fn fault(f: usize, i: &mut Input, k: usize) -> u64 {
    match f {
        FRESH => fresh_fault(i, k),
        ADVANCE | FORECAST => advance_fault(i, k),
        PAYMENT => payment_fault(i, k),
        ADD => add_fault(i, k),
        REMOVE => remove_fault(i, k),
        POSITION_STATE => position_state_fault(i, k),
        CREATE_SLASH_EVENT => create_slash_event_fault(i, k),
        SLASH => slash_fault(i, k),
        FEE => fee_fault(i, k),
        STAKE_ACCOUNT => stake_account_fault(i, k),
        _ => split_fault(i, k),
    }
}

fn fail(what: String) -> ! {
    println!("{what}");
    std::process::exit(1)
}

/// The call returns this number. A refused call writes nothing, an accepted one only pool, record and parts besides its answer.
fn expect(f: usize, mut i: Input, case: &str, number: u64) {
    let mut before = i.clone();
    let got = call(f, &mut i);
    if got != number {
        fail(format!("{}, {}: {} and not {}", NAMES[f], case, got, number));
    }
    if number == 0 && f != FORECAST && f != POSITION_STATE && f != SPLIT {
        before.pool[..i.pool_len].copy_from_slice(&i.pool[..i.pool_len]);
    }
    if number == 0 && (f == PAYMENT || f == SLASH) {
        before.record = i.record;
    }
    if number == 0 && f == SPLIT {
        before.parts[..i.parts_len].copy_from_slice(&i.parts[..i.parts_len]);
    }
    if before != i {
        fail(format!("{}, {}: another word changed", NAMES[f], case));
    }
}

/// The good input is accepted; then every fault alone, and with all behind it. The numbers are printed in their order.
fn refusals(f: usize) -> usize {
    expect(f, good(f), "good", 0);
    let mut scratch = good(f);
    let faults = (0..).take_while(|k| fault(f, &mut scratch, *k) != 0).count();
    let mut numbers = Vec::new();
    for k in 0..faults {
        let mut alone = good(f);
        let number = fault(f, &mut alone, k);
        expect(f, alone, &format!("case {k}, alone"), number);
        let mut all = good(f);
        for j in (k..faults).rev() {
            fault(f, &mut all, j);
        }
        expect(f, all, &format!("case {k}, with all behind it"), number);
        numbers.push(number.to_string());
    }
    numbers.dedup();
    println!("{:<19} {:3} refusals: {}", NAMES[f], 2 * faults, numbers.join(" "));
    2 * faults
}

/// Every state of a position, with ends of unlocking at the limits: how many.
fn states() -> usize {
    // Epoch, flag, start, unlocking.
    let cases = [
        ([9, 1, MAX, 1], LOCKING), // the end is not looked at
        ([10, 0, MAX, 1], LOCKED), // nor the start
        ([MAX - 2, 1, MAX - 1, 1], PREUNLOCKING),
        ([MAX - 1, 1, MAX - 1, 1], UNLOCKING),
        ([MAX, 1, MAX - 1, 1], UNLOCKED),
        ([MAX - 1, 1, 0, MAX], UNLOCKING),
        ([MAX, 1, MAX, 0], UNLOCKED),
    ];
    for ([epoch, flag, start, unlocking], state) in cases {
        let mut i = good(POSITION_STATE);
        set_unlocking(&mut i, start, unlocking);
        (i.now, i.positions[3]) = (epoch, flag);
        let got = position_state(i.now, &i.positions[..i.positions_len], i.unlocking);
        if got != Ok([state]) {
            fail(format!("a state: {got:?} and not {}", state_name(state)));
        }
        expect(POSITION_STATE, i, "a state", 0);
    }
    cases.len()
}

/// Forecast and advance with custody below claimable: nothing is set aside, while the event is written with a y of 0, and totals roll. In the last two R
/// and claimable come to 2^64 - 1, and in the last custody covers them. A change to come of 7 goes above B's cap, so R is as in the good advance. Answers
/// how many calls were accepted.
fn drained() -> usize {
    // Claimable, custody, y', set aside.
    let cases = [
        [50_000, 49_999, 0, 0],
        [50_000, 0, 0, 0],
        [MAX - REWARDS, 0, 0, 0],
        [MAX - REWARDS, MAX, 10_000, REWARDS],
    ];
    for [claimable, custody, y, set_aside] in cases {
        let mut i = good(ADVANCE);
        (i.pool[1], i.custody, i.pool[OTHERS + 3]) = (claimable, custody, 7);
        for f in [FORECAST, ADVANCE] {
            expect(f, i.clone(), "custody and claimable", 0);
        }
        let mut words = i.pool.clone();
        (words[0], words[1], words[OTHERS + 2], words[OTHERS + 3], words[COUNT]) = (21, claimable + set_aside, 1_007, 0, 3);
        let event = [20, y, 0, 0, 0, 0, 0, 0, 0, 1_000_000, 1_000_000, 0, 0, 500_000, 0];
        words[EVENTS + 2 * EVENT..EVENTS + 3 * EVENT].copy_from_slice(&event);
        let given = Given { current_epoch: 21, y: 10_000, custody, verified: 1, caps: &i.caps[..i.caps_len], epoch_duration: 604_800 };
        let mut pool = Pool { words: &mut i.pool[..i.pool_len], p: P, e: E };
        let (said, done) = (pool.forecast(given), pool.advance(given));
        if said != Ok([set_aside]) || done != Ok([y, set_aside, 2, 0, 0]) || i.pool != words {
            fail(format!("custody {custody}, claimable {claimable}: forecast {said:?}, advance {done:?}, or another pool"));
        }
    }
    2 * cases.len()
}

/// Rewards split by weights that add up to 2^64 - 1 and less, by one weight and by 64, and each part: how many.
fn splits() -> usize {
    let (mut all, mut units) = ([1 << 58; MAX_WEIGHTS], [1; MAX_WEIGHTS]);
    (all[MAX_WEIGHTS - 1], units[MAX_WEIGHTS - 1]) = ((1 << 58) - 1, 0);
    let third = MAX / 3;
    let cases: [(&str, u64, &[u64], &[u64]); 9] = [
        ("the sum of the weights", MAX, &[HALF, HALF - 1, 0], &[HALF, HALF - 1, 0]),
        ("one less than the sum", MAX - 1, &[HALF, HALF - 1, 0], &[HALF - 1, HALF - 1, 0]), // remainders 2^63 - 1 and 2^63
        ("one unit", 1, &[1, 1, MAX - 2], &[0, 0, 1]),
        ("two units left, three equal remainders", MAX - 1, &[1, 1, 1], &[third, third, third - 1]),
        ("weights of 0", MAX, &[0, 1, 0], &[0, MAX, 0]),
        ("no reward", 0, &[4, 11, 6], &[0, 0, 0]),
        ("one weight", MAX, &[1], &[MAX]),
        ("64 weights and the sum of them", MAX, &all, &all),
        ("64 equal weights and 63 units", 63, &[1; MAX_WEIGHTS], &units),
    ];
    for (what, reward, weights, parts) in cases {
        let mut i = good(SPLIT);
        i.reward = reward;
        i.set_weights(weights);
        let mut got = vec![7_777; parts.len()];
        if split(reward, weights, &mut got) != Ok(()) || got != parts {
            fail(format!("split, {what}: {got:?}"));
        }
        expect(SPLIT, i, what, 0);
    }
    cases.len()
}

/// Input at the limits: how many were accepted.
fn limits() -> usize {
    let mut accepted = 0;
    let mut limit = |f: usize, case: &str, change: &dyn Fn(&mut Input)| {
        let mut i = good(f);
        change(&mut i);
        expect(f, i, case, 0);
        accepted += 1;
    };
    limit(FRESH, "any n", &|i| i.pool[COUNT] = MAX);
    limit(FRESH, "last epoch", &|i| i.epoch = MAX);
    limit(ADVANCE, "no rows", &|i| { i.set_rows(0); i.caps_len = 11 });
    limit(ADVANCE, "bytes behind the rows", &|i| i.caps_len = 40_971);
    limit(ADVANCE, "custody covers claimable", &|i| i.custody = 50_000);
    limit(FORECAST, "custody", &|i| i.custody = MAX);
    limit(PAYMENT, "no positions", &|i| i.positions_len = 0);
    limit(PAYMENT, "256 positions", &|i| i.positions_len = 2_304);
    limit(PAYMENT, "all that is claimable", &|i| i.pool[1] = 2_000);
    limit(PAYMENT, "no account", &|i| { i.publisher = B; i.publisher_account = None; i.custody_flag = 0 });
    limit(ADD, "highest change", &|i| i.pool[OTHERS + 1] = HALF - 6);
    limit(REMOVE, "lowest change", &|i| i.pool[OTHERS + 1] = HALF + 5);
    limit(REMOVE, "LOCKING", &|i| i.state = LOCKING);
    limit(REMOVE, "UNLOCKED", &|i| { i.state = UNLOCKED; i.pool[OTHERS + 1] = HALF });
    limit(CREATE_SLASH_EVENT, "index", &|i| { i.pool[SLASHES] = MAX - 1; i.index = MAX - 1 });
    limit(SLASH, "all of the total", &|i| i.locked = 999_995);
    limit(SLASH, "an older event", &|i| { i.event_epoch = 19; i.index = MAX - 1; i.publisher = ZERO });
    limit(FEE, "fee", &|i| i.fee = 1_000_000);
    limit(STAKE_ACCOUNT, "none", &|i| i.has_new = false);
    limit(STAKE_ACCOUNT, "first account", &|i| {
        (i.publisher, i.signer, i.has_old) = (B, AUTHORITY, false);
        set_position(&mut i.new_positions, 0, 2, 5, 0, 0, A);
    });

    // The largest pool, and the longest message: 1,024 rows take its 1,024 seats.
    let longest = |i: &mut Input| {
        i.set_rows(1_024);
        i.caps_len = 40_971;
        for row in 0..1_024 {
            i.set_row(row, [(row as u64 + 1) >> 8 | ((row as u64 + 1) & 255) << 8, 0, 0, 0], 1);
        }
    };
    limit(ADVANCE, "1,024 rows, 2 seats", &longest);
    let mut i = good(ADVANCE);
    longest(&mut i);
    let mut words = vec![0; image_len(1_024, 52)];
    let mut full = Pool { words: &mut words, p: 1_024, e: 52 };
    let given = Given { current_epoch: 21, y: 10_000, custody: 0, verified: 1, caps: &i.caps[..i.caps_len], epoch_duration: 604_800 };
    if full.fresh(21) != Ok(()) || full.words[0] != 20 || full.advance(given) != Ok([10_000, 0, 0, 1_024, 0]) || full.words[0] != 21 {
        fail("the largest pool".to_string());
    }
    accepted + 2
}

fn main() {
    let tried: usize = (0..NAMES.len()).map(refusals).sum();
    println!("{:<19} {:3} accepted", "at the limits", limits() + drained() + states() + splits());
    println!("bad_input: 12 functions, {tried} refusals, every word as it was");
}
