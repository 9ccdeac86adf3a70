//! The pool mirror from Rust, without unsafe code in the caller. include/pool_mirror.h says what each call takes, answers and refuses.
//!
//! Rust's borrows keep what the header asks of a caller: lists with their lengths, nothing NULL, no overlap, no other writer.

/// The words of a key: 32 bytes, little-endian.
pub type Key = [u64; 4];

/// A call's answer, or the refusal's number, 1 to 29.
pub type Answer<const N: usize> = Result<[u64; N], u64>;

/// The states of a position.
pub const UNLOCKED: u64 = 0;
pub const LOCKING: u64 = 1;
pub const LOCKED: u64 = 2;
pub const PREUNLOCKING: u64 = 3;
pub const UNLOCKING: u64 = 4;

pub fn state_name(state: u64) -> &'static str {
    match state {
        UNLOCKED => "UNLOCKED",
        LOCKING => "LOCKING",
        LOCKED => "LOCKED",
        PREUNLOCKING => "PREUNLOCKING",
        UNLOCKING => "UNLOCKING",
        _ => "no state",
    }
}

/// The length of an image with p seats and e events.
pub const fn image_len(p: usize, e: usize) -> usize {
    3 + 14 * p + e * (9 + 3 * p)
}

/// A split has at most so many weights.
pub const MAX_WEIGHTS: usize = 64;

/// A pool's words with its numbers of seats and events.
pub struct Pool<'a> {
    pub words: &'a mut [u64],
    pub p: usize,
    pub e: usize,
}

/// What an advance and a forecast are given.
#[derive(Clone, Copy)]
pub struct Given<'a> {
    pub current_epoch: u64,
    pub y: u64,
    pub custody: u64,
    pub verified: u64,
    pub caps: &'a [u8],
    pub epoch_duration: u64,
}

/// An account with its owner and positions.
#[derive(Clone, Copy)]
pub struct Account<'a> {
    pub key: Key,
    pub owner: Key,
    pub positions: &'a [u64],
}

mod raw {
    extern "C" {
        pub fn pool_mirror_fresh(pool: *mut u64, pool_len: usize, p: usize, e: usize, epoch: u64) -> u64;
        pub fn pool_mirror_advance(
            pool: *mut u64, pool_len: usize, p: usize, e: usize, current_epoch: u64, y: u64, custody: u64, verified: u64, caps: *const u8,
            caps_len: usize, epoch_duration: u64, answer: *mut [u64; 5],
        ) -> u64;
        pub fn pool_mirror_forecast(
            pool: *const u64, pool_len: usize, p: usize, e: usize, current_epoch: u64, y: u64, custody: u64, verified: u64, caps: *const u8,
            caps_len: usize, epoch_duration: u64, answer: *mut [u64; 1],
        ) -> u64;
        pub fn pool_mirror_payment(
            pool: *mut u64, pool_len: usize, p: usize, e: usize, current_epoch: u64, publisher: *const [u64; 4], account: *const [u64; 4],
            record: *mut [u64; 2], has_publisher_account: u64, publisher_account: *const [u64; 4], custody_flag: u64, positions: *const u64,
            positions_len: usize, unlocking_duration: u64, answer: *mut [u64; 4],
        ) -> u64;
        pub fn pool_mirror_add(
            pool: *mut u64, pool_len: usize, p: usize, e: usize, current_epoch: u64, publisher: *const [u64; 4], account: *const [u64; 4], amount: u64,
        ) -> u64;
        pub fn pool_mirror_remove(
            pool: *mut u64, pool_len: usize, p: usize, e: usize, current_epoch: u64, publisher: *const [u64; 4], account: *const [u64; 4], amount: u64,
            state: u64,
        ) -> u64;
        pub fn pool_mirror_position_state(
            epoch: u64, position: *const u64, position_len: usize, unlocking_duration: u64, answer: *mut [u64; 1],
        ) -> u64;
        pub fn pool_mirror_create_slash_event(
            pool: *mut u64, pool_len: usize, p: usize, e: usize, current_epoch: u64, publisher: *const [u64; 4], index: u64, answer: *mut [u64; 1],
        ) -> u64;
        pub fn pool_mirror_slash(
            pool: *mut u64, pool_len: usize, p: usize, e: usize, current_epoch: u64, publisher: *const [u64; 4], account: *const [u64; 4],
            record: *mut [u64; 2], index: u64, event_epoch: u64, locked: u64, preunlocking: u64,
        ) -> u64;
        pub fn pool_mirror_fee(pool: *mut u64, pool_len: usize, p: usize, e: usize, fee: u64) -> u64;
        pub fn pool_mirror_stake_account(
            pool: *mut u64, pool_len: usize, p: usize, e: usize, publisher: *const [u64; 4], signer: *const [u64; 4], authority: *const [u64; 4],
            has_old: u64, old_account: *const [u64; 4], old_owner: *const [u64; 4], old_positions: *const u64, old_positions_len: usize, has_new: u64,
            new_account: *const [u64; 4], new_positions: *const u64, new_positions_len: usize,
        ) -> u64;
        pub fn pool_mirror_split(reward: u64, weights: *const u64, weights_len: usize, parts: *mut u64, parts_len: usize) -> u64;
    }
}

/// The answer's words before a call. A refused call leaves them.
const BEFORE: u64 = 0x5555_5555_5555_5555;

fn answered<const N: usize>(number: u64, answer: [u64; N]) -> Answer<N> {
    if number == 0 {
        return Ok(answer);
    }
    assert_eq!(answer, [BEFORE; N], "a refused call left another answer");
    Err(number)
}

fn done(number: u64) -> Result<(), u64> {
    if number == 0 {
        Ok(())
    } else {
        Err(number)
    }
}

/// The state of one position, which is what `remove` takes. Of no pool.
pub fn position_state(epoch: u64, position: &[u64], unlocking_duration: u64) -> Answer<1> {
    let mut answer = [BEFORE; 1];
    let number = unsafe { raw::pool_mirror_position_state(epoch, position.as_ptr(), position.len(), unlocking_duration, &mut answer) };
    answered(number, answer)
}

/// Each client's part of a reward by its weight, to the smallest unit: as many parts as weights, in their order. Of no pool. Refused with 28 for more than
/// MAX_WEIGHTS weights or another number of parts, 13 for a sum of the weights past 64 bits, 29 for a sum of 0; the parts are then as they were.
pub fn split(reward: u64, weights: &[u64], parts: &mut [u64]) -> Result<(), u64> {
    done(unsafe { raw::pool_mirror_split(reward, weights.as_ptr(), weights.len(), parts.as_mut_ptr(), parts.len()) })
}

impl Pool<'_> {
    pub fn fresh(&mut self, epoch: u64) -> Result<(), u64> {
        done(unsafe { raw::pool_mirror_fresh(self.words.as_mut_ptr(), self.words.len(), self.p, self.e, epoch) })
    }

    /// y', the amount set aside, rows matched, seated and dropped.
    pub fn advance(&mut self, g: Given) -> Answer<5> {
        let mut answer = [BEFORE; 5];
        let number = unsafe {
            raw::pool_mirror_advance(
                self.words.as_mut_ptr(), self.words.len(), self.p, self.e, g.current_epoch, g.y, g.custody, g.verified, g.caps.as_ptr(),
                g.caps.len(), g.epoch_duration, &mut answer,
            )
        };
        answered(number, answer)
    }

    /// What that would set aside, every passed epoch at the totals with their changes.
    pub fn forecast(&self, g: Given) -> Answer<1> {
        let mut answer = [BEFORE; 1];
        let number = unsafe {
            raw::pool_mirror_forecast(
                self.words.as_ptr(), self.words.len(), self.p, self.e, g.current_epoch, g.y, g.custody, g.verified, g.caps.as_ptr(), g.caps.len(),
                g.epoch_duration, &mut answer,
            )
        };
        answered(number, answer)
    }

    /// The delegator's part, the publisher's part, by how much custody falls, how many events were read.
    pub fn payment(
        &mut self, now: u64, publisher: &Key, account: &Key, record: &mut [u64; 2], publisher_account: Option<&Key>, custody_flag: u64,
        positions: &[u64], unlocking_duration: u64,
    ) -> Answer<4> {
        let mut answer = [BEFORE; 4];
        let number = unsafe {
            raw::pool_mirror_payment(
                self.words.as_mut_ptr(), self.words.len(), self.p, self.e, now, publisher, account, record, publisher_account.is_some().into(),
                publisher_account.unwrap_or(&[0; 4]), custody_flag, positions.as_ptr(), positions.len(), unlocking_duration, &mut answer,
            )
        };
        answered(number, answer)
    }

    pub fn add(&mut self, now: u64, publisher: &Key, account: &Key, amount: u64) -> Result<(), u64> {
        done(unsafe { raw::pool_mirror_add(self.words.as_mut_ptr(), self.words.len(), self.p, self.e, now, publisher, account, amount) })
    }

    pub fn remove(&mut self, now: u64, publisher: &Key, account: &Key, amount: u64, state: u64) -> Result<(), u64> {
        done(unsafe { raw::pool_mirror_remove(self.words.as_mut_ptr(), self.words.len(), self.p, self.e, now, publisher, account, amount, state) })
    }

    /// The slash event's epoch.
    pub fn create_slash_event(&mut self, now: u64, publisher: &Key, index: u64) -> Answer<1> {
        let mut answer = [BEFORE; 1];
        let number = unsafe {
            raw::pool_mirror_create_slash_event(self.words.as_mut_ptr(), self.words.len(), self.p, self.e, now, publisher, index, &mut answer)
        };
        answered(number, answer)
    }

    pub fn slash(
        &mut self, now: u64, publisher: &Key, account: &Key, record: &mut [u64; 2], index: u64, event_epoch: u64, locked: u64, preunlocking: u64,
    ) -> Result<(), u64> {
        done(unsafe {
            raw::pool_mirror_slash(
                self.words.as_mut_ptr(), self.words.len(), self.p, self.e, now, publisher, account, record, index, event_epoch, locked, preunlocking,
            )
        })
    }

    pub fn fee(&mut self, fee: u64) -> Result<(), u64> {
        done(unsafe { raw::pool_mirror_fee(self.words.as_mut_ptr(), self.words.len(), self.p, self.e, fee) })
    }

    /// The owner of the new account makes no difference.
    pub fn stake_account(
        &mut self, publisher: &Key, signer: &Key, authority: &Key, old: Option<Account>, new: Option<Account>,
    ) -> Result<(), u64> {
        let absent = Account { key: [0; 4], owner: [0; 4], positions: &[] };
        let (has_old, has_new) = (old.is_some(), new.is_some());
        let (old, new) = (old.unwrap_or(absent), new.unwrap_or(absent));
        done(unsafe {
            raw::pool_mirror_stake_account(
                self.words.as_mut_ptr(), self.words.len(), self.p, self.e, publisher, signer, authority, has_old.into(), &old.key, &old.owner,
                old.positions.as_ptr(), old.positions.len(), has_new.into(), &new.key, new.positions.as_ptr(), new.positions.len(),
            )
        })
    }
}
