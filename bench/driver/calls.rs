//! The calls with what they are handed; the lines in cases.rs say what is special to a case.
use {
    crate::{
        inputs::{message, positions},
        journal::{Advance, Call, Change, Payment, SetStakeAccount, Slash, StakeAccount},
        numbers::Numbers,
        original,
        pools::{claimable, publisher, stake_account, LAST, P},
    },
    anchor_lang::prelude::Pubkey,
    integrity_pool::state::delegation_record::DelegationRecord,
};

/// The seat that payments are for, and the one that is changed.
const PAID: usize = P / 2;
const CHANGED: usize = P - 1;

/// An advance over this many epochs, with a row for each of the keys, and more custody than needed.
pub fn advance(epochs: u64, keys: Vec<Pubkey>) -> Advance {
    let now = LAST + epochs;
    Advance { now, y: 10_000, custody: 1 << 62, verified: 1, caps: message(now, keys) }
}

/// The advance with custody for half of what it would set aside, so that y is lowered.
pub fn half_covered(image: &[u64], a: Advance) -> Advance {
    let custody = claimable(image) + original::set_aside(image, &a) / 2;
    Advance { custody, ..a }
}

/// A payment by the publisher in the middle seat to an account on the other side, by the record of
/// so many epochs ago; the publisher's part goes to its stake account.
pub fn payment(image: &[u64], epochs: u64, positions: Vec<u64>) -> Call {
    Call::Payment(Payment {
        now: LAST,
        publisher: publisher(image, PAID),
        account: Numbers(4).key(),
        record: DelegationRecord { last_epoch: LAST - epochs, next_slash_event_index: 0 },
        publisher_account: Some(stake_account(image, PAID)),
        custody_flag: 1,
        positions,
    })
}

/// Positions in the publisher that pays.
pub fn matching(image: &[u64], count: usize) -> Vec<u64> {
    positions(count, |_| publisher(image, PAID))
}

/// Positions in the publishers of the first seats, one each.
pub fn not_matching(image: &[u64], count: usize) -> Vec<u64> {
    positions(count, |i| publisher(image, i))
}

/// 5 for the publisher at the last seat, on the other side.
pub fn change(image: &[u64]) -> Change {
    Change {
        now: LAST,
        publisher: publisher(image, CHANGED),
        account: Numbers(4).key(),
        amount: 5,
    }
}

/// The last seat's next slash event.
pub fn create_slash_event(image: &[u64]) -> Call {
    Call::CreateSlashEvent { now: LAST, publisher: publisher(image, CHANGED), index: 3 }
}

/// 4 locked and 2 preunlocking of the last seat, by an event of the current epoch, so that it applies.
pub fn slash(image: &[u64]) -> Call {
    Call::Slash(Slash {
        now: LAST,
        publisher: publisher(image, CHANGED),
        account: Numbers(4).key(),
        record: DelegationRecord { last_epoch: LAST, next_slash_event_index: 3 },
        index: 3,
        event_epoch: LAST,
        locked: 4,
        preunlocking: 2,
    })
}

pub fn fee() -> Call {
    Call::Fee(100_000)
}

/// The last seat's account gives way to a new one of the same owner; both have these positions.
pub fn new_account(image: &[u64], positions: Vec<u64>) -> Call {
    let owner = Numbers(5).key();
    let held = |key| Some(StakeAccount { key, owner, positions: positions.clone() });
    Call::StakeAccount(SetStakeAccount {
        publisher: publisher(image, CHANGED),
        signer: owner,
        authority: Pubkey::default(),
        old: held(stake_account(image, CHANGED)),
        new: held(Numbers(6).key()),
    })
}
