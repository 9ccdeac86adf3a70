//! Document 01's checks 1 to 5: what fails them can't be asked of the Rust and is `outside`.
use {
    crate::{
        accounts,
        journal::{Advance, Call, SetStakeAccount},
        site::Site,
    },
    integrity_pool::{
        state::pool::PoolData,
        utils::clock::{time_to_epoch, EPOCH_DURATION},
    },
};

/// The Rust takes a step for each passed epoch; an advance over more of them isn't asked.
const MOST_EPOCHS: u64 = 100_000;

/// Check 1.
pub fn image(site: &Site) -> bool {
    site.pool().is_some_and(|held| held.borrow().num_events < 1 << 63)
}

/// Check 3.
pub fn message(m: &[u8]) -> bool {
    if !(11..=40_971).contains(&m.len()) {
        return false;
    }
    let rows = u16::from_be_bytes([m[9], m[10]]) as usize;
    if rows > 1_024 || m.len() < 11 + 40 * rows {
        return false;
    }
    // ascending from the zero key on, so that none is zero
    let mut last: &[u8] = &[0; 32];
    for row in m[11..].chunks_exact(40).take(rows) {
        if row[..32] <= *last {
            return false;
        }
        last = &row[..32];
    }
    true
}

/// Check 4.
fn positions(words: &[u64]) -> bool {
    let nines = words.chunks_exact(9);
    nines.remainder().is_empty()
        && nines.len() <= 256
        && nines.into_iter().all(|w| w[0] == 0 || (w[0] <= 2 && w[3] <= 1))
}

/// Check 4 of one position; an empty one has no state.
fn one_position(words: &[u64]) -> bool {
    words.len() == 9 && words[0] != 0 && positions(words)
}

/// Whether the Rust would have to step over too many epochs: only where it gets that far.
fn too_far(p: &PoolData, a: &Advance) -> bool {
    a.now.saturating_sub(p.last_updated_epoch) > MOST_EPOCHS
        && a.verified == 1
        && time_to_epoch(accounts::caps(&a.caps, 1).borrow().publish_time()) == Ok(a.now)
}

fn advance(p: &PoolData, a: &Advance) -> bool {
    EPOCH_DURATION != 0 && message(&a.caps) && a.y <= 10_000 && !too_far(p, a)
}

/// A list of an absent account isn't looked at.
fn stake_accounts(s: &SetStakeAccount) -> bool {
    [&s.old, &s.new].into_iter().flatten().all(|a| positions(&a.positions))
}

/// Whether the call passes those of checks 1 to 5 that it makes.
pub fn pass(site: &Site, call: &Call) -> bool {
    // asked of no pool
    match call {
        Call::State { position, .. } => return one_position(position),
        Call::Split { .. } => return true,
        _ => {}
    }
    let Some(held) = site.pool() else {
        return false;
    };
    // a fresh pool's n isn't looked at
    if matches!(call, Call::Fresh(_)) {
        return true;
    }
    if !image(site) {
        return false;
    }
    let pool = held.borrow();
    match call {
        Call::Advance(a) | Call::Forecast(a) => advance(&pool, a),
        Call::Payment(p) => positions(&p.positions),
        Call::StakeAccount(s) => stake_accounts(s),
        _ => true,
    }
}
