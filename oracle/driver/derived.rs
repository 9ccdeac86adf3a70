//! The figures that only document 01 has. The Rust does not hand them out; they are worked out
//! here from document 01's words, and nowhere else.
use {
    anchor_lang::prelude::Pubkey,
    integrity_pool::{
        state::pool::{DelegationState, PoolData},
        utils::constants::{MAX_EVENTS, MAX_PUBLISHERS},
    },
    publisher_caps::PublisherCaps,
    staking::state::positions::{Position, TargetWithParameters},
    std::collections::HashSet,
};

/// Rows marked as matched, rows that take a seat, rows dropped.
pub struct Rows {
    pub matched: usize,
    pub seated:  usize,
    pub dropped: usize,
}

/// Seats count up to the first zero key.
fn seats(p: &PoolData) -> usize {
    p.publishers.iter().take_while(|k| **k != Pubkey::default()).count()
}

/// What becomes of the rows in an advance from this pool.
pub fn rows(p: &PoolData, caps: &PublisherCaps) -> Rows {
    let occupied = seats(p);
    let seated_keys: HashSet<&Pubkey> = p.publishers[..occupied].iter().collect();
    let matched = caps.caps().iter().filter(|r| seated_keys.contains(&r.pubkey)).count();
    let unmatched = caps.caps().len() - matched;
    let seated = unmatched.min(MAX_PUBLISHERS - occupied);
    Rows { matched, seated, dropped: unmatched - seated }
}

/// Events that the walks of a payment read, the one too old included.
pub fn reads(p: &PoolData, from_epoch: u64, publisher: &Pubkey, all: &[Option<Position>]) -> u64 {
    let target = TargetWithParameters::IntegrityPool { publisher: *publisher };
    let matching = all.iter().flatten().filter(|q| q.target_with_parameters == target).count();
    let mut walk = 0;
    for back in 1..=p.num_events.min(MAX_EVENTS as u64) {
        walk += 1;
        let slot = (p.num_events - back) % MAX_EVENTS as u64;
        if p.events[slot as usize].epoch < from_epoch {
            break;
        }
    }
    matching as u64 * walk
}

fn rolled(side: &DelegationState) -> Option<DelegationState> {
    let total = i64::try_from(side.total_delegation).ok()?.checked_add(side.delta_delegation)?;
    Some(DelegationState { total_delegation: total.try_into().ok()?, delta_delegation: 0 })
}

/// The pool of which a forecast asks the Rust's advance: each occupied seat's sides rolled, so that
/// the first passed epoch counts at the rolled totals too. Where one of them doesn't fit, the pool
/// stays: the advance itself then ends in 13 at the latest.
pub fn roll_sides(p: &mut PoolData) {
    let occupied = seats(p);
    let other: Option<Vec<_>> = p.del_state[..occupied].iter().map(rolled).collect();
    let own: Option<Vec<_>> = p.self_del_state[..occupied].iter().map(rolled).collect();
    if let (Some(other), Some(own)) = (other, own) {
        p.del_state[..occupied].copy_from_slice(&other);
        p.self_del_state[..occupied].copy_from_slice(&own);
    }
}
