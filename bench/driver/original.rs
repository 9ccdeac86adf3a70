//! The original Rust: runs of its handlers (lib.rs), each handed what the oracle hands it
//! (oracle/driver/handed.rs). What a handler is handed is made before the time taken.
use {
    crate::{
        accounts::{caps, context, positions, set_now},
        derived,
        handed,
        inputs::turning,
        journal::{Advance, Call, Change, Payment, SetStakeAccount, Slash, StakeAccount},
        pools::{words, words_mut},
        refusal::{guard, Asked, Stop},
        split,
        timed::{memory, Run, Start},
    },
    anchor_lang::{given, prelude::Pubkey},
    integrity_pool::{integrity_pool as handlers, state::delegation_record::DelegationRecord},
    staking::state::positions::PositionState,
    std::hint::black_box,
};

fn plain(nanos: u64) -> Run {
    Run { answer: Vec::new(), nanos }
}

/// initialize_pool is handed zero words. The mirror's call writes them, so here it is timed too.
fn fresh(from: &Start, epoch: u64) -> Asked<Run> {
    set_now(epoch);
    let z = Pubkey::default();
    let mut a = handed::initialize_pool(from.pool, &z);
    let (_, nanos) = guard(|| {
        from.timed(|_| {
            words_mut(&mut from.pool.borrow_mut()).fill(0);
            handlers::initialize_pool(context(&mut a), z, 0)
        })
    })?;
    Ok(plain(nanos))
}

/// The rows' counts are not the Rust's: the oracle works them out, outside the time taken.
fn advance(from: &Start, a: &Advance) -> Asked<Run> {
    set_now(a.now);
    let z = Pubkey::default();
    let caps = caps(&a.caps, a.verified);
    let rows = derived::rows(&from.pool.borrow(), &caps.borrow());
    let before = from.pool.borrow().claimable_rewards;
    let mut accounts = handed::advance(from.pool, a, &caps, &z);
    let (_, nanos) = guard(|| from.timed(|_| handlers::advance(context(&mut accounts))))?;
    let p = from.pool.borrow();
    let y = p.get_event((p.num_events - 1) as usize).y;
    let aside = p.claimable_rewards - before;
    let counts = [rows.matched, rows.seated, rows.dropped].map(|n| n as u64);
    Ok(Run { answer: [&[y, aside], &counts[..]].concat(), nanos })
}

/// What an advance from this image sets aside.
pub fn set_aside(image: &[u64], a: &Advance) -> u64 {
    let start = Start { pool: &memory(), image, calls: 1 };
    start.put_back();
    advance(&start, a).ok().expect("an advance that is accepted").answer[1]
}

/// The Rust has none. Its advance is timed, and then asked of the pool with its sides rolled, as the
/// oracle does.
fn forecast(from: &Start, a: &Advance) -> Asked<Run> {
    let Run { nanos, .. } = advance(from, a)?;
    from.put_back();
    derived::roll_sides(&mut from.pool.borrow_mut());
    let image = words(&from.pool.borrow()).to_vec();
    let rolled = advance(&Start { image: &image, ..*from }, a)?;
    from.put_back();
    Ok(Run { answer: vec![rolled.answer[1]], nanos })
}

/// advance_delegation_record. All calls of a run pay the same, each from the record as given.
fn payment(from: &Start, q: &Payment) -> Asked<Run> {
    set_now(q.now);
    let z = Pubkey::default();
    let held = positions(&q.positions, z);
    let before = from.pool.borrow().claimable_rewards;
    let mut a = handed::advance_delegation_record(from.pool, q, &held, &z);
    let (delegator, nanos) = guard(|| {
        from.timed(|_| {
            a.delegation_record.inner.last_epoch = q.record.last_epoch;
            handlers::advance_delegation_record(context(&mut a))
        })
    })?;
    let DelegationRecord { last_epoch, next_slash_event_index, .. } = a.delegation_record.inner;
    let p = from.pool.borrow();
    let both = (before - p.claimable_rewards) / from.calls;
    let list = &held.borrow().positions;
    let reads = derived::reads(&p, q.record.last_epoch, &q.publisher, list);
    let fall = if q.publisher_account.is_some() { both } else { delegator };
    let answer = vec![delegator, both - delegator, last_epoch, next_slash_event_index, reads, fall];
    Ok(Run { answer, nanos })
}

/// delegate.
fn add(from: &Start, c: &Change) -> Asked<Run> {
    set_now(c.now);
    let z = Pubkey::default();
    let mut a = handed::delegate(from.pool, c, &z);
    let (_, nanos) = guard(|| {
        from.timed(|_| handlers::delegate(context(&mut a), black_box(c.amount)))
    })?;
    Ok(plain(nanos))
}

/// Below its handler, as in the oracle: the state is an input.
fn remove(from: &Start, c: &Change, state: PositionState) -> Asked<Run> {
    let (_, nanos) = guard(|| {
        from.timed(|_| {
            let mut p = from.pool.borrow_mut();
            p.remove_delegation(&c.publisher, &c.account, c.amount, state, c.now)
        })
    })?;
    Ok(plain(nanos))
}

/// Each call of a run takes the next index.
fn create_slash_event(
    from: &Start,
    now: u64,
    publisher: &Pubkey,
    index: u64,
) -> Asked<Run> {
    set_now(now);
    let z = Pubkey::default();
    let mut a = handed::create_slash_event(from.pool, publisher, &z);
    let (_, nanos) = guard(|| {
        from.timed(|j| handlers::create_slash_event(context(&mut a), index + j, 0))
    })?;
    Ok(Run { answer: vec![a.slash_event.epoch], nanos })
}

/// Each call of a run takes the next index, with the record that the one before left.
fn slash(from: &Start, s: &Slash) -> Asked<Run> {
    set_now(s.now);
    given::SLASHED.with(|g| g.set((s.locked, s.preunlocking)));
    let z = Pubkey::default();
    let held = positions(&[], z);
    let mut a = handed::slash(from.pool, s, &held, &z);
    let (_, nanos) = guard(|| from.timed(|j| handlers::slash(context(&mut a), s.index + j)))?;
    let DelegationRecord { last_epoch, next_slash_event_index, .. } = a.delegation_record.inner;
    Ok(Run { answer: vec![last_epoch, next_slash_event_index], nanos })
}

/// update_delegation_fee.
fn fee(from: &Start, fee: u64) -> Asked<Run> {
    let z = Pubkey::default();
    let mut a = handed::update_delegation_fee(from.pool, &z);
    let (_, nanos) = guard(|| {
        from.timed(|_| handlers::update_delegation_fee(context(&mut a), black_box(fee)))
    })?;
    Ok(plain(nanos))
}

/// set_publisher_stake_account. Every other call of a run changes the accounts back.
fn stake_account(from: &Start, s: &SetStakeAccount) -> Asked<Run> {
    let z = Pubkey::default();
    let held = |a: &Option<StakeAccount>| {
        let a = a.as_ref().expect("both accounts are given");
        (a.key, positions(&a.positions, a.owner))
    };
    let (old, new) = (held(&s.old), held(&s.new));
    let mut there = handed::set_publisher_stake_account(from.pool, s, Some(&old), Some(&new), &z);
    let mut back = handed::set_publisher_stake_account(from.pool, s, Some(&new), Some(&old), &z);
    let (_, nanos) = guard(|| {
        from.timed(|j| {
            let a = if j % 2 == 0 { &mut there } else { &mut back };
            handlers::set_publisher_stake_account(context(a))
        })
    })?;
    Ok(plain(nanos))
}

/// The Rust has none: a plain function stands for it. Each call of a run has the weights begin with the next client.
fn split(from: &Start, reward: u64, weights: &[u64]) -> Asked<Run> {
    let (turning, mut parts) = (turning(weights, from.calls), weights.to_vec());
    let timed = guard(|| {
        Ok(from.timed(|j| {
            split::parts(black_box(reward), &turning[j as usize..][..weights.len()], black_box(&mut parts))
        }))
    })?;
    let (_, nanos) = timed.map_err(Stop::Number)?;
    Ok(Run { answer: parts, nanos })
}

/// Calls in a row. The pool is as they find it already, for what is worked out beside them.
pub fn run(from: &Start, call: &Call) -> Asked<Run> {
    match call {
        Call::Fresh(epoch) => fresh(from, *epoch),
        Call::Advance(a) => advance(from, a),
        Call::Forecast(a) => forecast(from, a),
        Call::Payment(q) => payment(from, q),
        Call::Add(c) => add(from, c),
        Call::Remove(c, state) => remove(from, c, *state),
        Call::CreateSlashEvent { now, publisher, index } => {
            create_slash_event(from, *now, publisher, *index)
        }
        Call::Slash(s) => slash(from, s),
        Call::Fee(f) => fee(from, *f),
        Call::StakeAccount(s) => stake_account(from, s),
        Call::Split { reward, weights } => split(from, *reward, weights),
        Call::State { .. } => unreachable!("no case asks for a position's state: it is no call on a pool"),
    }
}
