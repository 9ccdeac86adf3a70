//! The calls of document 01, asked of the Rust's own handlers (lib.rs), and document 02's split, of
//! which the Rust has none. Each answers its values, every one after a space.
use {
    crate::{
        accounts::{caps, context, position, positions, set_now, Held},
        derived,
        handed::{self, Pool},
        journal::{Advance, Call, Change, Payment, SetStakeAccount, Slash},
        refusal::{guard, Asked, Stop},
        site, split,
    },
    anchor_lang::{given, prelude::Pubkey},
    integrity_pool::{integrity_pool as handlers, state::delegation_record::DelegationRecord},
    publisher_caps::PublisherCaps,
    staking::state::positions::PositionState,
};

fn fields(r: &DelegationRecord) -> String {
    format!(" {} {}", r.last_epoch, r.next_slash_event_index)
}

/// initialize_pool, on zero words as Anchor hands them over.
fn fresh(pool: &Pool, epoch: u64) -> Asked<String> {
    set_now(epoch);
    site::words_mut(&mut pool.borrow_mut()).fill(0);
    let z = Pubkey::default();
    let mut a = handed::initialize_pool(pool, &z);
    guard(|| handlers::initialize_pool(context(&mut a), z, 0))?;
    Ok(String::new())
}

/// advance; answers what claimable grew by.
fn run_advance(pool: &Pool, a: &Advance, caps: &Held<PublisherCaps>) -> Asked<u64> {
    set_now(a.now);
    let z = Pubkey::default();
    let before = pool.borrow().claimable_rewards;
    let mut accounts = handed::advance(pool, a, caps, &z);
    guard(|| handlers::advance(context(&mut accounts)))?;
    let after = pool.borrow().claimable_rewards;
    Ok(after - before)
}

fn advance(pool: &Pool, a: &Advance) -> Asked<String> {
    let caps = caps(&a.caps, a.verified);
    let rows = derived::rows(&pool.borrow(), &caps.borrow());
    let aside = run_advance(pool, a, &caps)?;
    let p = pool.borrow();
    let newest = p.get_event((p.num_events - 1) as usize);
    Ok(format!(" {} {aside} {} {} {}", newest.y, rows.matched, rows.seated, rows.dropped))
}

fn forecast(pool: &Pool, a: &Advance) -> Asked<String> {
    derived::roll_sides(&mut pool.borrow_mut());
    let aside = run_advance(pool, a, &caps(&a.caps, a.verified))?;
    Ok(format!(" {aside}"))
}

/// advance_delegation_record; custody falls by what the handler's transfers take from it.
fn payment(pool: &Pool, p: &Payment) -> Asked<String> {
    set_now(p.now);
    given::FALLEN.with(|f| f.set(0));
    let z = Pubkey::default();
    let held = positions(&p.positions, z);
    let before = pool.borrow().claimable_rewards;
    let mut a = handed::advance_delegation_record(pool, p, &held, &z);
    let delegator = guard(|| handlers::advance_delegation_record(context(&mut a)))?;
    let record = fields(&a.delegation_record.inner);
    let pool = pool.borrow();
    let publisher = before - pool.claimable_rewards - delegator;
    let list = &held.borrow().positions;
    let reads = derived::reads(&pool, p.record.last_epoch, &p.publisher, list);
    let fall = given::FALLEN.with(|f| f.get());
    Ok(format!(" {delegator} {publisher}{record} {reads} {fall}"))
}

/// delegate.
fn add(pool: &Pool, c: &Change) -> Asked<String> {
    set_now(c.now);
    let z = Pubkey::default();
    let mut a = handed::delegate(pool, c, &z);
    guard(|| handlers::delegate(context(&mut a), c.amount))?;
    Ok(String::new())
}

/// The accounting step of undelegate, below its handler: document 01 makes the state an input.
fn remove(pool: &Pool, c: &Change, state: PositionState) -> Asked<String> {
    let mut p = pool.borrow_mut();
    guard(|| p.remove_delegation(&c.publisher, &c.account, c.amount, state, c.now))?;
    Ok(String::new())
}

/// create_slash_event.
fn create_slash_event(pool: &Pool, now: u64, publisher: &Pubkey, index: u64) -> Asked<String> {
    set_now(now);
    let z = Pubkey::default();
    let mut a = handed::create_slash_event(pool, publisher, &z);
    guard(|| handlers::create_slash_event(context(&mut a), index, 0))?;
    Ok(format!(" {}", a.slash_event.epoch))
}

/// slash, with the amounts that the staking program would answer.
fn slash(pool: &Pool, s: &Slash) -> Asked<String> {
    set_now(s.now);
    given::SLASHED.with(|g| g.set((s.locked, s.preunlocking)));
    let z = Pubkey::default();
    let held = positions(&[], z);
    let mut a = handed::slash(pool, s, &held, &z);
    guard(|| handlers::slash(context(&mut a), s.index))?;
    Ok(fields(&a.delegation_record.inner))
}

/// update_delegation_fee.
fn fee(pool: &Pool, fee: u64) -> Asked<String> {
    let z = Pubkey::default();
    let mut a = handed::update_delegation_fee(pool, &z);
    guard(|| handlers::update_delegation_fee(context(&mut a), fee))?;
    Ok(String::new())
}

/// set_publisher_stake_account.
fn stake_account(pool: &Pool, s: &SetStakeAccount) -> Asked<String> {
    let z = Pubkey::default();
    let old = s.old.as_ref().map(|a| (a.key, positions(&a.positions, a.owner)));
    let new = s.new.as_ref().map(|a| (a.key, positions(&a.positions, a.owner)));
    let mut a = handed::set_publisher_stake_account(pool, s, old.as_ref(), new.as_ref(), &z);
    guard(|| handlers::set_publisher_stake_account(context(&mut a)))?;
    Ok(String::new())
}

/// Position::get_current_position, of a position that is none of the pool's.
fn state(epoch: u64, words: &[u64]) -> Asked<String> {
    let p = position(words).expect("checks.rs lets no empty position pass");
    guard(|| p.get_current_position(epoch).map(|s| format!(" {s}")))
}

/// The plain function that stands for what the Rust doesn't have.
fn split(reward: u64, weights: &[u64]) -> Asked<String> {
    let mut parts = vec![0; weights.len()];
    guard(|| Ok(split::parts(reward, weights, &mut parts)))?.map_err(Stop::Number)?;
    Ok(parts.iter().map(|part| format!(" {part}")).collect())
}

/// Asks the Rust; what is left of the pool after a refusal or a forecast is the caller's to undo.
pub fn ask(pool: &Pool, call: &Call) -> Asked<String> {
    match call {
        Call::Fresh(epoch) => fresh(pool, *epoch),
        Call::Advance(a) => advance(pool, a),
        Call::Forecast(a) => forecast(pool, a),
        Call::Payment(p) => payment(pool, p),
        Call::Add(c) => add(pool, c),
        Call::Remove(c, state) => remove(pool, c, *state),
        Call::CreateSlashEvent { now, publisher, index } => {
            create_slash_event(pool, *now, publisher, *index)
        }
        Call::Slash(s) => slash(pool, s),
        Call::Fee(f) => fee(pool, *f),
        Call::StakeAccount(s) => stake_account(pool, s),
        Call::State { epoch, position } => state(*epoch, position),
        Call::Split { reward, weights } => split(*reward, weights),
    }
}
