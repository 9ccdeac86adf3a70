//! The mirror's static library, and an earlier version of it where there is one: functions, and runs of them.
use {
    crate::{
        inputs::{SECONDS, UNLOCKING},
        journal::{Advance, Call, Change, Payment, SetStakeAccount, Slash, StakeAccount},
        numbers::key_words,
        pools::{E, P},
        timed::{Run, Start},
    },
    anchor_lang::prelude::Pubkey,
    std::hint::black_box,
};

/// The functions of both libraries, as values: the code that runs them is the same for both. One that came later says so, and is in neither where the
/// earlier library lacks it.
macro_rules! libraries {
    ($($(#[$later:meta])? fn $name:ident($($value:ident: $kind:ty),* $(,)?) -> u64;)*) => {
        #[derive(Clone, Copy)]
        pub struct Library {
            $($(#[$later])? $name: unsafe extern "C" fn($($kind),*) -> u64,)*
        }

        mod now {
            extern "C" { $($(#[$later])? pub fn $name($($value: $kind),*) -> u64;)* }
        }
        pub const NOW: Library = Library { $($(#[$later])? $name: now::$name,)* };

        #[cfg(before)]
        mod before {
            extern "C" { $($(#[$later])? #[link_name = concat!("before_", stringify!($name))] pub fn $name($($value: $kind),*) -> u64;)* }
        }
        #[cfg(before)]
        pub const BEFORE: Library = Library { $($(#[$later])? $name: before::$name,)* };
    };
}

#[rustfmt::skip]
libraries! {
    fn pool_mirror_fresh(pool: *mut u64, pool_len: usize, p: usize, e: usize, epoch: u64) -> u64;
    fn pool_mirror_advance(
        pool: *mut u64, pool_len: usize, p: usize, e: usize, current_epoch: u64, y: u64, custody: u64, verified: u64,
        caps: *const u8, caps_len: usize, epoch_duration: u64, answer: *mut [u64; 5],
    ) -> u64;
    fn pool_mirror_forecast(
        pool: *const u64, pool_len: usize, p: usize, e: usize, current_epoch: u64, y: u64, custody: u64, verified: u64,
        caps: *const u8, caps_len: usize, epoch_duration: u64, answer: *mut [u64; 1],
    ) -> u64;
    fn pool_mirror_payment(
        pool: *mut u64, pool_len: usize, p: usize, e: usize, current_epoch: u64, publisher: *const [u64; 4],
        account: *const [u64; 4], record: *mut [u64; 2], has_publisher_account: u64,
        publisher_account: *const [u64; 4], custody_flag: u64, positions: *const u64, positions_len: usize,
        unlocking_duration: u64, answer: *mut [u64; 4],
    ) -> u64;
    fn pool_mirror_add(
        pool: *mut u64, pool_len: usize, p: usize, e: usize, current_epoch: u64, publisher: *const [u64; 4],
        account: *const [u64; 4], amount: u64,
    ) -> u64;
    fn pool_mirror_remove(
        pool: *mut u64, pool_len: usize, p: usize, e: usize, current_epoch: u64, publisher: *const [u64; 4],
        account: *const [u64; 4], amount: u64, state: u64,
    ) -> u64;
    fn pool_mirror_create_slash_event(
        pool: *mut u64, pool_len: usize, p: usize, e: usize, current_epoch: u64, publisher: *const [u64; 4],
        index: u64, answer: *mut [u64; 1],
    ) -> u64;
    fn pool_mirror_slash(
        pool: *mut u64, pool_len: usize, p: usize, e: usize, current_epoch: u64, publisher: *const [u64; 4],
        account: *const [u64; 4], record: *mut [u64; 2], index: u64, event_epoch: u64, locked: u64,
        preunlocking: u64,
    ) -> u64;
    fn pool_mirror_fee(pool: *mut u64, pool_len: usize, p: usize, e: usize, fee: u64) -> u64;
    fn pool_mirror_stake_account(
        pool: *mut u64, pool_len: usize, p: usize, e: usize, publisher: *const [u64; 4], signer: *const [u64; 4],
        authority: *const [u64; 4], has_old: u64, old_account: *const [u64; 4], old_owner: *const [u64; 4],
        old_positions: *const u64, old_positions_len: usize, has_new: u64, new_account: *const [u64; 4],
        new_positions: *const u64, new_positions_len: usize,
    ) -> u64;
    #[cfg(not(lacks = "pool_mirror_split"))]
    fn pool_mirror_split(reward: u64, weights: *const u64, weights_len: usize, parts: *mut u64, parts_len: usize) -> u64;
}

/// The refusal's number where the call is refused.
type Asked<T> = Result<T, u64>;

fn accepted(number: u64) -> Asked<()> {
    if number == 0 { Ok(()) } else { Err(number) }
}

/// Runs of a call without values.
fn plain(from: &Start, mut call: impl FnMut(u64) -> u64) -> Asked<Run> {
    let (_, nanos) = from.timed(|j| accepted(call(j)))?;
    Ok(Run { answer: Vec::new(), nanos })
}

fn fresh(library: &Library, from: &Start, epoch: u64) -> Asked<Run> {
    let (at, len) = from.memory();
    plain(from, |_| unsafe { (library.pool_mirror_fresh)(at, len, P, E, epoch) })
}

fn advance(library: &Library, from: &Start, a: &Advance) -> Asked<Run> {
    let (at, len) = from.memory();
    let caps = a.caps.clone();
    let mut answer = [0; 5];
    let (_, nanos) = from.timed(|_| {
        accepted(unsafe {
            (library.pool_mirror_advance)(
                at, len, P, E, a.now, a.y, a.custody, a.verified, caps.as_ptr(), caps.len(), SECONDS,
                &mut answer,
            )
        })
    })?;
    Ok(Run { answer: answer.to_vec(), nanos })
}

fn forecast(library: &Library, from: &Start, a: &Advance) -> Asked<Run> {
    let (at, len) = from.memory();
    let caps = a.caps.clone();
    let mut answer = [0; 1];
    let (_, nanos) = from.timed(|_| {
        accepted(unsafe {
            (library.pool_mirror_forecast)(
                at, len, P, E, a.now, a.y, a.custody, a.verified, caps.as_ptr(), caps.len(), SECONDS,
                &mut answer,
            )
        })
    })?;
    Ok(Run { answer: answer.to_vec(), nanos })
}

fn payment(library: &Library, from: &Start, q: &Payment) -> Asked<Run> {
    let (at, len) = from.memory();
    let (publisher, account) = (key_words(&q.publisher), key_words(&q.account));
    let has_paid_to = q.publisher_account.is_some() as u64;
    let paid_to = key_words(&q.publisher_account.unwrap_or_default());
    let found = [q.record.last_epoch, q.record.next_slash_event_index];
    let positions = q.positions.clone();
    let (mut record, mut answer) = (found, [0; 4]);
    let (_, nanos) = from.timed(|_| {
        record = found;
        accepted(unsafe {
            (library.pool_mirror_payment)(
                at, len, P, E, q.now, &publisher, &account, &mut record, has_paid_to, &paid_to,
                q.custody_flag, positions.as_ptr(), positions.len(), UNLOCKING, &mut answer,
            )
        })
    })?;
    let [delegator, publisher, fall, reads] = answer;
    Ok(Run { answer: vec![delegator, publisher, record[0], record[1], reads, fall], nanos })
}

fn add(library: &Library, from: &Start, c: &Change) -> Asked<Run> {
    let (at, len) = from.memory();
    let (publisher, account) = (key_words(&c.publisher), key_words(&c.account));
    plain(from, |_| unsafe {
        (library.pool_mirror_add)(at, len, P, E, c.now, &publisher, &account, c.amount)
    })
}

fn remove(library: &Library, from: &Start, c: &Change, state: u64) -> Asked<Run> {
    let (at, len) = from.memory();
    let (publisher, account) = (key_words(&c.publisher), key_words(&c.account));
    plain(from, |_| unsafe {
        (library.pool_mirror_remove)(at, len, P, E, c.now, &publisher, &account, c.amount, state)
    })
}

/// Each call of a run takes the next index.
fn create_slash_event(
    library: &Library,
    from: &Start,
    now: u64,
    publisher: &Pubkey,
    index: u64,
) -> Asked<Run> {
    let (at, len) = from.memory();
    let publisher = key_words(publisher);
    let mut answer = [0; 1];
    let (_, nanos) = from.timed(|j| {
        accepted(unsafe {
            (library.pool_mirror_create_slash_event)(
                at, len, P, E, now, &publisher, index + j, &mut answer,
            )
        })
    })?;
    Ok(Run { answer: answer.to_vec(), nanos })
}

/// Each call of a run takes the next index, with the record that the one before left.
fn slash(library: &Library, from: &Start, s: &Slash) -> Asked<Run> {
    let (at, len) = from.memory();
    let (publisher, account) = (key_words(&s.publisher), key_words(&s.account));
    let mut record = [s.record.last_epoch, s.record.next_slash_event_index];
    let (_, nanos) = from.timed(|j| {
        accepted(unsafe {
            (library.pool_mirror_slash)(
                at, len, P, E, s.now, &publisher, &account, &mut record, s.index + j,
                s.event_epoch, s.locked, s.preunlocking,
            )
        })
    })?;
    Ok(Run { answer: record.to_vec(), nanos })
}

fn fee(library: &Library, from: &Start, fee: u64) -> Asked<Run> {
    let (at, len) = from.memory();
    plain(from, |_| unsafe { (library.pool_mirror_fee)(at, len, P, E, fee) })
}

/// Every other call of a run changes the accounts back.
fn stake_account(library: &Library, from: &Start, s: &SetStakeAccount) -> Asked<Run> {
    let (at, len) = from.memory();
    let [publisher, signer, authority] = [&s.publisher, &s.signer, &s.authority].map(key_words);
    let words = |a: &Option<StakeAccount>| {
        let a = a.as_ref().expect("both accounts are given");
        (key_words(&a.key), key_words(&a.owner), a.positions.clone())
    };
    let accounts = [words(&s.old), words(&s.new)];
    plain(from, |j| {
        let old = &accounts[(j % 2) as usize];
        let new = &accounts[(1 - j % 2) as usize];
        unsafe {
            (library.pool_mirror_stake_account)(
                at, len, P, E, &publisher, &signer, &authority, 1, &old.0, &old.1, old.2.as_ptr(),
                old.2.len(), 1, &new.0, new.2.as_ptr(), new.2.len(),
            )
        }
    })
}

/// Each call of a run has the weights begin with the next client.
#[cfg(not(lacks = "pool_mirror_split"))]
fn split(library: &Library, from: &Start, reward: u64, weights: &[u64]) -> Asked<Run> {
    let (turning, mut parts) = (crate::inputs::turning(weights, from.calls), weights.to_vec());
    let (_, nanos) = from.timed(|j| {
        let weights = &turning[j as usize..][..weights.len()];
        accepted(unsafe {
            (library.pool_mirror_split)(reward, weights.as_ptr(), weights.len(), parts.as_mut_ptr(), parts.len())
        })
    })?;
    Ok(Run { answer: parts, nanos })
}

/// Calls in a row. Of two libraries the functions are read from the same place; one alone is called directly.
pub fn run(library: &Library, from: &Start, call: &Call) -> Asked<Run> {
    let library = if cfg!(before) { &black_box(*library) } else { &NOW };
    match call {
        Call::Fresh(epoch) => fresh(library, from, *epoch),
        Call::Advance(a) => advance(library, from, a),
        Call::Forecast(a) => forecast(library, from, a),
        Call::Payment(q) => payment(library, from, q),
        Call::Add(c) => add(library, from, c),
        Call::Remove(c, state) => remove(library, from, c, *state as u64),
        Call::CreateSlashEvent { now, publisher, index } => {
            create_slash_event(library, from, *now, publisher, *index)
        }
        Call::Slash(s) => slash(library, from, s),
        Call::Fee(f) => fee(library, from, *f),
        Call::StakeAccount(s) => stake_account(library, from, s),
        #[cfg(not(lacks = "pool_mirror_split"))]
        Call::Split { reward, weights } => split(library, from, *reward, weights),
        #[cfg(lacks = "pool_mirror_split")]
        Call::Split { .. } => unreachable!("no case asks for what the earlier library lacks"),
        Call::State { .. } => unreachable!("no case asks for a position's state: it is no call on a pool"),
    }
}
