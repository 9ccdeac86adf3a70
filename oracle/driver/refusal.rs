//! From the Rust's errors and panics to document 01's numbers.
use {
    anchor_lang::prelude::Result,
    std::{
        cell::{Cell, RefCell},
        panic::{catch_unwind, AssertUnwindSafe, PanicHookInfo},
        time::Instant,
    },
};

/// How a call ended that was not accepted.
pub enum Stop {
    Number(u32),
    /// Neither the error's name nor the panic's place decides a number: what it was.
    Undecided(String),
}

pub type Asked<T> = std::result::Result<T, Stop>;

struct Panic {
    file:    String,
    line:    u32,
    message: String,
}

thread_local! {
    static LAST_PANIC: RefCell<Option<Panic>> = const { RefCell::new(None) };
    static GUARDED: Cell<bool> = const { Cell::new(false) };
    static NANOS: Cell<u64> = const { Cell::new(0) };
}

fn number_of_error(name: &str) -> Option<u32> {
    Some(match name {
        "InvalidDelegationFee" => 6,
        "UnverifiedPublisherCaps" => 7,
        "PoolDataAlreadyUpToDate" => 8,
        "OutdatedPublisherCaps" => 9,
        "InvalidPublisher" => 10,
        "PublisherNotFound" => 11,
        "OutdatedPublisherAccounting" => 12,
        "TryFromIntError" => 13,
        "UnexpectedPositionState" => 15,
        "PublisherStakeAccountMismatch" => 17,
        "PublisherCustodyAccountRequired" => 18,
        "OutdatedDelegatorAccounting" => 19,
        "WrongSlashEventOrder" => 20,
        "InvalidSlashEventIndex" => 21,
        // of the handlers that are called, only `slash` gives it
        "ThisCodeShouldBeUnreachable" => 22,
        "PublisherOrRewardAuthorityNeedsToSign" => 23,
        "CurrentStakeAccountShouldBeUndelegated" => 24,
        "StakeAccountOwnerNeedsToSign" => 25,
        "AccountNotEnoughKeys" => 26,
        "NewStakeAccountShouldBeUndelegated" => 27,
        _ => return None,
    })
}

/// The lines named here are the sources' own; prepare.py makes sure of what stands on them.
fn number_of_panic(p: &Panic) -> Option<u32> {
    let below_zero = p.message == "attempt to subtract with overflow";
    let overflow = below_zero
        || p.message == "attempt to add with overflow"
        || p.message == "attempt to multiply with overflow";
    match (p.file.as_str(), p.line) {
        ("integrity_pool/src/lib.rs", 50) if below_zero => Some(2),
        ("integrity_pool/src/state/pool.rs", 377) if below_zero => Some(14),
        ("integrity_pool/src/lib.rs", 327) if below_zero => Some(16),
        (f, _) if f.starts_with("integrity_pool/") || f.starts_with("staking/") => {
            overflow.then_some(13)
        }
        _ => None,
    }
}

fn stop_of_panic() -> Stop {
    let Some(p) = LAST_PANIC.with(|p| p.borrow_mut().take()) else {
        return Stop::Undecided("a panic without a place".to_string());
    };
    match number_of_panic(&p) {
        Some(n) => Stop::Number(n),
        None => Stop::Undecided(format!("panic at {}:{}, {}", p.file, p.line, p.message)),
    }
}

/// Runs a piece of the Rust, timed, with its panics caught.
pub fn guard<R>(f: impl FnOnce() -> Result<R>) -> Asked<R> {
    GUARDED.with(|g| g.set(true));
    let start = Instant::now();
    let r = catch_unwind(AssertUnwindSafe(f));
    let nanos = start.elapsed().as_nanos() as u64;
    GUARDED.with(|g| g.set(false));
    NANOS.with(|n| n.set(nanos));
    match r {
        Ok(Ok(v)) => Ok(v),
        Ok(Err(e)) => Err(match number_of_error(&e.name) {
            Some(n) => Stop::Number(n),
            None => Stop::Undecided(format!("error {}", e.name)),
        }),
        Err(_) => Err(stop_of_panic()),
    }
}

/// How long the last guarded piece took.
pub fn nanos() -> u64 {
    NANOS.with(|n| n.get())
}

fn note_panic(info: &PanicHookInfo) {
    let text = info.payload();
    let message = match (text.downcast_ref::<&str>(), text.downcast_ref::<String>()) {
        (Some(s), _) => s.to_string(),
        (_, Some(s)) => s.clone(),
        _ => String::new(),
    };
    let (file, line) = info.location().map_or(("", 0), |l| (l.file(), l.line()));
    if !GUARDED.with(|g| g.get()) {
        eprintln!("oracle: a fault of the driver at {file}:{line}, {message}");
    }
    let file = file.to_string();
    LAST_PANIC.with(|p| *p.borrow_mut() = Some(Panic { file, line, message }));
}

/// A panic of the Rust is an answer: noted, not printed.
pub fn install_hook() {
    std::panic::set_hook(Box::new(note_panic));
}
