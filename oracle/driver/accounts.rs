//! What the Rust is handed: accounts, the clock, a caps account, positions.
use {
    anchor_lang::{given, prelude::*, AllBumps, Bumps},
    anchor_spl::token::TokenAccount,
    integrity_pool::state::{pool::PoolConfig, slash::SlashEvent},
    publisher_caps::PublisherCaps,
    staking::state::positions::{Position, PositionData, TargetWithParameters},
    std::{
        alloc::{alloc_zeroed, handle_alloc_error, Layout},
        cell::RefCell,
        marker::PhantomData,
    },
};

/// A lent account's content, as the stand-in for AccountLoader holds it.
pub type Held<T> = RefCell<Box<T>>;

/// Zero memory as a value, without a copy of it on the stack.
///
/// # Safety
/// T is plain data, for which zero bytes are a value.
pub unsafe fn zeroed<T>() -> Box<T> {
    let layout = Layout::new::<T>();
    let at = alloc_zeroed(layout) as *mut T;
    if at.is_null() {
        handle_alloc_error(layout);
    }
    Box::from_raw(at)
}

pub fn set_now(epoch: u64) {
    given::EPOCH.with(|e| e.set(epoch));
}

pub fn info(key: &Pubkey) -> AccountInfo<'_> {
    AccountInfo { key }
}

pub fn signer(key: &Pubkey) -> Signer<'_> {
    Signer { info: info(key) }
}

pub fn program<T>(key: &Pubkey) -> Program<'_, T> {
    Program { info: info(key), kind: PhantomData }
}

pub fn account<T>(key: &Pubkey, inner: T) -> Account<'_, T> {
    Account { info: info(key), inner }
}

pub fn loader<'a, T>(key: &'a Pubkey, cell: &'a Held<T>) -> AccountLoader<'a, T> {
    AccountLoader { info: info(key), cell }
}

pub fn token(key: &Pubkey, amount: u64) -> Account<'_, TokenAccount> {
    account(key, TokenAccount { amount })
}

pub fn pool_config(key: &Pubkey, y: u64, authority: Pubkey) -> Account<'_, PoolConfig> {
    let none = Pubkey::default();
    account(key, PoolConfig {
        pool_data: none,
        reward_program_authority: authority,
        pyth_token_mint: none,
        y,
        slash_custody: none,
    })
}

pub fn slash_event(key: &Pubkey, epoch: u64) -> Account<'_, SlashEvent> {
    account(key, SlashEvent { epoch, slash_ratio: 0, slash_custody: Pubkey::default() })
}

pub fn context<T: Bumps<Bumps = AllBumps>>(accounts: &mut T) -> Context<'_, T> {
    Context { accounts, bumps: AllBumps::default() }
}

/// A message that document 01's check 3 has passed, as the caps account.
pub fn caps(message: &[u8], verified: u64) -> Held<PublisherCaps> {
    let mut c: Box<PublisherCaps> = unsafe { zeroed() };
    // the Rust's flag is a byte: a larger one, which is not 1 either, is handed over as 0
    c.is_verified = u8::try_from(verified).unwrap_or(0);
    c.publisher_caps_message_buffer[..message.len()].copy_from_slice(message);
    // on the chain the account's place makes the rows aligned; here the allocator does
    assert_eq!((&c.publisher_caps_message_buffer[11] as *const u8 as usize) % 8, 0);
    RefCell::new(c)
}

/// Nine words that document 01's check 4 has passed; none for an empty position.
pub fn position(w: &[u64]) -> Option<Position> {
    let mut key = [0u8; 32];
    for (bytes, word) in key.chunks_exact_mut(8).zip(&w[5..]) {
        bytes.copy_from_slice(&word.to_le_bytes());
    }
    let target_with_parameters = match w[0] {
        0 => return None,
        1 => TargetWithParameters::Voting,
        _ => TargetWithParameters::IntegrityPool { publisher: Pubkey::from(key) },
    };
    Some(Position {
        amount: w[1],
        activation_epoch: w[2],
        unlocking_start: (w[3] == 1).then_some(w[4]),
        target_with_parameters,
    })
}

/// Position words that document 01's check 4 has passed, as a stake account's content.
pub fn positions(words: &[u64], owner: Pubkey) -> Held<PositionData> {
    let positions = words.chunks_exact(9).map(position).collect();
    RefCell::new(Box::new(PositionData { owner, positions }))
}
