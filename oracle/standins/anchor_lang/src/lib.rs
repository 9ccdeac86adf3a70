//! What the sources use of anchor_lang, as plain data. Accounts are a key and a value; loading,
//! owners, seeds, signers and rent are left out. The epoch is a number that the driver sets.
pub use anchor_macros::{error_code, program, Accounts, AnchorDeserialize, AnchorSerialize};
use std::{
    cell::{Ref, RefCell, RefMut},
    marker::PhantomData,
    ops::{Deref, DerefMut},
};

#[derive(Clone, Debug, PartialEq, Eq)]
pub struct Error {
    pub name: String,
}

pub type Result<T> = std::result::Result<T, Error>;

impl From<std::num::TryFromIntError> for Error {
    fn from(_: std::num::TryFromIntError) -> Self {
        Error {
            name: "TryFromIntError".to_string(),
        }
    }
}

/// Anchor's own error numbers; the handlers name one of them.
#[derive(Clone, Copy, Debug, PartialEq, Eq)]
pub enum ErrorCode {
    AccountNotEnoughKeys,
}

impl From<ErrorCode> for Error {
    fn from(e: ErrorCode) -> Self {
        Error {
            name: format!("{e:?}"),
        }
    }
}

#[macro_export]
macro_rules! error {
    ($e:expr $(,)?) => {
        $crate::Error::from($e)
    };
}
#[macro_export]
macro_rules! err {
    ($e:expr $(,)?) => {
        Err($crate::error!($e))
    };
}
#[macro_export]
macro_rules! require {
    ($c:expr, $e:expr $(,)?) => {
        if !($c) {
            return Err($crate::error!($e));
        }
    };
}
#[macro_export]
macro_rules! require_eq {
    ($a:expr, $b:expr, $e:expr $(,)?) => {
        if $a != $b {
            return Err($crate::error!($e));
        }
    };
}
#[macro_export]
macro_rules! require_gt {
    ($a:expr, $b:expr, $e:expr $(,)?) => {
        if $a <= $b {
            return Err($crate::error!($e));
        }
    };
}
#[macro_export]
macro_rules! require_gte {
    ($a:expr, $b:expr, $e:expr $(,)?) => {
        if $a < $b {
            return Err($crate::error!($e));
        }
    };
}
#[macro_export]
macro_rules! declare_id {
    ($s:expr) => {
        pub const ID_TEXT: &str = $s;
    };
}

/// 32 bytes, ordered byte by byte from the first, as in the original.
#[derive(Clone, Copy, Debug, Default, PartialEq, Eq, PartialOrd, Ord, Hash)]
#[repr(transparent)]
pub struct Pubkey([u8; 32]);

unsafe impl bytemuck::Pod for Pubkey {}
unsafe impl bytemuck::Zeroable for Pubkey {}

impl From<[u8; 32]> for Pubkey {
    fn from(b: [u8; 32]) -> Self {
        Pubkey(b)
    }
}

impl Pubkey {
    pub fn to_bytes(self) -> [u8; 32] {
        self.0
    }
}

#[derive(Clone, Debug)]
pub struct AccountInfo<'info> {
    pub key: &'info Pubkey,
}

#[derive(Clone)]
pub struct Signer<'info> {
    pub info: AccountInfo<'info>,
}

#[derive(Clone)]
pub struct Program<'info, T> {
    pub info: AccountInfo<'info>,
    pub kind: PhantomData<T>,
}

#[derive(Clone)]
pub struct System;

#[derive(Clone)]
pub struct Account<'info, T> {
    pub info: AccountInfo<'info>,
    pub inner: T,
}

impl<T> Deref for Account<'_, T> {
    type Target = T;
    fn deref(&self) -> &T {
        &self.inner
    }
}

impl<T> DerefMut for Account<'_, T> {
    fn deref_mut(&mut self) -> &mut T {
        &mut self.inner
    }
}

#[derive(Clone)]
pub struct AccountLoader<'info, T> {
    pub info: AccountInfo<'info>,
    pub cell: &'info RefCell<Box<T>>,
}

impl<'info, T> AccountLoader<'info, T> {
    pub fn load(&self) -> Result<Ref<'_, T>> {
        Ok(Ref::map(self.cell.borrow(), |b| &**b))
    }
    pub fn load_mut(&self) -> Result<RefMut<'_, T>> {
        Ok(RefMut::map(self.cell.borrow_mut(), |b| &mut **b))
    }
    pub fn load_init(&self) -> Result<RefMut<'_, T>> {
        self.load_mut()
    }
}

pub trait Key {
    fn key(&self) -> Pubkey;
}

pub trait ToAccountInfo<'info> {
    fn to_account_info(&self) -> AccountInfo<'info>;
}

impl Key for AccountInfo<'_> {
    fn key(&self) -> Pubkey {
        *self.key
    }
}
impl<'info> ToAccountInfo<'info> for AccountInfo<'info> {
    fn to_account_info(&self) -> AccountInfo<'info> {
        self.clone()
    }
}
impl Key for Signer<'_> {
    fn key(&self) -> Pubkey {
        *self.info.key
    }
}
impl<'info> ToAccountInfo<'info> for Signer<'info> {
    fn to_account_info(&self) -> AccountInfo<'info> {
        self.info.clone()
    }
}
impl<T> Key for Program<'_, T> {
    fn key(&self) -> Pubkey {
        *self.info.key
    }
}
impl<'info, T> ToAccountInfo<'info> for Program<'info, T> {
    fn to_account_info(&self) -> AccountInfo<'info> {
        self.info.clone()
    }
}
impl<T> Key for Account<'_, T> {
    fn key(&self) -> Pubkey {
        *self.info.key
    }
}
impl<'info, T> ToAccountInfo<'info> for Account<'info, T> {
    fn to_account_info(&self) -> AccountInfo<'info> {
        self.info.clone()
    }
}
impl<T> Key for AccountLoader<'_, T> {
    fn key(&self) -> Pubkey {
        *self.info.key
    }
}
impl<'info, T> ToAccountInfo<'info> for AccountLoader<'info, T> {
    fn to_account_info(&self) -> AccountInfo<'info> {
        self.info.clone()
    }
}

pub trait Bumps {
    type Bumps;
}

#[derive(Clone, Default)]
pub struct AllBumps {
    pub pool_config: u8,
}

pub struct Context<'a, T: Bumps> {
    pub accounts: &'a mut T,
    pub bumps:    T::Bumps,
}

pub struct CpiContext<'a, 'b, 'c, 'info, T> {
    pub program:  AccountInfo<'info>,
    pub accounts: T,
    seeds:        PhantomData<&'a [&'b [&'c [u8]]]>,
}

impl<'a, 'b, 'c, 'info, T> CpiContext<'a, 'b, 'c, 'info, T> {
    pub fn new(program: AccountInfo<'info>, accounts: T) -> Self {
        CpiContext {
            program,
            accounts,
            seeds: PhantomData,
        }
    }
    pub fn with_signer(self, _seeds: &'a [&'b [&'c [u8]]]) -> Self {
        self
    }
}

pub struct Clock {
    pub unix_timestamp: i64,
}

impl Clock {
    /// Never asked: the handlers take the epoch from `given`.
    pub fn get() -> Result<Clock> {
        Ok(Clock { unix_timestamp: 0 })
    }
}

/// What document 01 makes inputs: the epoch and the slashed amounts. And what it makes an answer: by
/// how much custody has fallen since the driver set that to 0.
pub mod given {
    use {super::Pubkey, std::cell::Cell};

    /// The key of the account that rewards are paid from; no other account of tokens has it.
    pub static CUSTODY: Pubkey = Pubkey([0xcc; 32]);

    thread_local! {
        pub static EPOCH: Cell<u64> = const { Cell::new(0) };
        pub static SLASHED: Cell<(u64, u64)> = const { Cell::new((0, 0)) };
        pub static FALLEN: Cell<u64> = const { Cell::new(0) };
    }
}

pub mod solana_program {
    pub mod clock {
        pub type UnixTimestamp = i64;
    }
}

pub mod prelude {
    pub use {
        super::{
            declare_id, err, error, require, require_eq, require_gt, require_gte, Account,
            AccountInfo, AccountLoader, Clock, Context, CpiContext, Error, ErrorCode, Key, Program,
            Pubkey, Result, Signer, System, ToAccountInfo,
        },
        anchor_macros::{
            account, error_code, program, wasm_bindgen, Accounts, AnchorDeserialize, AnchorSerialize,
        },
    };
}
