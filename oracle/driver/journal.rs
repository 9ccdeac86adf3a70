//! The journal's lines: fields of bytes, read from left to right, and the calls they make.
use {
    anchor_lang::prelude::Pubkey,
    integrity_pool::state::delegation_record::DelegationRecord,
    staking::state::positions::PositionState,
};

/// What is wrong with a line.
pub type Read<T> = std::result::Result<T, &'static str>;

/// How much of a long field is kept: one more than the library accepts. What stands behind that is
/// not looked at.
const MESSAGE_ROOM: usize = 40_972;
const POSITIONS_ROOM: usize = 257 * 9;
const WEIGHTS_ROOM: usize = 65;
pub const IMAGE_ROOM: usize = 174_552;

/// The calls that `help` can be asked about.
const CALLS: [&str; 21] = [
    "new", "settings", "image", "nonzero", "load", "save", "fresh", "advance", "forecast", "payment",
    "add", "remove", "create-slash-event", "slash", "fee", "stake-account", "show", "state", "split",
    "help", "quit",
];

pub struct Advance {
    pub now:      u64,
    pub y:        u64,
    pub custody:  u64,
    pub verified: u64,
    pub caps:     Vec<u8>,
}

pub struct Payment {
    pub now:               u64,
    pub publisher:         Pubkey,
    pub account:           Pubkey,
    pub record:            DelegationRecord,
    pub publisher_account: Option<Pubkey>,
    pub custody_flag:      u64,
    pub positions:         Vec<u64>,
}

/// Add, and remove with its state.
pub struct Change {
    pub now:       u64,
    pub publisher: Pubkey,
    pub account:   Pubkey,
    pub amount:    u64,
}

pub struct Slash {
    pub now:          u64,
    pub publisher:    Pubkey,
    pub account:      Pubkey,
    pub record:       DelegationRecord,
    pub index:        u64,
    pub event_epoch:  u64,
    pub locked:       u64,
    pub preunlocking: u64,
}

/// A stake account: its key, its owner (the zero key where nobody looks) and its positions.
pub struct StakeAccount {
    pub key:       Pubkey,
    pub owner:     Pubkey,
    pub positions: Vec<u64>,
}

pub struct SetStakeAccount {
    pub publisher: Pubkey,
    pub signer:    Pubkey,
    pub authority: Pubkey,
    pub old:       Option<StakeAccount>,
    pub new:       Option<StakeAccount>,
}

pub enum Call {
    Fresh(u64),
    Advance(Advance),
    Forecast(Advance),
    Payment(Payment),
    Add(Change),
    Remove(Change, PositionState),
    CreateSlashEvent { now: u64, publisher: Pubkey, index: u64 },
    Slash(Slash),
    Fee(u64),
    StakeAccount(SetStakeAccount),
    /// A position's state, of no pool.
    State { epoch: u64, position: Vec<u64> },
    /// A reward among clients, of no pool either.
    Split { reward: u64, weights: Vec<u64> },
}

fn hex(digits: &[u8]) -> Option<Vec<u8>> {
    let value = |c: u8| (c as char).to_digit(16).map(|d| d as u8);
    let pairs = digits.chunks_exact(2);
    if !pairs.remainder().is_empty() {
        return None;
    }
    pairs.map(|c| Some(value(c[0])? * 16 + value(c[1])?)).collect()
}

fn decimal(digits: &[u8]) -> Read<u64> {
    if digits.is_empty() || !digits.iter().all(u8::is_ascii_digit) {
        return Err("not a number");
    }
    digits.iter().try_fold(0u64, |n, d| {
        let next = n.checked_mul(10).and_then(|n| n.checked_add((d - b'0') as u64));
        next.ok_or("a number too large")
    })
}

fn key_of(field: &[u8]) -> Read<Pubkey> {
    let bytes: Option<[u8; 32]> = hex(field).and_then(|b| b.try_into().ok());
    bytes.map(Pubkey::from).ok_or("not a key")
}

fn words_of(key: Pubkey) -> impl Iterator<Item = u64> {
    (0..4).map(move |i| u64::from_le_bytes(key.to_bytes()[8 * i..8 * i + 8].try_into().unwrap()))
}

/// The fields of a line that are still to be read.
pub struct Fields<'a>(&'a [u8]);

impl<'a> Fields<'a> {
    pub fn new(line: &'a [u8]) -> Self {
        Fields(line)
    }

    /// The next field; empty at the line's end.
    fn take(&mut self) -> &'a [u8] {
        let start = self.0.iter().position(|b| *b != b' ').unwrap_or(self.0.len());
        let rest = &self.0[start..];
        let (field, rest) = rest.split_at(rest.iter().position(|b| *b == b' ').unwrap_or(rest.len()));
        self.0 = rest;
        field
    }

    pub fn field(&mut self) -> Read<&'a [u8]> {
        let field = self.take();
        if field.is_empty() { Err("a field too few") } else { Ok(field) }
    }

    pub fn end(&mut self) -> Read<()> {
        if self.take().is_empty() { Ok(()) } else { Err("a field too many") }
    }

    pub fn number(&mut self) -> Read<u64> {
        decimal(self.field()?)
    }

    pub fn key(&mut self) -> Read<Pubkey> {
        key_of(self.field()?)
    }

    fn key_or_none(&mut self) -> Read<Option<Pubkey>> {
        match self.field()? {
            b"none" => Ok(None),
            field => key_of(field).map(Some),
        }
    }

    pub fn message(&mut self) -> Read<Vec<u8>> {
        match self.field()? {
            b"-" => Ok(Vec::new()),
            field => hex(&field[..field.len().min(2 * MESSAGE_ROOM)]).ok_or("not a message"),
        }
    }

    /// Item by item, as long as there is room: a number, or `0x` and a key.
    fn words(&mut self, room: usize) -> Read<Vec<u64>> {
        let field = self.field()?;
        let mut words = Vec::new();
        if field == b"-" {
            return Ok(words);
        }
        for item in field.split(|b| *b == b',') {
            if words.len() >= room {
                break;
            }
            match item.strip_prefix(b"0x") {
                Some(digits) => words.extend(words_of(key_of(digits)?)),
                None => words.push(decimal(item)?),
            }
        }
        words.truncate(room);
        Ok(words)
    }

    fn positions(&mut self) -> Read<Vec<u64>> {
        self.words(POSITIONS_ROOM)
    }

    /// The word list of `image WORDS`, or none where the line has ended.
    pub fn image(&mut self) -> Read<Option<Vec<u64>>> {
        let ended = self.0.iter().all(|b| *b == b' ');
        if ended { Ok(None) } else { self.words(IMAGE_ROOM).map(Some) }
    }

    /// The call of `help CALL`, unless the line has ended.
    pub fn help(&mut self) -> Read<()> {
        let name = self.take();
        let known = name.is_empty() || CALLS.iter().any(|call| call.as_bytes() == name);
        if known { self.end() } else { Err("an unknown call") }
    }

    pub fn state(&mut self) -> Read<PositionState> {
        Ok(match self.field()? {
            b"LOCKING" => PositionState::LOCKING,
            b"LOCKED" => PositionState::LOCKED,
            b"PREUNLOCKING" => PositionState::PREUNLOCKING,
            b"UNLOCKING" => PositionState::UNLOCKING,
            b"UNLOCKED" => PositionState::UNLOCKED,
            _ => return Err("not a state"),
        })
    }

    fn record(&mut self) -> Read<DelegationRecord> {
        Ok(DelegationRecord {
            last_epoch:             self.number()?,
            next_slash_event_index: self.number()?,
        })
    }

    fn advance(&mut self) -> Read<Advance> {
        Ok(Advance {
            now:      self.number()?,
            y:        self.number()?,
            custody:  self.number()?,
            verified: self.number()?,
            caps:     self.message()?,
        })
    }

    fn payment(&mut self) -> Read<Payment> {
        Ok(Payment {
            now:               self.number()?,
            publisher:         self.key()?,
            account:           self.key()?,
            record:            self.record()?,
            publisher_account: self.key_or_none()?,
            custody_flag:      self.number()?,
            positions:         self.positions()?,
        })
    }

    fn change(&mut self) -> Read<Change> {
        Ok(Change {
            now:       self.number()?,
            publisher: self.key()?,
            account:   self.key()?,
            amount:    self.number()?,
        })
    }

    fn slash(&mut self) -> Read<Slash> {
        Ok(Slash {
            now:          self.number()?,
            publisher:    self.key()?,
            account:      self.key()?,
            record:       self.record()?,
            index:        self.number()?,
            event_epoch:  self.number()?,
            locked:       self.number()?,
            preunlocking: self.number()?,
        })
    }

    /// A key with what belongs to it; where it is `none`, so must be its owner and its positions.
    fn stake_account(&mut self, owned: bool) -> Read<Option<StakeAccount>> {
        let key = self.key_or_none()?;
        let owner = if owned { self.key_or_none()? } else { key.map(|_| Pubkey::default()) };
        let positions = self.positions()?;
        match (key, owner) {
            (Some(key), Some(owner)) => Ok(Some(StakeAccount { key, owner, positions })),
            (None, None) if positions.is_empty() => Ok(None),
            (Some(_), None) => Err("an account without its owner"),
            (None, _) => Err("no account, but its fields"),
        }
    }

    fn set_stake_account(&mut self) -> Read<SetStakeAccount> {
        Ok(SetStakeAccount {
            publisher: self.key()?,
            signer:    self.key()?,
            authority: self.key()?,
            old:       self.stake_account(true)?,
            new:       self.stake_account(false)?,
        })
    }

    fn create_slash_event(&mut self) -> Read<Call> {
        Ok(Call::CreateSlashEvent {
            now:       self.number()?,
            publisher: self.key()?,
            index:     self.number()?,
        })
    }

    fn state_of(&mut self) -> Read<Call> {
        Ok(Call::State {
            epoch:    self.number()?,
            position: self.positions()?,
        })
    }

    fn split(&mut self) -> Read<Call> {
        Ok(Call::Split {
            reward:  self.number()?,
            weights: self.words(WEIGHTS_ROOM)?,
        })
    }

    /// A call of document 01 or 02, its name read before.
    pub fn call(&mut self, name: &[u8]) -> Read<Call> {
        let call = match name {
            b"fresh" => Call::Fresh(self.number()?),
            b"advance" => Call::Advance(self.advance()?),
            b"forecast" => Call::Forecast(self.advance()?),
            b"payment" => Call::Payment(self.payment()?),
            b"add" => Call::Add(self.change()?),
            b"remove" => Call::Remove(self.change()?, self.state()?),
            b"create-slash-event" => self.create_slash_event()?,
            b"slash" => Call::Slash(self.slash()?),
            b"fee" => Call::Fee(self.number()?),
            b"stake-account" => Call::StakeAccount(self.set_stake_account()?),
            b"state" => self.state_of()?,
            b"split" => self.split()?,
            _ => return Err("an unknown call"),
        };
        self.end()?;
        Ok(call)
    }
}
