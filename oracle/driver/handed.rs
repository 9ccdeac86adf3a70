//! The accounts that each handler of lib.rs is handed. The zero key `z` stands for accounts that the accounting doesn't look at.
use {
    crate::{
        accounts::{
            account, info, loader, pool_config, program, signer, slash_event, token, Held,
        },
        journal::{Advance, Change, Payment, SetStakeAccount, Slash},
    },
    anchor_lang::{given, prelude::Pubkey},
    integrity_pool::{accounts_door as doors, state::pool::PoolData},
    publisher_caps::PublisherCaps,
    staking::state::{
        global_config::GlobalConfig,
        positions::PositionData,
        target::TargetMetadata,
    },
};

pub type Pool = Held<PoolData>;

pub fn initialize_pool<'a>(pool: &'a Pool, z: &'a Pubkey) -> doors::InitializePool<'a> {
    doors::InitializePool {
        payer:          signer(z),
        config_account: account(z, GlobalConfig { pyth_token_mint: *z }),
        pool_data:      loader(z, pool),
        pool_config:    pool_config(z, 0, *z),
        slash_custody:  token(z, 0),
        system_program: program(z),
    }
}

pub fn advance<'a>(
    pool: &'a Pool,
    a: &Advance,
    caps: &'a Held<PublisherCaps>,
    z: &'a Pubkey,
) -> doors::Advance<'a> {
    doors::Advance {
        signer:              signer(z),
        pool_data:           loader(z, pool),
        publisher_caps:      loader(z, caps),
        pool_config:         pool_config(z, a.y, *z),
        pool_reward_custody: token(z, a.custody),
    }
}

/// `held` are the positions of the account that is paid; what leaves the reward custody is noted.
pub fn advance_delegation_record<'a>(
    pool: &'a Pool,
    p: &'a Payment,
    held: &'a Held<PositionData>,
    z: &'a Pubkey,
) -> doors::AdvanceDelegationRecord<'a> {
    doors::AdvanceDelegationRecord {
        payer: signer(z),
        stake_account_positions: loader(&p.account, held),
        pool_data: loader(z, pool),
        pool_config: pool_config(z, 0, *z),
        pool_reward_custody: token(&given::CUSTODY, 0),
        stake_account_custody: token(z, 0),
        publisher: info(&p.publisher),
        publisher_stake_account_positions: p.publisher_account.as_ref().map(info),
        publisher_stake_account_custody: (p.custody_flag != 0).then(|| token(z, 0)),
        delegation_record: account(z, p.record.clone()),
        token_program: program(z),
        system_program: program(z),
    }
}

pub fn delegate<'a>(pool: &'a Pool, c: &'a Change, z: &'a Pubkey) -> doors::Delegate<'a> {
    doors::Delegate {
        owner: signer(z),
        pool_data: loader(z, pool),
        pool_config: pool_config(z, 0, *z),
        publisher: info(&c.publisher),
        config_account: info(z),
        stake_account_positions: info(&c.account),
        stake_account_metadata: info(z),
        stake_account_custody: info(z),
        staking_program: program(z),
        system_program: program(z),
    }
}

pub fn create_slash_event<'a>(
    pool: &'a Pool,
    publisher: &'a Pubkey,
    z: &'a Pubkey,
) -> doors::CreateSlashEvent<'a> {
    doors::CreateSlashEvent {
        payer: signer(z),
        reward_program_authority: signer(z),
        slash_custody: token(z, 0),
        pool_data: loader(z, pool),
        pool_config: pool_config(z, 0, *z),
        slash_event: slash_event(z, 0),
        publisher: info(publisher),
        system_program: program(z),
    }
}

/// `held` are the positions of the account that is slashed.
pub fn slash<'a>(
    pool: &'a Pool,
    s: &'a Slash,
    held: &'a Held<PositionData>,
    z: &'a Pubkey,
) -> doors::Slash<'a> {
    doors::Slash {
        signer: signer(z),
        pool_data: loader(z, pool),
        pool_config: pool_config(z, 0, *z),
        slash_event: slash_event(z, s.event_epoch),
        delegation_record: account(z, s.record.clone()),
        publisher: info(&s.publisher),
        stake_account_positions: loader(&s.account, held),
        stake_account_metadata: info(z),
        stake_account_custody: token(z, 0),
        config_account: info(z),
        governance_target_account: account(z, TargetMetadata),
        slash_custody: token(z, 0),
        custody_authority: info(z),
        staking_program: program(z),
        token_program: program(z),
    }
}

pub fn update_delegation_fee<'a>(pool: &'a Pool, z: &'a Pubkey) -> doors::UpdateDelegationFee<'a> {
    doors::UpdateDelegationFee {
        reward_program_authority: signer(z),
        pool_data: loader(z, pool),
        pool_config: pool_config(z, 0, *z),
        system_program: program(z),
    }
}

/// A stake account's key and content.
pub type Account = (Pubkey, Held<PositionData>);

pub fn set_publisher_stake_account<'a>(
    pool: &'a Pool,
    s: &'a SetStakeAccount,
    old: Option<&'a Account>,
    new: Option<&'a Account>,
    z: &'a Pubkey,
) -> doors::SetPublisherStakeAccount<'a> {
    doors::SetPublisherStakeAccount {
        signer: signer(&s.signer),
        publisher: info(&s.publisher),
        pool_data: loader(z, pool),
        pool_config: pool_config(z, 0, s.authority),
        new_stake_account_positions_option: new.map(|(key, held)| loader(key, held)),
        current_stake_account_positions_option: old.map(|(key, held)| loader(key, held)),
    }
}
