//! Stand-in for the staking program: positions.rs's parts that document 01 takes over, and calls
//! between programs that do nothing (slash_account answers the amounts that the driver was given).
pub mod utils {
    pub mod clock {
        pub const UNLOCKING_DURATION: u64 = @U@;
    }
}

pub mod program {
    #[derive(Clone)]
    pub struct Staking;
}

pub mod state {
    pub mod positions;

    pub mod global_config {
        #[derive(Clone)]
        pub struct GlobalConfig {
            pub pyth_token_mint: anchor_lang::prelude::Pubkey,
        }
    }

    pub mod target {
        #[derive(Clone)]
        pub struct TargetMetadata;
    }
}

pub mod cpi {
    use {crate::state::positions::TargetWithParameters, anchor_lang::prelude::*};

    pub struct Return<T>(pub T);

    impl<T> Return<T> {
        pub fn get(self) -> T {
            self.0
        }
    }

    pub fn create_position<'info>(
        _ctx: CpiContext<'_, '_, '_, 'info, accounts::CreatePosition<'info>>,
        _target: TargetWithParameters,
        _amount: u64,
    ) -> Result<()> {
        Ok(())
    }

    pub fn close_position<'info>(
        _ctx: CpiContext<'_, '_, '_, 'info, accounts::ClosePosition<'info>>,
        _index: u8,
        _amount: u64,
        _target: TargetWithParameters,
    ) -> Result<()> {
        Ok(())
    }

    pub fn merge_target_positions<'info>(
        _ctx: CpiContext<'_, '_, '_, 'info, accounts::MergeTargetPositions<'info>>,
        _target: TargetWithParameters,
    ) -> Result<()> {
        Ok(())
    }

    pub fn slash_account<'info>(
        _ctx: CpiContext<'_, '_, '_, 'info, accounts::SlashAccount<'info>>,
        _slash_ratio: u64,
    ) -> Result<Return<(u64, u64)>> {
        Ok(Return(anchor_lang::given::SLASHED.with(|s| s.get())))
    }

    pub mod accounts {
        use anchor_lang::prelude::*;

        pub struct CreatePosition<'info> {
            pub config:                  AccountInfo<'info>,
            pub stake_account_positions: AccountInfo<'info>,
            pub stake_account_metadata:  AccountInfo<'info>,
            pub stake_account_custody:   AccountInfo<'info>,
            pub owner:                   AccountInfo<'info>,
            pub target_account:          Option<AccountInfo<'info>>,
            pub pool_authority:          Option<AccountInfo<'info>>,
            pub system_program:          AccountInfo<'info>,
        }

        pub struct ClosePosition<'info> {
            pub owner:                   AccountInfo<'info>,
            pub config:                  AccountInfo<'info>,
            pub stake_account_positions: AccountInfo<'info>,
            pub stake_account_metadata:  AccountInfo<'info>,
            pub stake_account_custody:   AccountInfo<'info>,
            pub target_account:          Option<AccountInfo<'info>>,
            pub pool_authority:          Option<AccountInfo<'info>>,
            pub system_program:          AccountInfo<'info>,
        }

        pub struct MergeTargetPositions<'info> {
            pub config:                  AccountInfo<'info>,
            pub stake_account_positions: AccountInfo<'info>,
            pub stake_account_metadata:  AccountInfo<'info>,
            pub owner:                   AccountInfo<'info>,
            pub pool_authority:          Option<AccountInfo<'info>>,
        }

        pub struct SlashAccount<'info> {
            pub stake_account_positions:   AccountInfo<'info>,
            pub stake_account_metadata:    AccountInfo<'info>,
            pub stake_account_custody:     AccountInfo<'info>,
            pub config:                    AccountInfo<'info>,
            pub governance_target_account: AccountInfo<'info>,
            pub destination:               AccountInfo<'info>,
            pub custody_authority:         AccountInfo<'info>,
            pub pool_authority:            AccountInfo<'info>,
            pub publisher:                 AccountInfo<'info>,
            pub token_program:             AccountInfo<'info>,
        }
    }
}
