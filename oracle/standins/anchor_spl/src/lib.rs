//! Token transfers: a transfer is always made, and of its amount is only noted what leaves custody.
pub mod token {
    use anchor_lang::{given, prelude::*};

    #[derive(Clone)]
    pub struct Token;

    #[derive(Clone)]
    pub struct TokenAccount {
        pub amount: u64,
    }

    pub struct Transfer<'info> {
        pub from:      AccountInfo<'info>,
        pub to:        AccountInfo<'info>,
        pub authority: AccountInfo<'info>,
    }

    pub fn transfer<'info>(
        ctx: CpiContext<'_, '_, '_, 'info, Transfer<'info>>,
        amount: u64,
    ) -> Result<()> {
        if *ctx.accounts.from.key == given::CUSTODY {
            given::FALLEN.with(|f| f.set(f.get().wrapping_add(amount)));
        }
        Ok(())
    }
}
