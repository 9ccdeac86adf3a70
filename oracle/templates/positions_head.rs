// A head of the oracle's own; the two parts below it are positions.rs, line for line.
use {
    crate::utils::clock::UNLOCKING_DURATION,
    anchor_lang::prelude::*,
    borsh::BorshSchema,
    std::{
        cell::Ref,
        fmt::{
            self,
            Debug,
        },
    },
};

/// The account's bytes as plain data: its owner, and every slot of its position array.
#[derive(Clone)]
pub struct PositionData {
    pub owner:     Pubkey,
    pub positions: Vec<Option<Position>>,
}

pub struct DynamicPositionArray<'a> {
    pub data: Ref<'a, Box<PositionData>>,
}

impl<'a> DynamicPositionArray<'a> {
    pub fn load(account_loader: &AccountLoader<'a, PositionData>) -> Result<Self> {
        Ok(Self {
            data: account_loader.cell.borrow(),
        })
    }

    pub fn owner(&self) -> Result<Pubkey> {
        Ok(self.data.owner)
    }

    pub fn get_position_capacity(&self) -> usize {
        self.data.positions.len()
    }

    pub fn read_position(&self, i: usize) -> Result<Option<Position>> {
        match self.data.positions.get(i) {
            Some(p) => Ok(*p),
            None => Err(Error {
                name: "PositionOutOfBounds".to_string(),
            }),
        }
    }

