//! Questions below the calls (`leaf NAME ..`), for functions that are proved on their own. No
//! leaf reads or writes the image.
use {
    crate::{
        accounts::{caps, zeroed},
        checks,
        journal::{Fields, Read},
        refusal::{guard, Asked},
        site::Answer,
    },
    anchor_lang::prelude::{Pubkey, Result},
    integrity_pool::{
        state::{
            event::{Event, PublisherEventData},
            pool::{DelegationState, EligibleDelegationData, PoolData},
        },
        utils::clock::{time_to_epoch, EPOCH_DURATION},
    },
    staking::state::positions::{Position, TargetWithParameters},
};

const SEAT: [u8; 32] = [1; 32];

fn eligible(f: &mut Fields) -> Read<Asked<String>> {
    let (cap, own, other) = (f.number()?, f.number()?, f.number()?);
    Ok(guard(|| {
        let e = EligibleDelegationData::from_delegation_data(own, other, cap);
        let r = e.get_reward_ratios()?;
        let (own, other) = (e.self_eligible_delegation, e.other_eligible_delegation);
        Ok(format!(" {own} {other} {} {}", r.self_reward_ratio, r.other_reward_ratio))
    }))
}

fn adjust(f: &mut Fields) -> Read<Asked<String>> {
    let (t, y, claimable, custody) = (f.number()?, f.number()?, f.number()?, f.number()?);
    let mut p: Box<PoolData> = unsafe { zeroed() };
    p.claimable_rewards = claimable;
    Ok(guard(|| p.adjust_rewards_if_needed(y, t, custody).map(|(y, r)| format!(" {y} {r}"))))
}

fn reward(f: &mut Fields) -> Read<Asked<String>> {
    let (y, ratio, fee) = (f.number()?, f.number()?, f.number()?);
    let (amount, own) = (f.number()?, f.number()? != 0);
    let mut e: Box<Event> = unsafe { zeroed() };
    e.y = y;
    e.event_data[0] = PublisherEventData {
        self_reward_ratio:  if own { ratio } else { 0 },
        other_reward_ratio: if own { 0 } else { ratio },
        delegation_fee:     fee,
    };
    Ok(guard(|| e.calculate_reward(amount, 0, own).map(|(d, p)| format!(" {d} {p}"))))
}

fn state(f: &mut Fields) -> Read<Asked<String>> {
    let (activation_epoch, flag, start) = (f.number()?, f.number()?, f.number()?);
    let epoch = f.number()?;
    let p = Position {
        amount: 0,
        activation_epoch,
        unlocking_start: (flag != 0).then_some(start),
        target_with_parameters: TargetWithParameters::Voting,
    };
    Ok(guard(|| p.get_current_position(epoch).map(|s| format!(" {s}"))))
}

fn epoch(f: &mut Fields) -> Read<Asked<String>> {
    let time = f.number()? as i64;
    Ok(guard(|| time_to_epoch(time).map(|e| format!(" {e}"))))
}

fn rows(message: &[u8]) -> Result<String> {
    let held = caps(message, 1);
    let c = held.borrow();
    let mut s = format!(" {} {} {}", c.discriminator(), c.publish_time() as u64, c.num_publishers());
    for i in 0..c.caps().len() {
        let row = c.get_cap(i);
        let key: String = row.pubkey.to_bytes().iter().map(|b| format!("{b:02x}")).collect();
        s += &format!(" {key} {}", row.cap);
    }
    Ok(s)
}

/// The expression of PoolData::advance that looks a seat's row up.
fn find(message: &[u8], key: &Pubkey) -> Result<String> {
    let held = caps(message, 1);
    let c = held.borrow();
    Ok(match c.caps().binary_search_by_key(key, |cap| cap.pubkey) {
        Ok(i) => format!(" {i} {}", c.get_cap(i).cap),
        Err(_) => " none".to_string(),
    })
}

/// A pool of one seat, whose other side is the one given.
fn one_seat(f: &mut Fields) -> Read<Box<PoolData>> {
    let mut p: Box<PoolData> = unsafe { zeroed() };
    p.publishers[0] = Pubkey::from(SEAT);
    p.publisher_stake_accounts[0] = Pubkey::from(SEAT);
    p.del_state[0] = DelegationState {
        total_delegation: f.number()?,
        delta_delegation: f.number()? as i64,
    };
    Ok(p)
}

fn side(p: &PoolData) -> String {
    let s = &p.del_state[0];
    format!(" {} {}", s.total_delegation, s.delta_delegation as u64)
}

/// An advance of one epoch, from 0 to 1, with no rows.
fn roll(f: &mut Fields) -> Read<Asked<String>> {
    let mut p = one_seat(f)?;
    let mut message = [0; 11];
    message[1..9].copy_from_slice(&EPOCH_DURATION.to_be_bytes());
    let held = caps(&message, 1);
    let r = guard(|| p.advance(&held.borrow(), 0, 1, 0));
    Ok(r.map(|()| side(&p)))
}

fn add(f: &mut Fields) -> Read<Asked<String>> {
    let mut p = one_seat(f)?;
    let amount = f.number()?;
    let r = guard(|| p.add_delegation(&Pubkey::from(SEAT), &Pubkey::default(), amount, 0));
    Ok(r.map(|()| side(&p)))
}

fn remove(f: &mut Fields) -> Read<Asked<String>> {
    let mut p = one_seat(f)?;
    let (amount, state) = (f.number()?, f.state()?);
    let (seat, other) = (Pubkey::from(SEAT), Pubkey::default());
    let r = guard(|| p.remove_delegation(&seat, &other, amount, state, 0));
    Ok(r.map(|()| side(&p)))
}

fn slash(f: &mut Fields) -> Read<Asked<String>> {
    let mut p = one_seat(f)?;
    let (locked, preunlocking) = (f.number()?, f.number()?);
    let (seat, other) = (Pubkey::from(SEAT), Pubkey::default());
    let r = guard(|| p.apply_slash(&seat, &other, locked, preunlocking, 0));
    Ok(r.map(|()| side(&p)))
}

/// The leaves that the Rust can be asked whatever their fields are.
fn plain(name: &[u8], f: &mut Fields) -> Read<Asked<String>> {
    match name {
        b"eligible" => eligible(f),
        b"adjust" => adjust(f),
        b"reward" => reward(f),
        b"state" => state(f),
        b"add" => add(f),
        b"remove" => remove(f),
        b"slash" => slash(f),
        _ => Err("an unknown leaf"),
    }
}

/// None where the fields fail document 01's checks 2 and 3.
fn checked(name: &[u8], f: &mut Fields) -> Read<Option<Asked<String>>> {
    match name {
        b"caps" => {
            let m = f.message()?;
            Ok(checks::message(&m).then(|| guard(|| rows(&m))))
        }
        b"find" => {
            let (m, key) = (f.message()?, f.key()?);
            Ok(checks::message(&m).then(|| guard(|| find(&m, &key))))
        }
        b"epoch" => epoch(f).map(|r| (EPOCH_DURATION != 0).then_some(r)),
        // an advance to epoch 1 needs a time of that epoch
        b"roll" => roll(f).map(|r| (1..1 << 63).contains(&EPOCH_DURATION).then_some(r)),
        _ => plain(name, f).map(Some),
    }
}

pub fn answer(f: &mut Fields) -> Read<Answer> {
    let name = f.field()?;
    let asked = checked(name, f)?;
    f.end()?;
    Ok(asked.map_or(Answer::Outside(None), Answer::from))
}
