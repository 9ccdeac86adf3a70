//! What is timed at P 1,024 and E 52. The line above a case says its input; the pool is full, its
//! seats in no order of the keys unless that is said.
use {
    crate::{
        calls::{
            advance, change, create_slash_event, fee, half_covered, matching, new_account,
            not_matching, payment, slash,
        },
        case::{case, Case},
        inputs::{strangers, weights},
        journal::Call,
        pools::{publishers, Pools, LAST, P},
    },
    staking::state::positions::PositionState,
};

fn advances(pools: &Pools) -> Vec<Case<'_>> {
    let Pools { mixed, sorted } = pools;
    let seated = || publishers(mixed, P);
    let over = |name, pool, epochs, keys| case(name, pool, Call::Advance(advance(epochs, keys)));
    let half = || Call::Advance(half_covered(mixed, advance(52, seated())));
    vec![
        // 1 epoch behind; a row for each seat
        over("advance, 1 epoch, 1,024 rows matched", mixed, 1, seated()),
        // 52 epochs behind, the whole ring; a row for each seat
        over("advance, 52 epochs, 1,024 rows matched", mixed, 52, seated()),
        // 520 epochs behind, the ring ten times over; a row for each seat
        over("advance, 520 epochs, 1,024 rows matched", mixed, 520, seated()),
        // 1,000,000 epochs behind; a row for each seat
        Case {
            alone: true,
            note: "the Rust takes a step for each epoch and seat",
            ..over("advance, 1,000,000 epochs, 1,024 rows matched", mixed, 1_000_000, seated())
        },
        // 1 epoch behind; the seats in the order of the rows
        over("advance, 1 epoch, seats in key order", sorted, 1, seated()),
        // 52 epochs behind; the seats in the order of the rows
        over("advance, 52 epochs, seats in key order", sorted, 52, seated()),
        // 1 epoch behind; no row for a seat, so no publisher has a cap and all rows are dropped
        over("advance, 1 epoch, 1,024 rows, none matched", mixed, 1, strangers()),
        // 52 epochs behind; no row for a seat
        over("advance, 52 epochs, 1,024 rows, none matched", mixed, 52, strangers()),
        // 52 epochs behind; a row for each seat; custody for half of what would be set aside
        case("advance, 52 epochs, half of custody", mixed, half()),
    ]
}

fn forecasts(pool: &[u64]) -> Vec<Case<'_>> {
    let over = |name, epochs| Case {
        note: "the Rust has no forecast; timed is its advance on the same input",
        ..case(name, pool, Call::Forecast(advance(epochs, publishers(pool, P))))
    };
    vec![
        // 1 epoch behind; a row for each seat; nothing is written
        over("forecast, 1 epoch, 1,024 rows matched", 1),
        // 52 epochs behind; a row for each seat
        over("forecast, 52 epochs, 1,024 rows matched", 52),
    ]
}

fn payments(pool: &[u64]) -> Vec<Case<'_>> {
    let pay = |name, epochs, held| case(name, pool, payment(pool, epochs, held));
    vec![
        // a record of 52 epochs ago: 52 events are read for each position, none too old
        pay("payment, 256 matching, 52 events", 52, matching(pool, 256)),
        // of 5 epochs ago: 6 events are read for each position, one too old
        pay("payment, 256 matching, 5 events", 5, matching(pool, 256)),
        // of 1,000 epochs ago: the ring's 52 events are read, what was due before them is lost
        pay("payment, 256 matching, record 1,000 epochs old", 1_000, matching(pool, 256)),
        // of this epoch: one event is read for each position, too old, and nothing is due
        pay("payment, 256 matching, record of this epoch", 0, matching(pool, 256)),
        // of 52 epochs ago, with one position
        pay("payment, 1 matching, 52 events", 52, matching(pool, 1)),
        // of 52 epochs ago, with positions in the publishers of the first 256 seats: none is paid
        pay("payment, 256 not matching, 52 events", 52, not_matching(pool, 256)),
    ]
}

fn changes(pool: &[u64]) -> Vec<Case<'_>> {
    vec![
        // 5 for the publisher at the last seat, on the other side
        case("add", pool, Call::Add(change(pool))),
        // the same 5, of a LOCKED position
        case("remove", pool, Call::Remove(change(pool), PositionState::LOCKED)),
        // the last seat's fourth slash event, and those that follow
        case("create slash event", pool, create_slash_event(pool)),
        // 4 locked and 2 preunlocking of the last seat, in the current epoch, so that it applies
        case("slash", pool, slash(pool)),
        // all seats get one fee
        case("fee", pool, fee()),
        // the publisher at the last seat changes its account; neither account has positions
        case("stake account, no positions", pool, new_account(pool, Vec::new())),
        // the same, both accounts with positions in the publishers of the first 256 seats
        case("stake account, twice 256 positions", pool, new_account(pool, not_matching(pool, 256))),
    ]
}

fn splits(pool: &[u64]) -> Vec<Case<'_>> {
    let among = |name, reward, weights| Case {
        note: "the Rust has no such call; timed is a plain function, oracle/driver/split.rs",
        ..case(name, pool, Call::Split { reward, weights })
    };
    let (few, many, wide) = (weights(4, 1 << 32), weights(64, 1 << 32), weights(64, 1 << 58));
    let sum: u64 = many.iter().sum();
    vec![
        // a reward of 32 bits; 32 units are left
        among("split, 64 weights of 32 bits", 4_000_000_004, many.clone()),
        // a reward of 64 bits; 32 units are left
        among("split, 64 weights of 58 bits", u64::MAX, wide),
        // a reward of 48 bits, one below a multiple of the weights' sum, so that all but one client get a unit more
        among("split, 64 weights, 63 units left", 1_000 * sum - 1, many),
        // a reward of 32 bits; 2 units are left
        among("split, 4 weights of 32 bits", 4_000_000_004, few),
    ]
}

/// Advances of 1,000,000 and of 52 epochs.
pub fn passing(pools: &Pools) -> [Case<'_>; 2] {
    let over = |epochs| Call::Advance(advance(epochs, publishers(&pools.mixed, P)));
    [1_000_000, 52].map(|epochs| case("passing", &pools.mixed, over(epochs)))
}

pub fn all(pools: &Pools) -> Vec<Case<'_>> {
    let pool = &pools.mixed;
    // every word becomes 0 but for the last epoch; the zeroing is part of the time of both
    let mut all = vec![case("fresh", pool, Call::Fresh(LAST))];
    all.extend(advances(pools));
    all.extend(forecasts(pool));
    all.extend(payments(pool));
    all.extend(changes(pool));
    if !cfg!(lacks = "pool_mirror_split") {
        all.extend(splits(pool));
    }
    all
}
