//! What is timed at several sizes; the pool is full, its seats in no order of the keys.
use crate::{
    calls::{advance, change, fee, matching, payment},
    case::{case, Case},
    journal::Call,
    pools::{publishers, Pools, LAST, P},
};

const FORECAST: &str = if cfg!(before) { "forecast, 1 epoch" } else { "forecast, 1 epoch (the Rust: its advance)" };

/// With the size P that the program is compiled for, and a row for each seat.
pub fn seats(pools: &Pools) -> Vec<Case<'_>> {
    let pool = &pools.mixed;
    let all = |epochs| advance(epochs, publishers(pool, P));
    let calls = [
        ("fresh", Call::Fresh(LAST)),
        ("advance, 1 epoch", Call::Advance(all(1))),
        ("advance, 52 epochs", Call::Advance(all(52))),
        (FORECAST, Call::Forecast(all(1))),
        ("payment, 256 matching, 52 events", payment(pool, 52, matching(pool, 256))),
        ("add", Call::Add(change(pool))),
        ("fee", fee()),
    ];
    let sized = |(name, call)| Case { size: Some(P), ..case(name, pool, call) };
    calls.into_iter().map(sized).collect()
}

/// With the rows of the message, which are for the first seats.
pub fn rows(pools: &Pools) -> Vec<Case<'_>> {
    let pool = &pools.mixed;
    let sized = |count| {
        let call = Call::Advance(advance(1, publishers(pool, count)));
        Case { size: Some(count), ..case("advance, 1 epoch", pool, call) }
    };
    [0, 1, 64, 256, 1_024].map(sized).into()
}

/// With the positions of the account that is paid, all in the publisher that pays.
pub fn positions(pools: &Pools) -> Vec<Case<'_>> {
    let pool = &pools.mixed;
    let records = [("payment, 5 events", 5), ("payment, 52 events", 52)];
    let sized = |(name, epochs)| {
        [0, 1, 16, 64, 256].map(|count| {
            let call = payment(pool, epochs, matching(pool, count));
            Case { size: Some(count), ..case(name, pool, call) }
        })
    };
    records.into_iter().flat_map(sized).collect()
}
