//! Times the mirror's static library beside the original Rust, or with `before` beside an earlier library, on
//! the same inputs and in the same memory. A case on which the two differ ends the run with status 1.
#[path = "../../oracle/driver/accounts.rs"]
mod accounts;
mod bench;
mod bounds;
mod calls;
mod case;
mod cases;
#[path = "../../oracle/driver/derived.rs"]
mod derived;
mod growth;
#[path = "../../oracle/driver/handed.rs"]
mod handed;
mod inputs;
#[allow(dead_code)]
#[path = "../../oracle/driver/journal.rs"]
mod journal;
mod mirror;
mod numbers;
mod original;
mod pools;
#[allow(dead_code)]
#[path = "../../oracle/driver/refusal.rs"]
mod refusal;
#[path = "../../oracle/driver/split.rs"]
mod split;
mod timed;

use {
    bench::{Bench, Checked, Side, MIRROR, OTHER},
    case::Case,
    pools::Pools,
    std::process::ExitCode,
};

/// What is done with a case: the line that it comes to.
type Each = fn(&Bench, &Case) -> Checked<String>;

/// Its name, its size, the mirror's and the other side's nanoseconds for one call, their ratio, the nanoseconds
/// of the other side's one call that was compared, and the note.
fn time(bench: &Bench, case: &Case) -> Checked<String> {
    let once = bench.compare(case, 1)?;
    if case.calls() > 1 {
        bench.compare(case, case.calls())?;
    }
    let times = bench.time(case)?;
    let size = case.size.map_or(String::new(), |size| size.to_string());
    let theirs = times.theirs.map_or("\t".to_string(), |theirs| format!("{}\t{}", theirs.nanos, theirs.ratio));
    Ok(format!("{}\t{size}\t{}\t{theirs}\t{once}\t{}", case.name, times.ours, case.note))
}

/// The call, once, of each library; the case's name. Callgrind dumps what it has counted where this function,
/// which it knows by its name, is left.
#[inline(never)]
fn count(bench: &Bench, case: &Case) -> Checked<String> {
    if cfg!(before) {
        bench.run(&OTHER, case, 1)?;
    }
    bench.run(&MIRROR, case, 1).map(|_| case.name.to_string())
}

fn each(name: &str) -> Option<Each> {
    match name {
        "time" => Some(time),
        "count" => Some(count),
        _ => None,
    }
}

fn table<'a>(name: &str, pools: &'a Pools) -> Option<Vec<Case<'a>>> {
    match name {
        "calls" => Some(cases::all(pools)),
        "seats" => Some(growth::seats(pools)),
        "rows" => Some(growth::rows(pools)),
        "positions" => Some(growth::positions(pools)),
        _ => None,
    }
}

/// The mirror's time for as many epochs as it may pass over that for those of one ring, in turns.
fn passing(pools: &Pools) -> Checked<()> {
    let [long, ring] = cases::passing(pools);
    println!("{}", Bench::new(&MIRROR).side_by_side(&long, &ring)?);
    Ok(())
}

/// What the words alone cost: a name and nanoseconds in each line.
fn bounds(pools: &Pools) -> Checked<()> {
    for (name, nanos) in bounds::all(&pools.mixed)? {
        println!("{name}\t{nanos}");
    }
    Ok(())
}

/// Of the cases that have the text in their label.
fn report(bench: &Bench, each: Each, cases: &[Case], text: &str) -> Checked<()> {
    for case in cases.iter().filter(|case| case.label().contains(text)) {
        let line = each(bench, case).map_err(|what| format!("{}: {what}", case.label()))?;
        println!("{line}");
    }
    Ok(())
}

fn side(name: &str) -> Option<&'static Side> {
    match name {
        "mirror" => Some(&MIRROR),
        "other" => Some(&OTHER),
        _ => None,
    }
}

/// None where the words are not understood.
fn run(words: &[&str], pools: &Pools) -> Option<Checked<()>> {
    match words {
        ["passing"] => Some(passing(pools)),
        ["bounds"] => Some(bounds(pools)),
        [what, cases, text, first] => Some(report(&Bench::new(side(first)?), each(what)?, &table(cases, pools)?, text)),
        _ => None,
    }
}

pub fn main() -> ExitCode {
    refusal::install_hook();
    let args: Vec<_> = std::env::args().skip(1).collect();
    let words: Vec<_> = args.iter().map(String::as_str).collect();
    match run(&words, &pools::pools()) {
        Some(Ok(())) => ExitCode::SUCCESS,
        None => {
            eprintln!("bench: passing, bounds, or time or count, a table (calls, seats, rows, positions), a text of its cases and who is first (mirror, other)");
            ExitCode::from(2)
        }
        Some(Err(what)) => {
            eprintln!("different: {what}");
            ExitCode::FAILURE
        }
    }
}
