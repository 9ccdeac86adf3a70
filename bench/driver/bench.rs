//! Both sides of a case: compared, and timed in turns.
use {
    crate::{
        accounts::Held,
        case::Case,
        mirror::{self, Library},
        original, pools,
        refusal::Stop,
        timed::{memory, Run, Start},
    },
    integrity_pool::state::pool::PoolData,
};

/// Samples of each side.
const SAMPLES: usize = 101;

/// What is wrong with a case.
pub type Checked<T> = Result<T, String>;

pub struct Bench {
    /// Both sides work in this memory.
    pool:  Held<PoolData>,
    /// Is run first in every case. The processor predicts calls through the same instruction better for the one that it meets later.
    first: &'static Side,
}

/// A library, or the Rust where there is none. Two libraries are run by the same code, so that it slows none of them more.
pub struct Side {
    name:    &'static str,
    library: Option<Library>,
}

pub static MIRROR: Side = Side { name: "the mirror", library: Some(mirror::NOW) };
#[cfg(before)]
pub static OTHER: Side = Side { name: "the earlier library", library: Some(mirror::BEFORE) };
#[cfg(not(before))]
pub static OTHER: Side = Side { name: "the Rust", library: None };

/// The median of a call's nanoseconds in the mirror, and the other side's unless it is left out.
pub struct Times {
    pub ours:   f64,
    pub theirs: Option<Theirs>,
}

pub struct Theirs {
    pub nanos: f64,
    /// The mirror's over theirs.
    pub ratio: f64,
}

impl Bench {
    pub fn new(first: &'static Side) -> Self {
        Bench { pool: memory(), first }
    }

    fn start<'a>(&'a self, case: &Case<'a>, calls: u64) -> Start<'a> {
        let start = Start { pool: &self.pool, image: case.image, calls };
        start.put_back();
        start
    }

    pub fn run(&self, side: &Side, case: &Case, calls: u64) -> Checked<Run> {
        let (start, name) = (self.start(case, calls), side.name);
        match &side.library {
            Some(library) => mirror::run(library, &start, &case.call).map_err(|n| format!("{name} refuses with {n}")),
            None => original::run(&start, &case.call).map_err(|stop| match stop {
                Stop::Number(n) => format!("{name} refuses with {n}"),
                Stop::Undecided(what) => format!("{name} ends with {what}"),
            }),
        }
    }

    /// Both sides from the same image: what they answer and every word that they leave. Answers the
    /// nanoseconds of the other side.
    pub fn compare(&self, case: &Case, calls: u64) -> Checked<u64> {
        self.run(self.first, case, calls)?;
        let ours = self.run(&MIRROR, case, calls)?;
        let left = pools::words(&self.pool.borrow()).to_vec();
        let theirs = self.run(&OTHER, case, calls)?;
        let other = OTHER.name;
        if ours.answer != theirs.answer {
            return Err(format!("the mirror answers {:?}, {other} {:?}", ours.answer, theirs.answer));
        }
        let pool = self.pool.borrow();
        let mut words = left.iter().zip(pools::words(&pool)).enumerate();
        match words.find(|(_, (a, b))| a != b) {
            Some((i, (a, b))) => Err(format!("word {i} is {a} in the mirror, {b} in {other}")),
            None => Ok(theirs.nanos),
        }
    }

    pub fn time(&self, case: &Case) -> Checked<Times> {
        let run = |side: &'static Side| move || Ok(self.run(side, case, case.calls())?.nanos);
        let (mut ours, mut theirs) = (run(&MIRROR), run(&OTHER));
        let each = |nanos: Vec<u64>| median(nanos) as f64 / case.calls() as f64;
        if case.alone && !cfg!(before) {
            let [ours] = samples([&mut ours])?;
            return Ok(Times { ours: each(ours), theirs: None });
        }
        let [ours, theirs] = samples([&mut ours, &mut theirs])?;
        let ratio = ratio(&ours, &theirs);
        Ok(Times { ours: each(ours), theirs: Some(Theirs { nanos: each(theirs), ratio }) })
    }

    /// The mirror on two cases of one call each, which take turns as the sides do: the first over the second.
    pub fn side_by_side(&self, one: &Case, other: &Case) -> Checked<f64> {
        let mut first = || Ok(self.run(&MIRROR, one, 1)?.nanos);
        let mut second = || Ok(self.run(&MIRROR, other, 1)?.nanos);
        let [first, second] = samples([&mut first, &mut second])?;
        Ok(ratio(&first, &second))
    }
}

/// Nanoseconds of a sample.
pub type Sample<'a> = &'a mut dyn FnMut() -> Checked<u64>;

/// The runs take turns, and take turns in who is first.
pub fn samples<const N: usize>(runs: [Sample; N]) -> Checked<[Vec<u64>; N]> {
    let mut nanos = [const { Vec::new() }; N];
    for sample in 0..SAMPLES {
        for turn in 0..N {
            let k = (sample + turn) % N;
            nanos[k].push(runs[k]()?);
        }
    }
    Ok(nanos)
}

pub fn median(mut nanos: Vec<u64>) -> u64 {
    nanos.sort_unstable();
    nanos[nanos.len() / 2]
}

/// Each turn has a ratio: a machine that runs slower for some turns slows both sides, if not by as much. Who is second finds less of its own
/// left in the processor; so the median of the turns in which the one is first is taken, and of those in which the other is, and the mean of the two.
fn ratio(one: &[u64], other: &[u64]) -> f64 {
    let ratios: Vec<f64> = one.iter().zip(other).map(|(a, b)| *a as f64 / *b as f64).collect();
    let [first, second] = [0, 1].map(|turn| {
        let mut half: Vec<f64> = ratios.iter().skip(turn).step_by(2).copied().collect();
        half.sort_unstable_by(f64::total_cmp);
        half[half.len() / 2]
    });
    (first * second).sqrt()
}
