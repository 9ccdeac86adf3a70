//! Time taken.
use {
    crate::{
        accounts::{zeroed, Held},
        pools::{words_mut, WORDS},
    },
    integrity_pool::state::pool::PoolData,
    std::{cell::RefCell, hint::black_box, time::Instant},
};

/// Memory for a pool.
pub fn memory() -> Held<PoolData> {
    RefCell::new(unsafe { zeroed() })
}

/// What a run of calls came to.
pub struct Run {
    /// The values of the last call: the journal's, and behind a payment's by how much custody falls.
    pub answer: Vec<u64>,
    /// All calls together.
    pub nanos:  u64,
}

/// How a run begins: the memory that the pool is in, what it holds then, and how many calls follow.
pub struct Start<'a> {
    pub pool:  &'a Held<PoolData>,
    pub image: &'a [u64],
    pub calls: u64,
}

impl Start<'_> {
    pub fn put_back(&self) {
        words_mut(&mut self.pool.borrow_mut()).copy_from_slice(self.image);
    }

    /// The pool as the mirror takes it.
    pub fn memory(&self) -> (*mut u64, usize) {
        (words_mut(&mut self.pool.borrow_mut()).as_mut_ptr(), WORDS)
    }

    /// The call, each time with its number from 0: the last one's values, and nanoseconds. What the
    /// call is handed is made before; the image is put back last, so that both sides begin alike.
    pub fn timed<T, R>(
        &self,
        mut call: impl FnMut(u64) -> Result<T, R>,
    ) -> Result<(T, u64), R> {
        self.put_back();
        let start = Instant::now();
        let mut last = black_box(call(0)?);
        for j in 1..self.calls {
            last = black_box(call(j)?);
        }
        let nanos = start.elapsed().as_nanos() as u64;
        Ok((last, nanos))
    }
}
