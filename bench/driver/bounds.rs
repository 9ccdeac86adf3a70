//! What the words of a call cost by themselves: they are read or written by plain code and nothing is
//! worked out. The memory is a pool's, in the state that the last sample left it.
use {
    crate::{
        bench::{median, samples, Checked},
        inputs::message,
        pools::{events_mut, fees_mut, keys, publishers, sides_mut, EVENT_LEN, LAST, P},
    },
    std::{hint::black_box, time::Instant},
};

/// Runs in a row where one takes less than some microseconds.
const MANY: u32 = 64;

/// Nanoseconds of one run.
fn timed(runs: u32, mut run: impl FnMut()) -> Checked<f64> {
    let mut sample = || {
        let start = Instant::now();
        (0..runs).for_each(|_| run());
        Ok(start.elapsed().as_nanos() as u64)
    };
    let [nanos] = samples([&mut sample])?;
    Ok(median(nanos) as f64 / f64::from(runs))
}

fn read(words: &[u64]) {
    black_box(words.iter().fold(0u64, |sum, word| sum.wrapping_add(*word)));
}

fn read_bytes(bytes: &[u8]) {
    let (_, words, _) = unsafe { bytes.align_to::<u64>() };
    read(words);
}

pub fn all(image: &[u64]) -> Checked<Vec<(&'static str, f64)>> {
    let mut pool = image.to_vec();
    let event = image[image.len() - EVENT_LEN..].to_vec();
    let rows = message(LAST, publishers(image, P));
    let last: [u64; 4] = keys(image)[4 * (P - 1)..].try_into().expect("four words");
    let whole = timed(1, || black_box(&mut pool).fill(0))?;
    let events = timed(1, || {
        events_mut(black_box(&mut pool)).chunks_mut(EVENT_LEN).for_each(|slot| slot.copy_from_slice(&event));
    })?;
    let one = timed(MANY, || events_mut(black_box(&mut pool))[..EVENT_LEN].copy_from_slice(&event))?;
    let plan = timed(MANY, || {
        read(keys(black_box(image)));
        read_bytes(black_box(&rows));
        read(sides_mut(black_box(&mut pool)));
        read(fees_mut(black_box(&mut pool)));
    })?;
    let seat = timed(MANY, || {
        black_box(keys(black_box(image)).chunks_exact(4).position(|key| key == last));
    })?;
    let fees = timed(MANY, || fees_mut(black_box(&mut pool)).fill(black_box(200_000)))?;
    Ok(vec![
        ("write all words of the image", whole),
        ("write the words of 52 events", events),
        ("write the words of 1 event", one),
        ("read keys, rows, sides and fees", plan),
        ("pass over 1,024 keys", seat),
        ("write 1,024 words", fees),
    ])
}
