//! What a run keeps: P, E, the settings, the image; and the lines about them.
use {
    crate::{
        accounts::{zeroed, Held},
        calls, checks,
        journal::{Call, IMAGE_ROOM},
        refusal::{self, Asked, Stop},
    },
    integrity_pool::{
        state::pool::PoolData,
        utils::{
            clock::EPOCH_DURATION,
            constants::{MAX_EVENTS, MAX_PUBLISHERS},
        },
    },
    staking::utils::clock::UNLOCKING_DURATION,
    std::{cell::RefCell, fmt::Write, fs, io::Read, ops::Range, path::Path},
};

const P: u64 = MAX_PUBLISHERS as u64;
const E: u64 = MAX_EVENTS as u64;
const WORDS: usize = length(P, E);
const EVENTS: Range<usize> = 2 + 12 * MAX_PUBLISHERS..WORDS - 2 * MAX_PUBLISHERS - 1;
const UNWRITTEN: &str = "the file can't be written";
const _: () = assert!(size_of::<PoolData>() == 8 * WORDS && align_of::<PoolData>() == 8);

/// Document 01's words in all; 0 for a P or E out of range.
const fn length(p: u64, e: u64) -> usize {
    if p < 1 || p > 1_024 || e < 1 || e > 52 {
        return 0;
    }
    (3 + 14 * p + e * (9 + 3 * p)) as usize
}

pub fn words(p: &PoolData) -> &[u64] {
    unsafe { std::slice::from_raw_parts(p as *const PoolData as *const u64, WORDS) }
}

pub fn words_mut(p: &mut PoolData) -> &mut [u64] {
    unsafe { std::slice::from_raw_parts_mut(p as *mut PoolData as *mut u64, WORDS) }
}

pub enum Answer {
    /// The values, each after a space.
    Ok(String),
    Refused(u32),
    /// The run ends here.
    Quit,
    /// Not for the Rust, or, with a note, an end whose number isn't decided.
    Outside(Option<String>),
}

impl From<Asked<String>> for Answer {
    fn from(asked: Asked<String>) -> Self {
        match asked {
            Ok(values) => Answer::Ok(values),
            Err(Stop::Number(n)) => Answer::Refused(n),
            Err(Stop::Undecided(note)) => Answer::Outside(Some(note)),
        }
    }
}

/// The words that a call may write: the events are an advance's alone (get_event_mut).
fn may_write(call: &Call) -> [Range<usize>; 2] {
    match call {
        Call::Fresh(_) | Call::Advance(_) | Call::Forecast(_) => [0..WORDS, WORDS..WORDS],
        Call::State { .. } | Call::Split { .. } => [0..0, 0..0],
        _ => [0..EVENTS.start, EVENTS.end..WORDS],
    }
}

pub struct Site {
    /// Lines read so far.
    pub line:  u64,
    p:         u64,
    e:         u64,
    seconds:   u64,
    unlocking: u64,
    /// The image as the Rust takes it; not looked at where `other` is there.
    pool:      Held<PoolData>,
    /// An image whose length or sizes aren't this binary's.
    other:     Option<Vec<u64>>,
    kept:      Vec<u64>,
}

impl Site {
    /// Before the first line.
    pub fn new() -> Self {
        Site {
            line: 0,
            p: 0,
            e: 0,
            seconds: 604_800,
            unlocking: 1,
            pool: RefCell::new(unsafe { zeroed() }),
            other: Some(Vec::new()),
            kept: vec![0; WORDS],
        }
    }

    /// What an earlier binary left; as before the first line where the file is empty.
    pub fn taken_over(carry: &Path) -> std::io::Result<Self> {
        let mut site = Site::new();
        let held = words_of(&fs::read(carry)?);
        if let Some([line, p, e, seconds, unlocking, image @ ..]) = held.as_deref() {
            (site.line, site.p, site.e) = (*line, *p, *e);
            (site.seconds, site.unlocking) = (*seconds, *unlocking);
            site.set_image(image.to_vec());
        }
        Ok(site)
    }

    pub fn hand_over(&self, carry: &Path) -> std::io::Result<()> {
        let head = [self.line, self.p, self.e, self.seconds, self.unlocking];
        let mut bytes = bytes_of(&head);
        self.with_image(|image| bytes.extend(bytes_of(image)));
        fs::write(carry, bytes)
    }

    /// Whether calls under this P, E and these settings are this binary's to answer.
    pub fn fits(&self) -> std::result::Result<(), String> {
        let size = length(self.p, self.e) == 0 || (self.p, self.e) == (P, E);
        let settings = (self.seconds, self.unlocking) == (EPOCH_DURATION, UNLOCKING_DURATION);
        if size && settings {
            return Ok(());
        }
        Err(format!(
            "line {}: asked at P {} E {}, settings {} {}, but built for P {P} E {E}, settings \
             {EPOCH_DURATION} {UNLOCKING_DURATION}; oracle/answer takes any",
            self.line, self.p, self.e, self.seconds, self.unlocking
        ))
    }

    /// The image for the Rust, if P, E and its length are so.
    pub fn pool(&self) -> Option<&Held<PoolData>> {
        self.other.is_none().then_some(&self.pool)
    }

    fn with_image<R>(&self, f: impl FnOnce(&[u64]) -> R) -> R {
        match &self.other {
            Some(image) => f(image),
            None => f(words(&self.pool.borrow())),
        }
    }

    fn set_image(&mut self, image: Vec<u64>) {
        if (self.p, self.e) == (P, E) && image.len() == WORDS {
            words_mut(&mut self.pool.borrow_mut()).copy_from_slice(&image);
            self.other = None;
        } else {
            self.other = Some(image);
        }
    }

    fn image_length(&self) -> Answer {
        Answer::Ok(format!(" {}", self.with_image(<[u64]>::len)))
    }

    pub fn new_image(&mut self, p: u64, e: u64) -> Answer {
        (self.p, self.e) = (p, e);
        self.put_image(vec![0; length(p, e)])
    }

    pub fn settings(&mut self, seconds: u64, unlocking: u64) -> Answer {
        (self.seconds, self.unlocking) = (seconds, unlocking);
        Answer::Ok(String::new())
    }

    pub fn put_image(&mut self, image: Vec<u64>) -> Answer {
        self.set_image(image);
        self.image_length()
    }

    pub fn image(&self) -> Answer {
        let mut s = String::new();
        self.with_image(|image| image.iter().for_each(|w| write!(s, " {w}").unwrap()));
        Answer::Ok(s)
    }

    pub fn nonzero(&self) -> Answer {
        let mut s = String::new();
        self.with_image(|image| {
            let found = image.iter().enumerate().filter(|(_, w)| **w != 0);
            found.for_each(|(i, w)| write!(s, " {i}:{w}").unwrap());
        });
        Answer::Ok(s)
    }

    /// As far as an image is kept; a file that ends within a word is refused.
    pub fn load(&mut self, path: &Path) -> std::result::Result<Answer, &'static str> {
        let mut bytes = Vec::new();
        let most = 8 * IMAGE_ROOM as u64;
        let read = fs::File::open(path).and_then(|file| file.take(most).read_to_end(&mut bytes));
        read.map_err(|_| "the file can't be read")?;
        Ok(words_of(&bytes).map_or(Answer::Refused(1), |image| self.put_image(image)))
    }

    /// Through a second name of its own, so that a cut run leaves the old file or the new one. Only a
    /// regular file is written over.
    pub fn save(&self, path: &Path) -> std::result::Result<Answer, &'static str> {
        if !checks::image(self) {
            return Ok(Answer::Refused(1));
        }
        if fs::symlink_metadata(path).is_ok_and(|at| !at.is_file()) {
            return Err(UNWRITTEN);
        }
        let mut second = path.as_os_str().to_owned();
        second.push(format!(".{}.0.new", std::process::id()));
        let made = fs::OpenOptions::new().write(true).create_new(true).open(&second);
        let written = made.and_then(|mut file| {
            std::io::Write::write_all(&mut file, &self.with_image(bytes_of))?;
            file.sync_all()?;
            fs::rename(&second, path)
        });
        written.map_err(|_| UNWRITTEN)?;
        Ok(self.image_length())
    }

    fn keep(&mut self, call: &Call) {
        let pool = self.pool.borrow();
        for part in may_write(call) {
            self.kept[part.clone()].copy_from_slice(&words(&pool)[part]);
        }
    }

    fn restore(&mut self, call: &Call) {
        let mut pool = self.pool.borrow_mut();
        for part in may_write(call) {
            words_mut(&mut pool)[part.clone()].copy_from_slice(&self.kept[part]);
        }
    }

    /// A call; a refused one leaves the image as it was, and so does a forecast.
    pub fn call(&mut self, call: &Call) -> Answer {
        if !checks::pass(self, call) {
            return Answer::Outside(None);
        }
        self.keep(call);
        let asked = calls::ask(&self.pool, call);
        if asked.is_err() || matches!(call, Call::Forecast(_)) {
            self.restore(call);
        }
        Answer::from(asked)
    }

    /// The same call n times from the same image: nanoseconds in the Rust, fastest, median, mean.
    pub fn bench(&mut self, n: u64, call: &Call) -> Answer {
        if !checks::pass(self, call) {
            return Answer::Outside(None);
        }
        self.keep(call);
        let mut times = Vec::new();
        for _ in 0..n.max(1) {
            let asked = calls::ask(&self.pool, call);
            self.restore(call);
            if asked.is_err() {
                return Answer::from(asked);
            }
            times.push(refusal::nanos());
        }
        times.sort_unstable();
        let mean = times.iter().sum::<u64>() / times.len() as u64;
        Answer::Ok(format!(" {} {} {mean}", times[0], times[times.len() / 2]))
    }
}

fn bytes_of(words: &[u64]) -> Vec<u8> {
    words.iter().flat_map(|w| w.to_le_bytes()).collect()
}

/// None where the bytes aren't whole words.
fn words_of(bytes: &[u8]) -> Option<Vec<u64>> {
    let words = bytes.chunks_exact(8);
    let whole = words.remainder().is_empty();
    whole.then(|| words.map(|w| u64::from_le_bytes(w.try_into().unwrap())).collect())
}
