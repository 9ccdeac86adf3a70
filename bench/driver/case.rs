//! A case: a call, and the pool that it begins from.
use crate::journal::Call;

/// Calls in a row where one takes less than some microseconds.
const MANY: u64 = 64;

pub struct Case<'a> {
    pub name:  &'static str,
    /// The size that grows, in a table of growth.
    pub size:  Option<usize>,
    pub image: &'a [u64],
    pub call:  Call,
    /// The Rust is run once, to be compared, and not timed.
    pub alone: bool,
    /// What is to be said of the Rust's time, where there is something.
    pub note:  &'static str,
}

pub fn case<'a>(name: &'static str, image: &'a [u64], call: Call) -> Case<'a> {
    Case { name, size: None, image, call, alone: false, note: "" }
}

impl Case<'_> {
    /// The name, with the size where it has one.
    pub fn label(&self) -> String {
        self.size.map_or(self.name.to_string(), |size| format!("{} at {size}", self.name))
    }

    /// Calls in a row of which one sample is the time. An advance can't follow itself.
    pub fn calls(&self) -> u64 {
        match self.call {
            Call::Fresh(_) | Call::Advance(_) | Call::Forecast(_) => 1,
            _ => MANY,
        }
    }
}
