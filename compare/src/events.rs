//! What a comparison met, counted by name, and whether it met enough of each.

use std::collections::BTreeMap;

/// How often a run of the gate's length has to meet each.
const LEAST: usize = 20;

#[derive(Default)]
pub struct Events(BTreeMap<String, usize>);

impl Events {
    pub fn note(&mut self, key: impl Into<String>) {
        *self.0.entry(key.into()).or_default() += 1;
    }

    /// Counts once whatever the other has met.
    pub fn note_met(&mut self, other: Events) {
        for key in other.0.into_keys() {
            self.note(key);
        }
    }

    /// Prints how often each of these was met, and says whether all were met often enough.
    pub fn report(&self, wanted: &[&str]) -> bool {
        let mut enough = true;
        for &key in wanted {
            let n = self.0.get(key).copied().unwrap_or(0);
            let mark = if n < LEAST { "  TOO FEW" } else { "" };
            enough &= n >= LEAST;
            println!("{n:>9}  {key}{mark}");
        }
        enough
    }
}
