//! Which refusals were met, and at which places.

use crate::model::Reply;
use std::collections::{BTreeMap, HashSet};

/// For each number how often it was answered, and the places, with the second number, that came with it. Success has the
/// number 0.
#[derive(Default)]
pub struct Tally(BTreeMap<u32, (u64, HashSet<(u32, u32)>)>);

impl Tally {
    pub fn add<T>(&mut self, reply: &Reply<T>) {
        let (number, place, second) = reply.as_ref().err().copied().unwrap_or((0, 0, 0));
        let (count, places) = self.0.entry(number).or_default();
        *count += 1;
        places.insert((place, second));
    }

    /// Each of these numbers was answered; with several places, where it has one, and else with none.
    pub fn has(&self, what: &str, numbers: &[u32]) {
        for (number, (count, places)) in &self.0 {
            println!("{what}: {number} {count} times, at {} places", places.len());
        }
        for number in numbers {
            let (_, places) = self.0.get(number).unwrap_or_else(|| panic!("{what}: {number} was never answered"));
            match number {
                2 | 4..=7 | 13..=17 => assert!(places.len() > 5, "{what}: {number} was answered at {places:?} alone"),
                _ => assert!(places.iter().eq([&(0, 0)]), "{what}: {number} has no place, and not {places:?}"),
            }
        }
    }
}
