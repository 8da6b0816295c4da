//! Counts by name, in the order in which the names are given.

use std::collections::HashMap;
use std::fmt;

pub struct Tally {
    rows: Vec<(String, u64)>,
    /// Where each name stands in `rows`.
    places: HashMap<String, usize>,
}

impl Tally {
    /// Every name with the count 0.
    pub fn new(names: Vec<String>) -> Self {
        Self {
            places: names.iter().cloned().zip(0..).collect(),
            rows: names.into_iter().map(|name| (name, 0)).collect(),
        }
    }

    /// Counts the name once more. Whether it is one of the names.
    pub fn add(&mut self, name: &str) -> bool {
        let place = self.places.get(name);
        if let Some(place) = place {
            self.rows[*place].1 += 1;
        }
        place.is_some()
    }

    pub fn rows(&self) -> &[(String, u64)] {
        &self.rows
    }
}

/// A message for each of the rows that has less than `least`.
pub fn missed(rows: &[(String, u64)], least: u64) -> Vec<String> {
    rows.iter()
        .filter(|(_, count)| *count < least)
        .map(|(name, count)| format!("{name} is {count}, needed: at least {least}"))
        .collect()
}

impl fmt::Display for Tally {
    fn fmt(&self, f: &mut fmt::Formatter<'_>) -> fmt::Result {
        let mut rows = self.rows.iter();
        rows.try_for_each(|(name, count)| writeln!(f, "{name} {count}"))
    }
}

#[cfg(test)]
mod tests {
    use super::*;

    #[test]
    fn names_keep_their_order_and_others_are_not_counted() {
        let mut tally = Tally::new(vec!["second".into(), "first".into()]);
        assert!(tally.add("first"));
        assert!(tally.add("first"));
        assert!(!tally.add("third"));
        assert_eq!(tally.to_string(), "second 0\nfirst 2\n");
        let message = "second is 0, needed: at least 2";
        assert_eq!(missed(tally.rows(), 2), [message]);
    }
}
