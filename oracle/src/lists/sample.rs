//! A small fixed sample of lists with the oracle's answers, to be kept as a
//! test of the port.

use openprot_orchestrator_sm::{ComponentAttrs, ComponentId};

use super::generate::{accepted, lists};
use super::line::parse;
use super::mutate::depend_on_self;
use super::{CAPACITY, Entry, LONGEST, List};
use crate::random::SplitMix64;

/// The lists in a sample.
const SAMPLE: usize = 300;

/// Generated lists in a sample have at most this many entries, to keep it small.
const LONGEST_GENERATED: usize = 40;

/// The chain rows of document 01's "Ten rows".
const DOCUMENT_01_ROWS: [&str; 4] = [
    "0",
    "2 4 0 0 0 256 4 0 0 0 256",
    "1 5 0 0 0 5",
    "1 5 0 0 0 9",
];

/// The lists of the sample: named cases, then generated ones.
pub fn sample(seed: u64) -> Vec<List> {
    let mut sample: Vec<List> = DOCUMENT_01_ROWS
        .iter()
        .map(|row| parse(row).expect("a row of document 01"))
        .collect();
    sample.extend(lengths(seed));
    for length in [3, 30, LONGEST] {
        sample.extend(single_faults(length));
    }
    let rest = SAMPLE - sample.len();
    let short = lists(seed).filter(|list| list.entries.len() <= LONGEST_GENERATED);
    sample.extend(short.take(rest));
    sample
}

/// Accepted lists at the ends of the range, then lists that are too long though
/// their entries have no fault.
fn lengths(seed: u64) -> Vec<List> {
    let mut random = SplitMix64::new(seed);
    let mut made: Vec<List> = [1, 2, 254, LONGEST, CAPACITY]
        .iter()
        .map(|length| List::whole(accepted(&mut random, *length)))
        .collect();
    for length in [257, 1 << 32, u64::MAX] {
        made.push(List {
            length,
            entries: accepted(&mut random, LONGEST),
        });
    }
    made
}

/// Lists with one fault: each kind as early as it can stand, in the middle and
/// as late as it can stand. The length is at least 3.
fn single_faults(length: usize) -> Vec<List> {
    let (middle, last) = (length / 2, length - 1);
    let mut made = Vec::new();
    for position in [1, middle, last] {
        made.push(changed(length, |entries| {
            entries[position].0 = entries[0].0;
        }));
    }
    for position in [0, middle, last] {
        made.push(changed(length, |entries| {
            entries[position].1.depends_on = Some(ComponentId::new(u8::MAX));
        }));
        made.push(changed(length, |entries| depend_on_self(entries, position)));
    }
    for position in [0, middle, last - 1] {
        made.push(changed(length, |entries| {
            entries[position].1.depends_on = Some(entries[position + 1].0);
        }));
    }
    made
}

/// Ids 0, 1 and so on, where all but the first depend on the first, so that a
/// change at one entry makes no fault at another. Id 255 is absent.
fn changed(length: usize, change: impl FnOnce(&mut [Entry])) -> List {
    let first = ComponentId::new(0);
    let mut entries = vec![(first, ComponentAttrs::active_required())];
    let dependent = ComponentAttrs::passive_isolable().with_depends_on(first);
    entries.extend((1..length).map(|id| (ComponentId::new(id as u8), dependent)));
    change(&mut entries);
    List::whole(entries)
}

#[cfg(test)]
mod tests {
    use super::super::answer::answer;
    use super::super::faults::faults;
    use super::*;

    const MOST_BYTES: usize = 120_000;

    #[test]
    fn single_faults_are_single() {
        for length in [3, 30, LONGEST] {
            for list in single_faults(length) {
                assert_eq!(faults(&list.entries).len(), 1, "{list}");
            }
        }
    }

    #[test]
    fn single_faults_reach_the_ends() {
        let positions: Vec<usize> = single_faults(LONGEST)
            .iter()
            .map(|list| faults(&list.entries)[0].position)
            .collect();
        for position in [0, 1, 127, 253, 254] {
            assert!(positions.contains(&position), "{position}");
        }
    }

    #[test]
    fn the_sample_reaches_every_answer_and_stays_small() {
        for seed in [1, 2, 3] {
            let sample = sample(seed);
            assert_eq!(sample.len(), SAMPLE);
            let bytes: usize = sample.iter().map(|list| list.to_string().len() + 1).sum();
            assert!(bytes <= MOST_BYTES, "{bytes}");
            for number in [0, 2, 3, 4, 5, 6] {
                assert!(sample.iter().any(|list| answer(list).number == number));
            }
        }
    }
}
