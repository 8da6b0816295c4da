//! Generated lists. Each profile serves one part of the comparison; the weights
//! keep most lists short and still reach every answer often enough.

use openprot_orchestrator_sm::{
    ComponentAttrs, ComponentId, ComponentKind, FailurePolicy, RegionId,
};

use super::mutate::mutate;
use super::{CAPACITY, Entry, LONGEST, List};
use crate::random::SplitMix64;

/// How a list is made. The two numbers are the shortest and longest length.
#[derive(Clone, Copy)]
enum Profile {
    /// No fault.
    Accepted(usize, usize),
    /// An accepted list with one to three changes.
    Mutated(usize, usize),
    /// Ids and dependencies drawn apart from each other.
    Random(usize, usize),
    /// The shortest list that is too long; the Rust can hold it.
    Length256,
    /// A length that the Rust cannot hold, with 255 entries of anything.
    LengthAbove256,
}

/// Profiles and how often they come in 10,000 lists.
const WEIGHTS: [(usize, Profile); 13] = [
    (1800, Profile::Accepted(1, 6)),
    (3900, Profile::Mutated(1, 6)),
    (2300, Profile::Random(0, 6)),
    (300, Profile::Accepted(7, 60)),
    (600, Profile::Mutated(7, 60)),
    (200, Profile::Random(7, 60)),
    (40, Profile::Accepted(200, 253)),
    (120, Profile::Mutated(200, LONGEST)),
    (30, Profile::Random(200, LONGEST)),
    (70, Profile::Accepted(254, 254)),
    (70, Profile::Accepted(LONGEST, LONGEST)),
    (250, Profile::Length256),
    (320, Profile::LengthAbove256),
];

const KINDS: [ComponentKind; 2] = [ComponentKind::Active, ComponentKind::Passive];

const POLICIES: [FailurePolicy; 3] = [
    FailurePolicy::Required,
    FailurePolicy::Isolable,
    FailurePolicy::Cascading,
];

/// Endless lists for a seed. The same seed gives the same lists.
pub fn lists(seed: u64) -> impl Iterator<Item = List> {
    let mut random = SplitMix64::new(seed);
    std::iter::repeat_with(move || {
        let profile = draw_profile(&mut random);
        draw_list(&mut random, profile)
    })
}

fn draw_profile(random: &mut SplitMix64) -> Profile {
    let total = WEIGHTS.iter().map(|(weight, _)| weight).sum();
    let mut left = random.below(total);
    for (weight, profile) in WEIGHTS {
        if left < weight {
            return profile;
        }
        left -= weight;
    }
    unreachable!("a number below the total falls into one profile")
}

fn draw_list(random: &mut SplitMix64, profile: Profile) -> List {
    match profile {
        Profile::Accepted(low, high) => {
            let length = random.between(low, high);
            List::whole(accepted(random, length))
        }
        Profile::Mutated(low, high) => {
            let length = random.between(low, high);
            let mut entries = accepted(random, length);
            for _ in 0..random.between(1, 3) {
                mutate(random, &mut entries);
            }
            List::whole(entries)
        }
        Profile::Random(low, high) => {
            let length = random.between(low, high);
            List::whole(unrelated(random, length))
        }
        Profile::Length256 => List::whole(anything(random, CAPACITY)),
        Profile::LengthAbove256 => List {
            length: length_above_256(random),
            entries: anything(random, LONGEST),
        },
    }
}

/// Entries without a fault; `length` is at most 256.
pub fn accepted(random: &mut SplitMix64, length: usize) -> Vec<Entry> {
    let shape = random.below(4);
    let mut entries: Vec<Entry> = Vec::with_capacity(length);
    for id in different_ids(random, length) {
        let mut attrs = attributes(random);
        attrs.depends_on = earlier(random, &entries, shape);
        entries.push((id, attrs));
    }
    entries
}

/// The first `length` ids of a shuffled row of all ids.
fn different_ids(random: &mut SplitMix64, length: usize) -> Vec<ComponentId> {
    let mut ids: Vec<ComponentId> = (0..=u8::MAX).map(ComponentId::new).collect();
    for place in 0..length {
        let other = random.between(place, ids.len() - 1);
        ids.swap(place, other);
    }
    ids.truncate(length);
    ids
}

/// A dependency on one of `entries`, the earlier ones, or none. The shape sets
/// how the links of one list lie.
fn earlier(random: &mut SplitMix64, entries: &[Entry], shape: usize) -> Option<ComponentId> {
    let (first, last) = (entries.first()?, entries.last()?);
    match shape {
        0 => Some(last.0),
        1 => Some(first.0),
        _ if random.one_in(3) => None,
        _ => Some(random.pick(entries).0),
    }
}

/// Entries whose ids and dependencies come from one range, small or whole, so
/// that faults of several numbers meet.
fn unrelated(random: &mut SplitMix64, length: usize) -> Vec<Entry> {
    let range = random.pick(&[2, 4, 8, 16, 256]);
    (0..length)
        .map(|_| {
            let id = ComponentId::new(random.below(range) as u8);
            let mut attrs = attributes(random);
            if !random.one_in(3) {
                attrs.depends_on = Some(ComponentId::new(random.below(range) as u8));
            }
            (id, attrs)
        })
        .collect()
}

/// Entries of a list that is too long whatever they are.
fn anything(random: &mut SplitMix64, length: usize) -> Vec<Entry> {
    if random.one_in(2) {
        accepted(random, length)
    } else {
        unrelated(random, length)
    }
}

/// Any attributes without a dependency. Most regions are small, to keep lines
/// short.
fn attributes(random: &mut SplitMix64) -> ComponentAttrs {
    let region = if random.one_in(8) {
        random.byte()
    } else {
        random.below(10) as u8
    };
    ComponentAttrs {
        kind: random.pick(&KINDS),
        failure_policy: random.pick(&POLICIES),
        recovery_region: RegionId::new(region),
        depends_on: None,
    }
}

/// A length above 256. Many are small numbers after a cut to 8, 16 or 32 bits,
/// so that a port that cuts them answers otherwise.
fn length_above_256(random: &mut SplitMix64) -> u64 {
    let small = random.below(CAPACITY) as u64;
    match random.below(6) {
        0 => 257 + small,
        1 => (1 << 16) + small,
        2 => (1 << 32) + small,
        3 => (1 << 63) + small,
        4 => u64::MAX - small % 3,
        _ => (random.next_u64() | 1 << 9) & !0xff | small,
    }
}

#[cfg(test)]
mod tests {
    use super::super::faults::faults;
    use super::*;

    #[test]
    fn the_weights_make_ten_thousand() {
        let total: usize = WEIGHTS.iter().map(|(weight, _)| weight).sum();
        assert_eq!(total, 10_000);
    }

    #[test]
    fn the_seed_decides() {
        let first: Vec<List> = lists(7).take(50).collect();
        let again: Vec<List> = lists(7).take(50).collect();
        let other: Vec<List> = lists(8).take(50).collect();
        assert_eq!(first, again);
        assert_ne!(first, other);
    }

    #[test]
    fn accepted_lists_have_no_fault() {
        let mut random = SplitMix64::new(3);
        for length in [1, 2, 17, 254, 255, 256] {
            for _ in 0..20 {
                let entries = accepted(&mut random, length);
                assert_eq!(entries.len(), length);
                assert_eq!(faults(&entries), []);
            }
        }
    }

    #[test]
    fn lengths_above_256_are_above_256() {
        let mut random = SplitMix64::new(4);
        for _ in 0..1_000 {
            assert!(length_above_256(&mut random) > 256);
        }
    }
}
