//! Changes to an accepted list, each of which makes one kind of fault (a swap
//! may make none).

use openprot_orchestrator_sm::ComponentId;

use super::Entry;
use crate::random::SplitMix64;

/// Makes one change to `entries`, which is not empty.
pub fn mutate(random: &mut SplitMix64, entries: &mut [Entry]) {
    let position = position(random, entries.len());
    match random.below(5) {
        0 => repeat_id(random, entries, position),
        1 => depend_on_absent(random, entries, position),
        2 => depend_forward(random, entries, position),
        3 => depend_on_self(entries, position),
        _ => entries.swap(position, random.below(entries.len())),
    }
}

/// The first or last position more often than the others.
pub fn position(random: &mut SplitMix64, length: usize) -> usize {
    match random.below(4) {
        0 => 0,
        1 => length - 1,
        _ => random.below(length),
    }
}

/// Gives the entry at `position` the id of an earlier one, if there is one.
fn repeat_id(random: &mut SplitMix64, entries: &mut [Entry], position: usize) {
    if position > 0 {
        entries[position].0 = entries[random.below(position)].0;
    }
}

/// Lets the entry at `position` depend on an id outside the list, if there is
/// one.
fn depend_on_absent(random: &mut SplitMix64, entries: &mut [Entry], position: usize) {
    let absent: Vec<ComponentId> = (0..=u8::MAX)
        .map(ComponentId::new)
        .filter(|id| entries.iter().all(|(present, _)| present != id))
        .collect();
    if !absent.is_empty() {
        entries[position].1.depends_on = Some(random.pick(&absent));
    }
}

/// Lets the entry at `position` depend on a later one, if there is one.
fn depend_forward(random: &mut SplitMix64, entries: &mut [Entry], position: usize) {
    let later = position + 1;
    if later < entries.len() {
        entries[position].1.depends_on = Some(random.pick(&entries[later..]).0);
    }
}

/// Lets the entry at `position` depend on itself.
pub fn depend_on_self(entries: &mut [Entry], position: usize) {
    entries[position].1.depends_on = Some(entries[position].0);
}
