//! Generated histories, drawn by profile: each profile serves one part of the
//! comparison. The weights keep most histories short and still reach every
//! corner often enough. Sheets are made from the same histories.

use openprot_orchestrator_sm::{ComponentId, State};

use super::History;
use super::planted::planted_failures;
use super::scenes::{
    failed_effect, full_queue, in_service, large, refused_list, set_up_machines, without_machine,
};
use super::storms::{deep_line, recovery_storm, restored_255_times, wide_fan};
use super::writer::{MOODS, Mood, Writer};
use crate::lists::Entry;
use crate::lists::generate::accepted;
use crate::random::SplitMix64;
use crate::steps::generate::draw_max_retry;

/// A usual history ends after this many calls, or a few after it has locked.
const CALLS: usize = 120;
const AFTER_LOCKED: usize = 3;

/// What histories are drawn for: a name, how often, and how one is drawn.
pub struct Profile {
    pub name: &'static str,
    weight: usize,
    draw: fn(&mut SplitMix64) -> History,
}

const fn profile(
    name: &'static str,
    weight: usize,
    draw: fn(&mut SplitMix64) -> History,
) -> Profile {
    Profile { name, weight, draw }
}

/// What no history leads to: no sheet can set a machine up, or plant a failure.
const SET_UP_MACHINES: &str = "set_up_machines";
const PLANTED_FAILURES: &str = "planted_failures";

/// Whether sheets can be made from the histories of a profile.
pub fn has_sheets(profile: &str) -> bool {
    profile != SET_UP_MACHINES && profile != PLANTED_FAILURES
}

pub const PROFILES: [Profile; 12] = [
    profile("small_chains", 150, usual),
    profile("chains_of_255", 1, large),
    profile("deep_lines", 15, deep_line),
    profile("wide_fans", 15, wide_fan),
    profile("recovery_storms", 120, recovery_storm),
    profile("restores_up_to_255", 1, restored_255_times),
    profile("update_churn", 140, in_service),
    profile("full_queues", 400, full_queue),
    profile("failed_effects", 90, failed_effect),
    profile("refused_lists", 50, refused_list),
    profile(SET_UP_MACHINES, 50, set_up_machines),
    // Drawn in place of about half of the set-up histories.
    profile(PLANTED_FAILURES, 0, planted_failures),
];

/// Endless histories for a seed. The same seed gives the same histories. The
/// first one has no machine; every other one begins with its own.
pub fn histories(seed: u64) -> impl Iterator<Item = History> {
    let mut random = SplitMix64::new(seed);
    let first = without_machine(&mut random);
    std::iter::once(first).chain(std::iter::repeat_with(move || draw_history(&mut random)))
}

fn draw_history(random: &mut SplitMix64) -> History {
    let Profile { name, draw, .. } = PROFILES[random.weighted(&PROFILES.map(|p| p.weight))];
    let mut apart = random.clone();
    let history = draw(random);
    // A planted history takes no random number from those that follow it, so
    // that all other histories of a seed, and its sheets, are the same without.
    if name == SET_UP_MACHINES && apart.one_in(2) {
        return History {
            profile: PLANTED_FAILURES,
            ..planted_failures(&mut apart)
        };
    }
    History {
        profile: name,
        ..history
    }
}

/// A short chain, led on from state to state, with everything strewn in.
fn usual(random: &mut SplitMix64) -> History {
    let length = match random.below(20) {
        0 => random.between(7, 40),
        1..=4 => random.between(4, 6),
        _ => random.between(1, 4),
    };
    let entries = accepted(random, length);
    let max_retry = draw_max_retry(random);
    let mut writer = Writer::new(random, entries, max_retry);
    let mut locked = 0;
    while writer.calls() < CALLS && locked < AFTER_LOCKED {
        if writer.machine.state() == State::Locked {
            locked += 1;
        }
        // Now and then the next machine is made while an effect waits.
        if writer.random.one_in(16) {
            let event = writer.apt_event();
            writer.begin(event);
            break;
        }
        turn(&mut writer);
    }
    writer.finish()
}

/// One dispatch, or a call that is refused.
fn turn(writer: &mut Writer) {
    match writer.random.below(20) {
        0..=3 => writer.strew(),
        4..=7 => {
            let (event, mood) = (writer.any_event(), draw_mood(writer.random));
            writer.dispatch(event, mood);
        }
        _ => {
            let (event, mood) = (writer.apt_event(), draw_mood(writer.random));
            writer.dispatch(event, mood);
        }
    }
}

/// Most dispatches go well, so that a history gets somewhere.
pub fn draw_mood(random: &mut SplitMix64) -> Mood {
    match random.below(12) {
        0..=4 => Mood::Calm,
        5..=8 => Mood::Reporting,
        _ => random.pick(&MOODS),
    }
}

/// The ids of a chain.
pub fn ids(entries: &[Entry]) -> Vec<ComponentId> {
    entries.iter().map(|(id, _)| *id).collect()
}

#[cfg(test)]
mod tests {
    use super::super::Call;
    use super::super::line::parse;
    use super::*;

    #[test]
    fn the_seed_decides() {
        let first: Vec<History> = histories(7).take(50).collect();
        let again: Vec<History> = histories(7).take(50).collect();
        let other: Vec<History> = histories(8).take(50).collect();
        assert_eq!(first, again);
        assert_ne!(first, other);
    }

    #[test]
    fn generated_histories_read_back() {
        for history in histories(3).take(500) {
            let read = parse(&history.to_string()).unwrap();
            assert_eq!(read.calls, history.calls);
        }
    }

    #[test]
    fn all_but_the_first_begin_with_a_machine() {
        for (index, history) in histories(3).take(500).enumerate() {
            let begins = matches!(history.calls[0], Call::New { .. });
            assert_eq!(begins, index > 0);
        }
    }
}
