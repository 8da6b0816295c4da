//! The workloads: sheets that are the same at every run.

use openprot_orchestrator_sm::{ComponentAttrs, ComponentId, Event, PowerOnResult};
use oracle::histories::Reply;
use oracle::lists::Entry;
use oracle::sheets::{Line, Sheet};

/// The numbers of components.
pub const SIZES: [usize; 4] = [1, 8, 64, 255];

pub struct Workload {
    pub name: &'static str,
    /// The smallest number of components that it makes sense for.
    pub least: usize,
    sheet: fn(usize) -> Sheet,
}

pub const WORKLOADS: [Workload; 7] = [
    Workload {
        name: "boot",
        least: 1,
        sheet: boot,
    },
    Workload {
        name: "storm",
        least: 1,
        sheet: storm,
    },
    Workload {
        name: "skip",
        least: 2,
        sheet: skip,
    },
    Workload {
        name: "line",
        least: 2,
        sheet: line,
    },
    Workload {
        name: "fan",
        least: 2,
        sheet: fan,
    },
    Workload {
        name: "churn",
        least: 1,
        sheet: churn,
    },
    Workload {
        name: "idle",
        least: 1,
        sheet: |size| idle(size, 2_000),
    },
];

impl Workload {
    pub fn named(name: &str) -> Option<&'static Self> {
        WORKLOADS.iter().find(|workload| workload.name == name)
    }

    pub fn sheet(&self, size: usize) -> Vec<u8> {
        (self.sheet)(size).to_string().into_bytes()
    }

    /// The sizes that it is run at.
    pub fn sizes(&self) -> impl Iterator<Item = usize> {
        let least = self.least;
        SIZES.into_iter().filter(move |size| *size >= least)
    }
}

/// The id at a position: another number than the position, and no two alike.
fn id(position: usize) -> ComponentId {
    ComponentId::new((position * 37 + 11) as u8)
}

/// A sheet of components that are Active and Passive in turn.
fn sheet(size: usize, attrs: impl Fn(usize) -> ComponentAttrs, lines: Vec<Line>) -> Sheet {
    let entry = |position| -> Entry { (id(position), attrs(position)) };
    Sheet {
        max_retry: 3,
        entries: (0..size).map(entry).collect(),
        lines,
    }
}

fn required(position: usize) -> ComponentAttrs {
    if position.is_multiple_of(2) {
        ComponentAttrs::active_required()
    } else {
        ComponentAttrs::passive_required()
    }
}

const POWER_GOOD: Line = Line::Event(Event::PowerGood(PowerOnResult::Provisioned));
const OK: Line = Line::Reply(Reply::Done);

fn then(event: Event) -> Line {
    Line::Reply(Reply::Then(event))
}

/// The E lines of a cold boot.
fn boot_lines(size: usize) -> Vec<Line> {
    let mut lines = vec![POWER_GOOD];
    for position in 0..size {
        let id = id(position);
        lines.push(Line::Event(Event::VerificationPassed(id)));
        lines.push(Line::Event(if position.is_multiple_of(2) {
            Event::ComponentReady(id)
        } else {
            Event::Booted(id)
        }));
    }
    lines
}

/// A cold boot: each component is verified and boots, one E line for each event.
fn boot(size: usize) -> Sheet {
    sheet(size, required, boot_lines(size))
}

/// The replies of a walk, after so many were held: the firmware of each is read
/// and verified, the verdict is fed back, and it is released.
fn walk(size: usize, held: usize) -> impl Iterator<Item = Line> {
    let holds = std::iter::repeat_n(OK, held);
    let walked = (0..size).flat_map(|position| {
        let passed = then(Event::VerificationPassed(id(position)));
        [OK, passed, OK]
    });
    holds.chain(walked)
}

/// The events of a storm are about so many, and its sheet short enough.
const STORM_EVENTS: usize = 1_200;

/// A boot, then recoveries. Each holds all and walks again, by replies that feed
/// the verdicts back.
fn storm(size: usize) -> Sheet {
    let mut lines = vec![POWER_GOOD];
    lines.extend(walk(size, 0));
    for round in 0..STORM_EVENTS / (size + 2) {
        let corrupt = id(round * 5 % size);
        lines.push(Line::Event(Event::CorruptionDetected(corrupt)));
        lines.push(then(Event::Restored(corrupt)));
        // The one under recovery is held already.
        lines.extend(walk(size, size - 1));
    }
    sheet(size, required, lines)
}

/// All but the last are isolated. Then the last is recovered again and again, and
/// each walk passes the others.
fn skip(size: usize) -> Sheet {
    let last = id(size - 1);
    let mut lines = vec![POWER_GOOD];
    for position in 0..size - 1 {
        lines.push(Line::Event(Event::CorruptionDetected(id(position))));
    }
    let round = [
        Event::VerificationFailed(last),
        Event::Restored(last),
        Event::VerificationPassed(last),
        Event::ComponentReady(last),
        Event::CorruptionDetected(last),
        Event::Restored(last),
    ];
    lines.extend(round.into_iter().cycle().take(1_200).map(Line::Event));
    let attrs = |position| {
        if position == size - 1 {
            ComponentAttrs::active_required()
        } else {
            ComponentAttrs::passive_isolable()
        }
    };
    sheet(size, attrs, lines)
}

/// Cascades from this position and then from each one before it: the first of
/// them all is given up by its recovery, the others are found corrupt.
fn cascades(last: usize) -> Vec<Line> {
    let mut lines = vec![POWER_GOOD];
    for position in (1..=last).rev() {
        lines.push(Line::Event(Event::CorruptionDetected(id(position))));
    }
    lines.push(Line::Event(Event::VerificationFailed(id(0))));
    lines.push(Line::Event(Event::RecoveryUnavailable(id(0))));
    lines
}

/// Each depends on the one before. Cascades from the middle, then from each one
/// before it.
fn line(size: usize) -> Sheet {
    let attrs = |position: usize| match position.checked_sub(1) {
        None => ComponentAttrs::active_cascading(),
        Some(before) => ComponentAttrs::passive_cascading().with_depends_on(id(before)),
    };
    sheet(size, attrs, cascades(size / 2))
}

/// A trunk of an eighth of them, and all others depend on its end. Cascades from
/// its end to its start.
fn fan(size: usize) -> Sheet {
    let trunk = (size / 8).max(1);
    let attrs = |position: usize| match position.checked_sub(1) {
        None => ComponentAttrs::active_cascading(),
        Some(before) if position < trunk => {
            ComponentAttrs::active_cascading().with_depends_on(id(before))
        }
        Some(_) => ComponentAttrs::passive_required().with_depends_on(id(trunk - 1)),
    };
    sheet(size, attrs, cascades(trunk - 1))
}

/// A boot, then updates and attestations.
fn churn(size: usize) -> Sheet {
    let mut lines = boot_lines(size);
    for round in 0..220 {
        let updated = id(round * 5 % size);
        lines.extend(
            [
                Event::UpdateRequest,
                Event::AttestationChallenge,
                Event::UpdateRequest,
                Event::UpdateVerified,
                Event::AttestationChallenge,
                Event::BootConfirmed(updated),
                Event::UpdateRequest,
                Event::UpdateRejected,
            ]
            .map(Line::Event),
        );
    }
    sheet(size, required, lines)
}

/// So many events that change nothing: not of this state, about a component that
/// is not awaited, or about one outside the chain.
pub fn idle(size: usize, events: usize) -> Sheet {
    let event = |place: usize| match place % 5 {
        0 => Event::CommitTimeout,
        1 => Event::Timeout(id(place * 3 % size)),
        2 => Event::UpdateVerified,
        3 => Event::Booted(id(size)),
        _ => Event::Restored(id(place * 7 % size)),
    };
    let idle = (1..events).map(|place| Line::Event(event(place)));
    sheet(
        size,
        required,
        std::iter::once(POWER_GOOD).chain(idle).collect(),
    )
}

/// So many events, each an E line: a boot, then recoveries with their walks.
pub fn walks(size: usize, events: usize) -> Sheet {
    let mut lines = vec![POWER_GOOD];
    let passed = |position| Line::Event(Event::VerificationPassed(id(position)));
    lines.extend((0..size).map(passed));
    for round in 0..events {
        if lines.len() >= events {
            break;
        }
        let corrupt = id(round * 5 % size);
        lines.push(Line::Event(Event::CorruptionDetected(corrupt)));
        lines.push(Line::Event(Event::Restored(corrupt)));
        lines.extend((0..size).map(passed));
    }
    lines.truncate(events);
    sheet(size, required, lines)
}

#[cfg(test)]
mod tests {
    use oracle::sheets::PROGRAM_BYTES;
    use oracle::sheets::record::Recording;

    use super::*;

    fn transcript(name: &str, size: usize) -> String {
        let recording = Recording::of(&Workload::named(name).unwrap().sheet(size));
        assert_eq!(recording.refusal.number, 0, "{name} {size}");
        String::from_utf8(recording.transcript()).unwrap()
    }

    fn count(text: &str, word: &str) -> usize {
        text.lines().filter(|line| line.starts_with(word)).count()
    }

    #[test]
    fn sheets_are_short_enough_for_the_programs() {
        for workload in &WORKLOADS {
            for size in workload.sizes() {
                let bytes = workload.sheet(size).len();
                assert!(bytes <= PROGRAM_BYTES, "{} {size}: {bytes}", workload.name);
            }
        }
    }

    #[test]
    fn a_boot_ends_ready_with_all_released_and_booted() {
        for size in SIZES {
            let text = transcript("boot", size);
            assert_eq!(count(&text, "X\tReleaseReset"), size);
            assert!(text.contains("S\tReady\n"));
            assert_eq!(text.matches("\tNominal\t0\t0\t1\n").count(), size);
        }
    }

    #[test]
    fn a_storm_holds_all_others_at_each_recovery() {
        for size in SIZES {
            let text = transcript("storm", size);
            let rounds = STORM_EVENTS / (size + 2);
            assert_eq!(count(&text, "S\tReady"), rounds + 1);
            assert_eq!(count(&text, "X\tAssertReset"), rounds * (size - 1));
        }
    }

    #[test]
    fn skip_walks_only_the_last() {
        for size in [8, 64, 255] {
            let text = transcript("skip", size);
            assert_eq!(count(&text, "X\tReportIsolated"), size - 1);
            let last = id(size - 1).get();
            assert!(count(&text, &format!("X\tVerifyFirmware\t{last}")) >= 400);
        }
    }

    #[test]
    fn cascades_hold_every_component_once() {
        for size in [8, 64, 255] {
            for name in ["line", "fan"] {
                let text = transcript(name, size);
                assert_eq!(count(&text, "X\tReportIsolated"), size);
            }
        }
    }

    #[test]
    fn churn_updates_and_commits() {
        for size in SIZES {
            let text = transcript("churn", size);
            for effect in ["ActivateUpdate", "CommitSvnFloor", "DiscardStaged"] {
                assert_eq!(count(&text, &format!("X\t{effect}")), 220);
            }
            assert_eq!(count(&text, "X\tSignAttestation"), 440);
        }
    }

    #[test]
    fn idle_events_hand_out_nothing() {
        for size in SIZES {
            let text = transcript("idle", size);
            assert_eq!(count(&text, "X"), 2);
            assert_eq!(count(&text, "S\tPreSupervision"), 2_000);
        }
    }

    #[test]
    fn walks_have_so_many_events() {
        for (size, events) in [(1, 50), (8, 300), (255, 100), (255, 2_000)] {
            let sheet = walks(size, events).to_string();
            assert_eq!(count(&sheet, "E"), events);
            assert!(sheet.len() <= PROGRAM_BYTES);
        }
    }
}
