//! Generated sheets: histories turned into sheets, the same with damage, and
//! sheets that are long.

use openprot_orchestrator_sm::{ComponentId, ComponentKind, Event, PowerOnResult};

use super::damage::damage;
use super::extremes::extremes;
use super::{Line, PROGRAM_BYTES, Sheet};
use crate::histories::generate::{PROFILES, has_sheets, histories};
use crate::histories::stepwise::Stepwise;
use crate::histories::{Call, History, Reply};
use crate::lists::answer::chain;
use crate::lists::generate::accepted;
use crate::lists::{CAPACITY, LONGEST, List};
use crate::random::SplitMix64;
use crate::steps::answer::Rust;
use crate::steps::generate::draw_max_retry;

/// The text of a sheet, damaged or not, and what it was made from.
#[derive(Clone, PartialEq, Eq, Debug)]
pub struct Case {
    pub text: Vec<u8>,
    pub source: &'static str,
}

const EXTREME: &str = "extreme";
const WITHOUT_EVENTS: &str = "without_events";
const MANY_COMPONENTS: &str = "many_components";
const TOO_LONG: &str = "too_long";
const LONG_TRANSCRIPT: &str = "long_transcript";

/// What a case is made from, unless it is damaged: the profile of a history, or
/// something that histories do not have.
pub fn sources() -> Vec<&'static str> {
    let profiles = PROFILES.iter().map(|profile| profile.name);
    let mut sources: Vec<&str> = profiles.filter(|name| has_sheets(name)).collect();
    sources.extend([
        EXTREME,
        WITHOUT_EVENTS,
        MANY_COMPONENTS,
        TOO_LONG,
        LONG_TRANSCRIPT,
    ]);
    sources
}

/// The extremes, then endless cases for a seed. The same seed gives the same
/// cases.
pub fn cases(seed: u64) -> impl Iterator<Item = Case> {
    let extremes = extremes().into_iter().map(|extreme| Case {
        text: extreme.text,
        source: EXTREME,
    });
    let mut random = SplitMix64::new(seed);
    // The first history has no machine; others set theirs up, which no sheet can.
    let mut histories = histories(random.next_u64())
        .skip(1)
        .filter(|history| has_sheets(history.profile));
    extremes.chain(std::iter::repeat_with(move || {
        let history = histories.next().expect("endless histories");
        draw_case(&mut random, &history)
    }))
}

fn draw_case(random: &mut SplitMix64, history: &History) -> Case {
    let (text, source) = match random.below(1_000) {
        0..=3 => (too_long(random), TOO_LONG),
        4..=10 => (
            long_transcript(random).to_string().into_bytes(),
            LONG_TRANSCRIPT,
        ),
        11..=15 => (many_components(random), MANY_COMPONENTS),
        16..=45 => {
            let mut sheet = of_history(random, history);
            sheet.lines.clear();
            (sheet.to_string().into_bytes(), WITHOUT_EVENTS)
        }
        46..=400 => {
            let mut text = of_history(random, history).to_string().into_bytes();
            let name = damage(random, &mut text);
            (text, name)
        }
        _ => (
            of_history(random, history).to_string().into_bytes(),
            history.profile,
        ),
    };
    Case { text, source }
}

/// A history as a sheet. Calls that a sheet cannot make are left out, and so
/// are most that are refused.
pub fn of_history(random: &mut SplitMix64, history: &History) -> Sheet {
    let Some(Call::New { max_retry, list }) = history.calls.first() else {
        panic!("the history begins with its machine");
    };
    let mut lines = Lines {
        machine: machine(*max_retry, list),
        lines: Vec::new(),
        // In one sheet of four, R lines are left out here and there.
        dropping: random.one_in(4),
    };
    for call in &history.calls[1..] {
        match call {
            Call::Begin(event) => lines.event(random, *event),
            Call::Reply(reply) => lines.reply(random, *reply),
            Call::Step(_) | Call::New { .. } | Call::SetUp(_) | Call::Planted(_) => {}
        }
    }
    let mut lines = lines.lines;
    if random.one_in(2) {
        lines = without_last_oks(&lines);
    }
    Sheet {
        max_retry: *max_retry,
        entries: list.entries.clone(),
        lines,
    }
}

/// The machine of a list, if it is accepted.
fn machine(max_retry: u8, list: &List) -> Option<Stepwise> {
    let chain = chain(&list.entries).ok()?;
    let rust = Rust::new(chain, max_retry);
    Some(Stepwise::new(rust, max_retry, list.entries.clone()).silent())
}

/// The lines so far, beside a machine that follows them.
struct Lines {
    machine: Option<Stepwise>,
    lines: Vec<Line>,
    dropping: bool,
}

impl Lines {
    fn waiting(&self) -> bool {
        let machine = self.machine.as_ref();
        machine.is_none_or(|machine| machine.waiting().is_some())
    }

    /// An E line. Where an effect waits, the line answers ok to it and to those
    /// after it; most of these are left out.
    fn event(&mut self, random: &mut SplitMix64, event: Event) {
        if self.machine.is_some() && self.waiting() && !random.one_in(4) {
            return;
        }
        self.lines.push(Line::Event(event));
        if let Some(machine) = &mut self.machine {
            while machine.waiting().is_some() {
                machine.reply(Reply::Done);
            }
            machine.begin(event);
        }
    }

    /// An R line. Most of those that nothing waits for are left out, since they
    /// end the run.
    fn reply(&mut self, random: &mut SplitMix64, reply: Reply) {
        let left_out = if self.waiting() {
            self.dropping && random.one_in(8)
        } else {
            !random.one_in(16)
        };
        if left_out {
            return;
        }
        self.lines.push(Line::Reply(reply));
        if let Some(machine) = &mut self.machine {
            machine.reply(reply);
        }
    }
}

/// The lines without the `R ok` lines that stand before an E line or the end:
/// the run is the same.
fn without_last_oks(lines: &[Line]) -> Vec<Line> {
    let mut kept = Vec::new();
    for line in lines.iter().rev() {
        let last = !matches!(kept.last(), Some(Line::Reply(_)));
        if !(last && *line == Line::Reply(Reply::Done)) {
            kept.push(*line);
        }
    }
    kept.reverse();
    kept
}

/// A list at the edge of what is accepted, with or without a few lines.
fn many_components(random: &mut SplitMix64) -> Vec<u8> {
    let length = random.pick(&[LONGEST, CAPACITY, CAPACITY + 1, 300]);
    let mut entries = accepted(random, length.min(CAPACITY));
    // The ids are used up: the rest repeats them.
    entries.extend_from_within(..length - entries.len());
    let first = entries[0].0;
    let mut lines = vec![
        Line::Event(Event::PowerGood(PowerOnResult::Provisioned)),
        Line::Event(Event::VerificationPassed(first)),
        Line::Reply(Reply::Done),
        Line::Event(Event::CorruptionDetected(first)),
    ];
    lines.truncate(random.below(5));
    let sheet = Sheet {
        max_retry: draw_max_retry(random),
        entries,
        lines,
    };
    sheet.to_string().into_bytes()
}

/// More bytes than the programs take, some of them a well-formed sheet.
fn too_long(random: &mut SplitMix64) -> Vec<u8> {
    let more = random.pick(&[1, 2, 11, 1_000, PROGRAM_BYTES, 2 * PROGRAM_BYTES]);
    let mut text = long_transcript(random).to_string().into_bytes();
    if random.one_in(2) {
        text.resize_with(PROGRAM_BYTES + more, || random.byte());
        return text;
    }
    while text.len() < PROGRAM_BYTES + more {
        text.extend(b"E\tBooted\t1\n");
    }
    text
}

/// A sheet whose transcript has about as many bytes as the programs' buffer. It
/// waits for its first component, and most events do nothing.
fn long_transcript(random: &mut SplitMix64) -> Sheet {
    let length = random.between(2, 100);
    let mut entries = accepted(random, length);
    entries[0].1.kind = ComponentKind::Active;
    let first = entries[0].0;
    let mut lines = vec![
        Line::Event(Event::PowerGood(PowerOnResult::Provisioned)),
        Line::Event(Event::VerificationPassed(first)),
    ];
    let most = random.between(PROGRAM_BYTES - 2_000, PROGRAM_BYTES + 2_000);
    let mut bytes = 0;
    while bytes < most {
        let (event, transcript) = random.pick(&LONG_EVENTS);
        lines.push(Line::Event(event));
        bytes += transcript;
    }
    Sheet {
        max_retry: draw_max_retry(random),
        entries,
        lines,
    }
}

/// Events of AwaitingReady, with the bytes that they give a transcript: the S
/// line, and before it ReportUpdateDeferred or SignAttestation.
const LONG_EVENTS: [(Event, usize); 4] = [
    (Event::Booted(ComponentId::new(1)), 20),
    (Event::CommitTimeout, 20),
    (Event::UpdateRequest, 43),
    (Event::AttestationChallenge, 38),
];

#[cfg(test)]
mod tests {
    use super::super::read::read;
    use super::super::record::Recording;
    use super::*;

    #[test]
    fn the_seed_decides() {
        let first: Vec<Case> = cases(7).take(100).collect();
        let again: Vec<Case> = cases(7).take(100).collect();
        let other: Vec<Case> = cases(8).take(100).collect();
        assert_eq!(first, again);
        assert_ne!(first, other);
    }

    /// Each line has one text only, so whatever is read is printed as it was:
    /// no damage is read as something else.
    #[test]
    fn a_sheet_that_is_read_prints_back() {
        let mut damaged_and_read = 0;
        for case in cases(3).take(4_000) {
            if let Ok(sheet) = read(&case.text) {
                assert_eq!(sheet.to_string().into_bytes(), case.text);
                damaged_and_read += u32::from(!sources().contains(&case.source));
            }
        }
        assert!(damaged_and_read > 100, "{damaged_and_read}");
    }

    #[test]
    fn histories_become_well_formed_sheets() {
        for case in cases(4).take(1_000) {
            if PROFILES.iter().any(|profile| profile.name == case.source) {
                assert!(read(&case.text).is_ok());
            }
        }
    }

    #[test]
    fn the_last_oks_make_no_difference() {
        let mut random = SplitMix64::new(5);
        let mut shorter = 0;
        for history in histories(5).skip(1).take(300) {
            let sheet = of_history(&mut random, &history);
            let lines = without_last_oks(&sheet.lines);
            shorter += u32::from(lines.len() < sheet.lines.len());
            let without = Sheet {
                lines,
                ..sheet.clone()
            };
            let run = |sheet: &Sheet| Recording::of(sheet.to_string().as_bytes());
            let (whole, without) = (run(&sheet), run(&without));
            // A reply that nothing waits for may be among those left out.
            if whole.refusal.number == 0 {
                assert_eq!(whole.moments, without.moments);
            }
        }
        assert!(shorter > 50, "{shorter}");
    }
}
