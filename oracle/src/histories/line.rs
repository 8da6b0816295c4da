//! The text of a history and of its answers; oracle/README.md describes both.

use std::fmt;

use openprot_orchestrator_sm::{Event, Status};

use super::stepwise::QUEUE;
use super::{Answer, Answers, Call, Called, History, Reply};
use crate::lists::answer::{Answer as Verdict, answer as verdict};
use crate::lists::line::{byte, numbers};
use crate::lists::{self, Entry, List};
use crate::steps;
use crate::steps::line::{
    Fields, parse_event, parse_machine, write_fields, write_head, write_statuses,
};
use crate::steps::numbers::{effect_fields, event_fields};

/// The first numbers of the calls. A line that begins with a smaller number is
/// a case of `steps`.
const NEW: u64 = 256;
const BEGIN: u64 = 257;
const DONE: u64 = 258;
const THEN: u64 = 259;
const FAILED: u64 = 260;
const SET_UP: u64 = 261;
const PLANTED: u64 = 262;

/// The number in the place of an effect where none waits.
const NO_EFFECT: u16 = 18;

/// The answer to a call when there is no machine.
const NO_MACHINE: u8 = 99;

/// The words of the isolated positions, and the positions in a word.
const WORDS: usize = 4;
const WORD_BITS: usize = 64;

impl fmt::Display for History {
    fn fmt(&self, f: &mut fmt::Formatter<'_>) -> fmt::Result {
        write_lines(f, &self.calls)
    }
}

impl fmt::Display for Answers {
    fn fmt(&self, f: &mut fmt::Formatter<'_>) -> fmt::Result {
        write_lines(f, &self.answers)
    }
}

/// Writes the items on a line each, with no byte 10 after the last.
fn write_lines(f: &mut fmt::Formatter<'_>, items: &[impl fmt::Display]) -> fmt::Result {
    for (index, item) in items.iter().enumerate() {
        if index > 0 {
            writeln!(f)?;
        }
        write!(f, "{item}")?;
    }
    Ok(())
}

impl fmt::Display for Call {
    fn fmt(&self, f: &mut fmt::Formatter<'_>) -> fmt::Result {
        match self {
            Call::Step(case) => write!(f, "{case}"),
            Call::New { max_retry, list } => write!(f, "{NEW} {max_retry} {list}"),
            Call::Begin(event) => {
                write!(f, "{BEGIN}")?;
                write_fields(f, event_fields(event))
            }
            Call::Reply(Reply::Done) => write!(f, "{DONE}"),
            Call::Reply(Reply::Then(event)) => {
                write!(f, "{THEN}")?;
                write_fields(f, event_fields(event))
            }
            Call::Reply(Reply::Failed) => write!(f, "{FAILED}"),
            Call::SetUp(machine) => write!(f, "{SET_UP} {machine}"),
            Call::Planted(events) => {
                write!(f, "{PLANTED} {}", events.len())?;
                let mut fields = events.iter().map(event_fields);
                fields.try_for_each(|fields| write_fields(f, fields))
            }
        }
    }
}

impl fmt::Display for Answer {
    fn fmt(&self, f: &mut fmt::Formatter<'_>) -> fmt::Result {
        match self {
            Answer::Step(answer) => write!(f, "{answer}"),
            Answer::New(answer) => write!(f, "{answer}"),
            Answer::NoMachine => write!(f, "{NO_MACHINE}"),
            Answer::Called(called) => write!(f, "{called}"),
        }
    }
}

impl fmt::Display for Called {
    fn fmt(&self, f: &mut fmt::Formatter<'_>) -> fmt::Result {
        let machine = &self.machine;
        write!(f, "{}", self.number)?;
        write_fields(
            f,
            self.effect
                .map_or([NO_EFFECT, 0, 0, 0], |effect| effect_fields(&effect)),
        )?;
        write!(f, " ")?;
        write_head(f, machine)?;
        let isolated = machine.statuses.iter().filter(|status| status.isolated);
        write!(f, " {}", isolated.count())?;
        if self.effect.is_none() {
            let [a, b, c, d] = isolated_words(&machine.statuses);
            write!(f, " {a} {b} {c} {d}")?;
            write_statuses(f, &machine.statuses)?;
        }
        Ok(())
    }
}

/// The isolated positions by section 2 of document 01: position p is bit p mod
/// 64, lowest first, of word p / 64.
fn isolated_words(statuses: &[Status]) -> [u64; WORDS] {
    let mut words = [0; WORDS];
    for (position, status) in statuses.iter().enumerate() {
        words[position / WORD_BITS] |= u64::from(status.isolated) << (position % WORD_BITS);
    }
    words
}

/// Whether the line makes a machine, and so begins a history.
pub fn is_new(line: &str) -> bool {
    line.split(' ').next() == Some("256")
}

/// Reads the lines of a history.
pub fn parse(text: &str) -> Result<History, String> {
    let mut calls = Vec::new();
    let mut entries = None;
    for (index, line) in text.split('\n').enumerate() {
        let call = parse_call(line, entries.as_deref())
            .map_err(|message| format!("line {}: {message}", index + 1))?;
        if let Call::New { list, .. } = &call {
            if index > 0 {
                return Err(format!("line {}: a second machine", index + 1));
            }
            entries = accepted_entries(list);
        }
        calls.push(call);
    }
    Ok(History::new(calls))
}

fn accepted_entries(list: &List) -> Option<Vec<Entry>> {
    (verdict(list) == Verdict::ACCEPTED).then(|| list.entries.clone())
}

/// Reads one line; `entries` are those of the machine at hand, if there is one.
fn parse_call(line: &str, entries: Option<&[Entry]>) -> Result<Call, String> {
    let (first, rest) = line.split_once(' ').unwrap_or((line, ""));
    let first: u64 = first
        .parse()
        .map_err(|error| format!("number {first:?}: {error}"))?;
    if first < NEW {
        return steps::line::parse(line).map(Call::Step);
    }
    if first == NEW {
        return parse_new(rest);
    }
    let numbers = if rest.is_empty() {
        Vec::new()
    } else {
        numbers(rest)?
    };
    let mut fields = Fields::new(&numbers);
    let call = match first {
        BEGIN => Call::Begin(parse_event(&mut fields)?),
        DONE => Call::Reply(Reply::Done),
        THEN => Call::Reply(Reply::Then(parse_event(&mut fields)?)),
        FAILED => Call::Reply(Reply::Failed),
        SET_UP => {
            let entries = entries.ok_or("no machine to set up")?;
            Call::SetUp(parse_machine(&mut fields, entries)?)
        }
        PLANTED => Call::Planted(parse_planted(&mut fields)?),
        other => return Err(format!("call {other}")),
    };
    fields.end()?;
    Ok(call)
}

fn parse_planted(fields: &mut Fields) -> Result<Vec<Event>, String> {
    let count = fields.one()?;
    if count > QUEUE as u64 {
        return Err(format!("{count} events for a queue of {QUEUE}"));
    }
    (0..count).map(|_| parse_event(fields)).collect()
}

fn parse_new(rest: &str) -> Result<Call, String> {
    let (max_retry, list) = rest.split_once(' ').ok_or("no list")?;
    Ok(Call::New {
        max_retry: byte(numbers(max_retry)?[0])?,
        list: lists::line::parse(list)?,
    })
}

#[cfg(test)]
mod tests {
    use openprot_orchestrator_sm::{BootFailureKind, ComponentId, Effect, State};

    use super::*;
    use crate::steps::Machine;

    const HISTORY: &str = "256 3 2 7 0 0 0 256 8 1 2 5 7\n257 0 0 0 0\n258\n\
                           2 1 7 0 0 0 256 0 256 0 0 0 0 0 0 0 0 0 0\n\
                           259 14 8 65535 2\n260\n261 5 8 2 1 0 1 0 1 1 0 0 0\n257 17 0 0 0\n\
                           262 2 5 0 0 0 14 8 1 2\n262 0";

    #[test]
    fn a_history_reads_back_as_it_was() {
        for text in [
            HISTORY,
            "256 0 0\n258",
            "257 1 7 0 0\n260",
            "256 9 300 1 0 0 0 256",
        ] {
            assert_eq!(parse(text).unwrap().to_string(), text);
        }
    }

    #[test]
    fn the_calls_keep_their_meaning() {
        let calls = parse(HISTORY).unwrap().calls;
        let id = ComponentId::new(8);
        assert!(matches!(&calls[0], Call::New { max_retry: 3, list } if list.entries.len() == 2));
        assert!(matches!(&calls[3], Call::Step(_)));
        assert_eq!(calls[5], Call::Reply(Reply::Failed));
        assert!(matches!(&calls[6], Call::SetUp(m) if m.state == State::Recovering(id)));
        assert_eq!(calls[7], Call::Begin(Event::EffectFailed));
        let failed = Event::BootFailed {
            id,
            checkpoint: "1",
            kind: BootFailureKind::DeviceFatal,
        };
        let planted = vec![Event::AttestationChallenge, failed];
        assert_eq!(calls[8], Call::Planted(planted));
        assert_eq!(calls[9], Call::Planted(Vec::new()));
    }

    #[test]
    fn bad_histories_are_refused() {
        for text in [
            "",
            "262",
            "262 1 5 0 0",
            "262 1 5 0 0 0 5 0 0 0",
            "262 1 18 0 0 0",
            &format!("262 9{}", " 5 0 0 0".repeat(9)),
            "263",
            "257",
            "257 0 0 0",
            "258 0",
            "260 0",
            "259 18 0 0 0",
            "256 0",
            "256 256 1 7 0 0 0 256",
            "258\n256 0 0",
            "261 0 256 0 0",
            "256 0 0\n261 0 256 0 0",
            "256 0 1 7 0 0 0 256\n261 0 256 0 0 0 0 0",
        ] {
            assert!(parse(text).is_err(), "{text:?}");
        }
    }

    #[test]
    fn only_a_new_machine_begins_a_history() {
        assert!(is_new("256 0 0"));
        assert!(!is_new("2560 0 0"));
        assert!(!is_new("257 0 0 0 0"));
    }

    fn called(effect: Option<Effect>) -> String {
        let status = |isolated| Status {
            isolated,
            retry: 4,
            awaiting_boot: false,
            released: true,
        };
        let machine = Machine {
            state: State::Ready,
            cursor: 2,
            window: true,
            statuses: vec![status(false), status(true)],
        };
        let called = Called {
            number: 0,
            effect,
            machine,
        };
        called.to_string()
    }

    #[test]
    fn statuses_are_written_where_no_effect_waits() {
        let effect = Effect::ReleaseReset(ComponentId::new(9));
        assert_eq!(called(Some(effect)), "0 2 9 0 0 3 256 2 1 1");
        let rest = "2 0 0 0 0 4 0 1 1 4 0 1";
        assert_eq!(called(None), format!("0 18 0 0 0 3 256 2 1 1 {rest}"));
    }

    #[test]
    fn the_words_hold_64_positions_each() {
        let status = Status {
            isolated: false,
            retry: 0,
            awaiting_boot: false,
            released: false,
        };
        let mut statuses = vec![status; 255];
        for position in [0, 63, 64, 254] {
            statuses[position].isolated = true;
        }
        assert_eq!(isolated_words(&statuses), [1 | 1 << 63, 1, 0, 1 << 62]);
    }
}
