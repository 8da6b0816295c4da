//! The text of a case and of an answer; oracle/README.md describes both.

use std::fmt;

use openprot_orchestrator_sm::{Effect, Event, Status};

use super::numbers::{effect_fields, event, event_fields, state, state_parts};
use super::{Answer, Case, Machine, position_of};
use crate::lists::answer::chain;
use crate::lists::line::{ENTRY_FIELDS, NO_ID, byte, entries, numbers, optional_id, write_entries};
use crate::lists::{Entry, LONGEST};

impl fmt::Display for Case {
    fn fmt(&self, f: &mut fmt::Formatter<'_>) -> fmt::Result {
        write!(f, "{} {}", self.max_retry, self.entries.len())?;
        write_entries(f, &self.entries)?;
        write!(f, " {}", self.machine)?;
        write_fields(f, event_fields(&self.event))
    }
}

impl fmt::Display for Machine {
    fn fmt(&self, f: &mut fmt::Formatter<'_>) -> fmt::Result {
        write_head(f, self)?;
        write_statuses(f, &self.statuses)
    }
}

/// Writes `state payload cursor window`.
pub fn write_head(f: &mut fmt::Formatter<'_>, machine: &Machine) -> fmt::Result {
    let (state, id) = state_parts(machine.state);
    let payload = id.map_or(NO_ID, |id| id.get().into());
    let window = u8::from(machine.window);
    write!(f, "{state} {payload} {} {window}", machine.cursor)
}

/// Writes the statuses, each number after a space.
pub fn write_statuses(f: &mut fmt::Formatter<'_>, statuses: &[Status]) -> fmt::Result {
    for status in statuses {
        let fields = [
            status.isolated.into(),
            status.retry.into(),
            status.awaiting_boot.into(),
            status.released.into(),
        ];
        write_fields(f, fields)?;
    }
    Ok(())
}

impl fmt::Display for Answer {
    fn fmt(&self, f: &mut fmt::Formatter<'_>) -> fmt::Result {
        write!(f, "{} {}", self.machine, self.effects.len())?;
        let mut fields = self.effects.iter().map(|e: &Effect| effect_fields(e));
        fields.try_for_each(|fields| write_fields(f, fields))
    }
}

/// Writes the fields, each after a space.
pub fn write_fields(f: &mut fmt::Formatter<'_>, [a, b, c, d]: [u16; 4]) -> fmt::Result {
    write!(f, " {a} {b} {c} {d}")
}

/// Reads a line without its byte 10.
pub fn parse(line: &str) -> Result<Case, String> {
    let numbers = numbers(line)?;
    let mut fields = Fields::new(&numbers);
    let max_retry = byte(fields.one()?)?;
    let entries = parse_entries(&mut fields)?;
    let machine = parse_machine(&mut fields, &entries)?;
    let event = parse_event(&mut fields)?;
    fields.end()?;
    Ok(Case {
        max_retry,
        entries,
        machine,
        event,
    })
}

/// The numbers that are not read yet.
pub struct Fields<'a> {
    rest: &'a [u64],
}

impl<'a> Fields<'a> {
    pub fn new(numbers: &'a [u64]) -> Self {
        Self { rest: numbers }
    }

    /// No number is left.
    pub fn end(&self) -> Result<(), String> {
        match self.rest.len() {
            0 => Ok(()),
            left => Err(format!("{left} numbers too many")),
        }
    }

    fn take(&mut self, count: usize) -> Result<&'a [u64], String> {
        let (taken, rest) = self
            .rest
            .split_at_checked(count)
            .ok_or("the line has too few numbers")?;
        self.rest = rest;
        Ok(taken)
    }

    pub fn one(&mut self) -> Result<u64, String> {
        Ok(self.take(1)?[0])
    }
}

/// The length and the entries. Only an accepted chain has steps.
fn parse_entries(fields: &mut Fields) -> Result<Vec<Entry>, String> {
    let length = fields.one()?;
    if length > LONGEST as u64 {
        return Err(format!("a chain of {length}"));
    }
    let entries = entries(fields.take(length as usize * ENTRY_FIELDS)?)?;
    match chain(&entries) {
        Ok(_) => Ok(entries),
        Err(error) => Err(format!("the chain is refused: {error:?}")),
    }
}

pub fn parse_machine(fields: &mut Fields, entries: &[Entry]) -> Result<Machine, String> {
    let head = fields.take(4)?;
    let payload = optional_id(head[1])?;
    if let Some(id) = payload
        && position_of(entries, id).is_none()
    {
        return Err(format!("the state's id {} is not in the chain", id.get()));
    }
    let cursor = byte(head[2])?;
    if usize::from(cursor) > entries.len() {
        return Err(format!("cursor {cursor} of {}", entries.len()));
    }
    let statuses = fields.take(entries.len() * 4)?;
    Ok(Machine {
        state: state(head[0], payload)?,
        cursor,
        window: flag(head[3])?,
        statuses: statuses
            .chunks_exact(4)
            .map(parse_status)
            .collect::<Result<_, _>>()?,
    })
}

fn parse_status(fields: &[u64]) -> Result<Status, String> {
    Ok(Status {
        isolated: flag(fields[0])?,
        retry: byte(fields[1])?,
        awaiting_boot: flag(fields[2])?,
        released: flag(fields[3])?,
    })
}

pub fn parse_event(fields: &mut Fields) -> Result<Event, String> {
    let mut values = [0; 4];
    for (value, field) in values.iter_mut().zip(fields.take(4)?) {
        *value = u16::try_from(*field).map_err(|_| format!("{field} is above 65535"))?;
    }
    event(values)
}

fn flag(value: u64) -> Result<bool, String> {
    match value {
        0 => Ok(false),
        1 => Ok(true),
        other => Err(format!("a flag of {other}")),
    }
}

#[cfg(test)]
mod tests {
    use openprot_orchestrator_sm::{BootFailureKind, ComponentId, State};

    use super::*;

    /// Two components, the second one depending on the first.
    const LINE: &str = "3 2 7 0 2 4 256 8 1 0 5 7 \
                        5 8 1 1 1 9 0 1 0 255 1 0 \
                        14 8 65535 2";

    #[test]
    fn the_fields_keep_their_meaning() {
        let case = parse(LINE).unwrap();
        let second = ComponentId::new(8);
        assert_eq!(case.max_retry, 3);
        assert_eq!(case.entries[1].1.depends_on, Some(ComponentId::new(7)));
        assert_eq!(case.machine.state, State::Recovering(second));
        assert_eq!((case.machine.cursor, case.machine.window), (1, true));
        let first = Status {
            isolated: true,
            retry: 9,
            awaiting_boot: false,
            released: true,
        };
        assert_eq!(case.machine.statuses[0], first);
        assert!(case.machine.statuses[1].awaiting_boot);
        let event = Event::BootFailed {
            id: second,
            checkpoint: "65535",
            kind: BootFailureKind::DeviceFatal,
        };
        assert_eq!(case.event, event);
    }

    #[test]
    fn a_line_reads_back_as_it_was() {
        for line in [
            LINE,
            "0 1 7 0 0 0 256 0 256 0 0 0 0 0 0 0 0 0 0",
            "255 1 7 0 0 0 256 2 256 1 0 0 0 0 0 3 200 0 0",
            "2 1 7 0 0 0 256 2 7 1 0 0 0 0 0 17 0 0 0",
        ] {
            assert_eq!(parse(line).unwrap().to_string(), line);
        }
    }

    #[test]
    fn bad_lines_are_refused() {
        for line in [
            "",
            "2",
            "2 0 0 256 0 0 17 0 0 0",
            "2 256 7 0 0 0 256",
            "256 1 7 0 0 0 256 0 256 0 0 0 0 0 0 17 0 0 0",
            "2 1 7 0 0 0 7 0 256 0 0 0 0 0 0 17 0 0 0",
            "2 1 7 0 0 0 256 5 8 0 0 0 0 0 0 17 0 0 0",
            "2 1 7 0 0 0 256 0 256 2 0 0 0 0 0 17 0 0 0",
            "2 1 7 0 0 0 256 0 256 0 2 0 0 0 0 17 0 0 0",
            "2 1 7 0 0 0 256 0 256 0 0 0 256 0 0 17 0 0 0",
            "2 1 7 0 0 0 256 0 256 0 0 0 0 0 2 17 0 0 0",
            "2 1 7 0 0 0 256 0 256 0 0 0 0 0 0 14 7 65536 0",
            "2 1 7 0 0 0 256 0 256 0 0 0 0 0 0 17 0 0",
            "2 1 7 0 0 0 256 0 256 0 0 0 0 0 0 17 0 0 0 0",
            "2 1 7 0 0 0 256  0 256 0 0 0 0 0 0 17 0 0 0",
        ] {
            assert!(parse(line).is_err(), "{line:?}");
        }
    }

    #[test]
    fn an_answer_is_written_with_its_effects() {
        let case = parse(LINE).unwrap();
        let id = ComponentId::new(8);
        let effects = vec![
            Effect::RecoverComponent { id, attempt: 255 },
            Effect::Emit(Event::RecoveryFailed),
        ];
        let answer = Answer {
            machine: case.machine,
            effects,
        };
        let expected = "5 8 1 1 1 9 0 1 0 255 1 0 2 10 8 255 0 17 13 0 0";
        assert_eq!(answer.to_string(), expected);
    }
}
