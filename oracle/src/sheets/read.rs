//! Reads a sheet: question 1 of document 01.

use std::fmt::Debug;
use std::sync::LazyLock;

use openprot_orchestrator_sm::{
    ComponentAttrs, ComponentId, ComponentKind, Event, FailurePolicy, RegionId,
};

use super::text::name;
use super::{Line, Sheet};
use crate::histories::Reply;
use crate::lists::Entry;
use crate::steps::numbers::{BOOT_FAILURE_KINDS, EVENTS, POWER_ON_RESULTS, event as numbered};
use crate::steps::rules::{BOOT_FAILED, NAMING, POWER_GOOD};

/// The names of the events, by their numbers.
static EVENT_NAMES: LazyLock<Vec<String>> = LazyLock::new(|| {
    (0..EVENTS as u16)
        .map(|number| name(&numbered([number, 0, 0, 0]).expect("an event")))
        .collect()
});

/// The sheet, or the first bad line from 1. An empty sheet has line 1 bad.
pub fn read(text: &[u8]) -> Result<Sheet, usize> {
    let mut sheet = None;
    let lines = text.split_inclusive(|byte| *byte == b'\n');
    for (index, line) in lines.enumerate() {
        take(&mut sheet, line).ok_or(index + 1)?;
    }
    sheet.ok_or(1)
}

/// Adds a line to the sheet; none if it is bad or stands in a wrong place.
fn take(sheet: &mut Option<Sheet>, line: &[u8]) -> Option<()> {
    let line = line.strip_suffix(b"\n")?;
    let fields: Vec<&[u8]> = line.split(|byte| *byte == b'\t').collect();
    let (kind, fields) = fields.split_first()?;
    let Some(sheet) = sheet else {
        *sheet = Some(first(kind, fields)?);
        return Some(());
    };
    match *kind {
        b"C" if sheet.lines.is_empty() => sheet.entries.push(component(fields)?),
        b"E" => sheet.lines.push(Line::Event(event(fields)?)),
        b"R" => sheet.lines.push(Line::Reply(reply(fields)?)),
        _ => return None,
    }
    Some(())
}

/// The B line.
fn first(kind: &[u8], fields: &[&[u8]]) -> Option<Sheet> {
    let (b"B", [max_retry]) = (kind, fields) else {
        return None;
    };
    Some(Sheet {
        max_retry: byte(max_retry)?,
        entries: Vec::new(),
        lines: Vec::new(),
    })
}

fn component(fields: &[&[u8]]) -> Option<Entry> {
    let [id, kind, policy, region, dependency] = fields else {
        return None;
    };
    let depends_on = match *dependency {
        b"-" => None,
        id => Some(component_id(id)?),
    };
    let attrs = ComponentAttrs {
        kind: named(&[ComponentKind::Active, ComponentKind::Passive], kind)?,
        failure_policy: named(
            &[
                FailurePolicy::Required,
                FailurePolicy::Isolable,
                FailurePolicy::Cascading,
            ],
            policy,
        )?,
        recovery_region: RegionId::new(byte(region)?),
        depends_on,
    };
    Some((component_id(id)?, attrs))
}

fn reply(fields: &[&[u8]]) -> Option<Reply> {
    match fields {
        [b"ok"] => Some(Reply::Done),
        [b"no"] => Some(Reply::Failed),
        [b"then", rest @ ..] => Some(Reply::Then(event(rest)?)),
        _ => None,
    }
}

fn event(fields: &[&[u8]]) -> Option<Event> {
    let (name, values) = fields.split_first()?;
    let number = EVENT_NAMES
        .iter()
        .position(|other| other.as_bytes() == *name)?;
    let values = match values {
        [] if number != POWER_GOOD && !NAMING.contains(&number) => [0, 0, 0],
        [result] if number == POWER_GOOD => [place(&POWER_ON_RESULTS, result)?, 0, 0],
        [id, checkpoint, kind] if number == BOOT_FAILED => [
            byte(id)?.into(),
            decimal(checkpoint)?,
            place(&BOOT_FAILURE_KINDS, kind)?,
        ],
        [id] if number != BOOT_FAILED && NAMING.contains(&number) => [byte(id)?.into(), 0, 0],
        _ => return None,
    };
    let [a, b, c] = values;
    Some(numbered([number as u16, a, b, c]).expect("an event with its values"))
}

/// Which of the values has this name.
fn place<T: Debug>(values: &[T], field: &[u8]) -> Option<u16> {
    let place = values
        .iter()
        .position(|value| format!("{value:?}").as_bytes() == field)?;
    Some(place as u16)
}

/// The value with this name.
fn named<T: Debug + Copy>(values: &[T], field: &[u8]) -> Option<T> {
    place(values, field).map(|place| values[usize::from(place)])
}

fn component_id(field: &[u8]) -> Option<ComponentId> {
    byte(field).map(ComponentId::new)
}

fn byte(field: &[u8]) -> Option<u8> {
    decimal(field)?.try_into().ok()
}

/// A number up to 65535. `parse` also takes a sign and leading zeros; the text
/// of the number has neither.
fn decimal(field: &[u8]) -> Option<u16> {
    let text = str::from_utf8(field).ok()?;
    let number: u16 = text.parse().ok()?;
    (number.to_string() == text).then_some(number)
}

#[cfg(test)]
mod tests {
    use openprot_orchestrator_sm::{BootFailureKind, PowerOnResult};

    use super::*;

    const HEAD: &str = "B\t2\nC\t7\tActive\tRequired\t0\t-\n";

    #[test]
    fn the_fields_keep_their_meaning() {
        let text = "B\t255\nC\t8\tPassive\tCascading\t9\t-\nC\t7\tActive\tIsolable\t255\t8\n\
                    E\tPowerGood\tUnprovisioned\nR\tok\nR\tno\n\
                    R\tthen\tBootFailed\t7\t65535\tDeviceFatal\nE\tTimeout\t255\n";
        let (seven, eight) = (ComponentId::new(7), ComponentId::new(8));
        let failed = Event::BootFailed {
            id: seven,
            checkpoint: "65535",
            kind: BootFailureKind::DeviceFatal,
        };
        let expected = Sheet {
            max_retry: 255,
            entries: vec![
                (
                    eight,
                    ComponentAttrs::passive_cascading().with_region(RegionId::new(9)),
                ),
                (
                    seven,
                    ComponentAttrs::active_isolable()
                        .with_region(RegionId::new(255))
                        .with_depends_on(eight),
                ),
            ],
            lines: vec![
                Line::Event(Event::PowerGood(PowerOnResult::Unprovisioned)),
                Line::Reply(Reply::Done),
                Line::Reply(Reply::Failed),
                Line::Reply(Reply::Then(failed)),
                Line::Event(Event::Timeout(ComponentId::new(255))),
            ],
        };
        assert_eq!(read(text.as_bytes()), Ok(expected.clone()));
        assert_eq!(expected.to_string(), text);
    }

    #[test]
    fn the_first_bad_line_is_named() {
        for (text, line) in [
            ("", 1),
            ("\n", 1),
            ("B\t2", 1),
            ("B\t2\n\n", 2),
            ("B\t2\nB\t2\n", 2),
            ("C\t7\tActive\tRequired\t0\t-\n", 1),
            ("E\tUpdateRequest\n", 1),
            ("R\tok\n", 1),
            ("B\t2\r\n", 1),
            ("B\t2\t\n", 1),
            ("B\t\t2\n", 1),
            ("B\t\n", 1),
            ("B\n", 1),
            ("B\t256\n", 1),
            ("B\t02\n", 1),
            ("B\t00\n", 1),
            ("B\t+2\n", 1),
            ("B\t-\n", 1),
            (" B\t2\n", 1),
            ("b\t2\n", 1),
            ("B 2\n", 1),
        ] {
            assert_eq!(read(text.as_bytes()), Err(line), "{text:?}");
        }
    }

    /// Lines that are bad after a component.
    const BAD: [&str; 37] = [
        "",
        "B\t2",
        "C\t7\tActive\tRequired\t0",
        "C\t7\tActive\tRequired\t0\t-\t",
        "C\t7\tactive\tRequired\t0\t-",
        "C\t7\tActive\tRequired\t-\t-",
        "C\t-\tActive\tRequired\t0\t-",
        "C\t256\tActive\tRequired\t0\t-",
        "C\t7\tActive\tRequired\t256\t-",
        "C\t7\tActive\tRequired\t0\t256",
        "C\t7\tActive\tRequired\t0\t--",
        "C\t7\tRequired\tActive\t0\t-",
        "E",
        "E\t",
        "E\tEmit\tRecoveryFailed",
        "E\tUpdateRequest\t7",
        "E\tUpdateRequest\t",
        "E\tTimeout",
        "E\tTimeout\t-",
        "E\tTimeout\t256",
        "E\tTimeout\t7\t7",
        "E\tPowerGood",
        "E\tPowerGood\t0",
        "E\tPowerGood\tprovisioned",
        "E\tBootFailed\t7",
        "E\tBootFailed\t7\t65536\tTimedOut",
        "E\tBootFailed\t7\t00\tTimedOut",
        "E\tBootFailed\t7\tTimedOut\t0",
        "E\tBootFailed\t7\t0\tTimedOut\t0",
        "R",
        "R\tyes",
        "R\tok\t",
        "R\tno\tUpdateRequest",
        "R\tthen",
        "R\tthen\tok",
        "X\tReadFirmware\t7",
        "T\t7\tNominal\t0\t0\t0",
    ];

    #[test]
    fn a_line_in_a_wrong_place_or_shape_is_bad() {
        for line in BAD {
            let text = format!("{HEAD}{line}\nE\tUpdateRequest\n");
            assert_eq!(read(text.as_bytes()), Err(3), "{line:?}");
        }
    }

    #[test]
    fn a_component_after_an_event_or_a_reply_is_bad() {
        for line in ["E\tUpdateRequest", "R\tok"] {
            let text = format!("{HEAD}{line}\nC\t8\tActive\tRequired\t0\t-\n");
            assert_eq!(read(text.as_bytes()), Err(4), "{line:?}");
        }
    }

    #[test]
    fn every_event_is_read_back_in_both_kinds_of_line() {
        for number in 0..EVENTS as u16 {
            let event = numbered([number, 1, 0, 0])
                .or_else(|_| numbered([number, 0, 0, 0]))
                .expect("an event");
            let sheet = Sheet {
                max_retry: 0,
                entries: Vec::new(),
                lines: vec![Line::Event(event), Line::Reply(Reply::Then(event))],
            };
            assert_eq!(read(sheet.to_string().as_bytes()), Ok(sheet));
        }
    }
}
