//! The text of a list: the length, then `id kind policy region dependency` for
//! each entry written, all parted by one space.

use std::fmt;

use openprot_orchestrator_sm::{
    ComponentAttrs, ComponentId, ComponentKind, FailurePolicy, RegionId,
};

use super::{CAPACITY, Entry, List};

/// The number written for an id that is not there.
pub const NO_ID: u64 = 256;

/// The numbers that one entry takes.
pub const ENTRY_FIELDS: usize = 5;

impl fmt::Display for List {
    fn fmt(&self, f: &mut fmt::Formatter<'_>) -> fmt::Result {
        write!(f, "{}", self.length)?;
        write_entries(f, &self.entries)
    }
}

/// Writes the entries, each number after a space.
pub fn write_entries(f: &mut fmt::Formatter<'_>, entries: &[Entry]) -> fmt::Result {
    for (id, attrs) in entries {
        write!(
            f,
            " {} {} {} {} {}",
            id.get(),
            kind_number(attrs.kind),
            policy_number(attrs.failure_policy),
            attrs.recovery_region.get(),
            attrs
                .depends_on
                .map_or(NO_ID, |dependency| dependency.get().into()),
        )?;
    }
    Ok(())
}

fn kind_number(kind: ComponentKind) -> u8 {
    match kind {
        ComponentKind::Active => 0,
        ComponentKind::Passive => 1,
    }
}

fn policy_number(policy: FailurePolicy) -> u8 {
    match policy {
        FailurePolicy::Required => 0,
        FailurePolicy::Isolable => 1,
        FailurePolicy::Cascading => 2,
    }
}

/// Reads a line without its byte 10. A list that the Rust can hold must carry
/// all its entries.
pub fn parse(line: &str) -> Result<List, String> {
    let numbers = numbers(line)?;
    let (length, fields) = numbers.split_first().ok_or("no length")?;
    if fields.len() % ENTRY_FIELDS != 0 {
        return Err(format!("{} numbers after the length", fields.len()));
    }
    let entries = entries(fields)?;
    if *length <= CAPACITY as u64 && *length != entries.len() as u64 {
        return Err(format!("length {length} with {} entries", entries.len()));
    }
    Ok(List {
        length: *length,
        entries,
    })
}

/// The numbers of a line, which are parted by one space.
pub fn numbers(line: &str) -> Result<Vec<u64>, String> {
    line.split(' ').map(number).collect()
}

fn number(field: &str) -> Result<u64, String> {
    field
        .parse()
        .map_err(|error| format!("number {field:?}: {error}"))
}

/// The entries that the fields make; their number is a multiple of
/// `ENTRY_FIELDS`.
pub fn entries(fields: &[u64]) -> Result<Vec<Entry>, String> {
    fields.chunks_exact(ENTRY_FIELDS).map(entry).collect()
}

fn entry(fields: &[u64]) -> Result<Entry, String> {
    let kind = match fields[1] {
        0 => ComponentKind::Active,
        1 => ComponentKind::Passive,
        other => return Err(format!("kind {other}")),
    };
    let failure_policy = match fields[2] {
        0 => FailurePolicy::Required,
        1 => FailurePolicy::Isolable,
        2 => FailurePolicy::Cascading,
        other => return Err(format!("policy {other}")),
    };
    let depends_on = optional_id(fields[4])?;
    let attrs = ComponentAttrs {
        kind,
        failure_policy,
        recovery_region: RegionId::new(byte(fields[3])?),
        depends_on,
    };
    Ok((ComponentId::new(byte(fields[0])?), attrs))
}

/// An id, or none for `NO_ID`.
pub fn optional_id(value: u64) -> Result<Option<ComponentId>, String> {
    match value {
        NO_ID => Ok(None),
        id => Ok(Some(ComponentId::new(byte(id)?))),
    }
}

pub fn byte(value: u64) -> Result<u8, String> {
    u8::try_from(value).map_err(|_| format!("{value} is above 255"))
}

#[cfg(test)]
mod tests {
    use super::*;

    #[test]
    fn a_line_reads_back_as_it_was() {
        for line in [
            "0",
            "1 7 0 0 0 256",
            "2 255 1 2 255 256 0 0 1 9 255",
            "18446744073709551615 1 0 0 0 2",
        ] {
            assert_eq!(parse(line).unwrap().to_string(), line);
        }
    }

    #[test]
    fn the_fields_keep_their_meaning() {
        let (id, attrs) = parse("1 3 1 2 4 5").unwrap().entries[0];
        assert_eq!(id, ComponentId::new(3));
        let expected = ComponentAttrs::passive_cascading()
            .with_region(RegionId::new(4))
            .with_depends_on(ComponentId::new(5));
        assert_eq!(attrs, expected);
    }

    #[test]
    fn bad_lines_are_refused() {
        for line in [
            "",
            "x",
            "1",
            "0 7 0 0 0 256",
            "1 7 0 0 0",
            "1  7 0 0 0 256",
            "1 256 0 0 0 256",
            "1 7 2 0 0 256",
            "1 7 0 3 0 256",
            "1 7 0 0 256 256",
            "1 7 0 0 0 257",
            "18446744073709551616",
        ] {
            assert!(parse(line).is_err(), "{line:?}");
        }
    }
}
