//! Every fault of every entry, worked out without `Chain::try_from`, as in
//! document 02, request c.

use super::Entry;

#[derive(Clone, Copy, PartialEq, Eq, Debug)]
pub struct Fault {
    /// 4 repeated id, 5 absent dependency, 6 dependency not strictly earlier.
    pub number: u8,
    pub position: usize,
    pub id: u8,
    /// `None` for a 4.
    pub dependency: Option<u8>,
}

/// The faults by position, then by number.
pub fn faults(entries: &[Entry]) -> Vec<Fault> {
    let first = first_positions(entries);
    let mut found = Vec::new();
    for (position, (id, attrs)) in entries.iter().enumerate() {
        let id = id.get();
        let mut add = |number, dependency| {
            found.push(Fault {
                number,
                position,
                id,
                dependency,
            });
        };
        if first[usize::from(id)] != Some(position) {
            add(4, None);
        }
        let Some(dependency) = attrs.depends_on.map(|dependency| dependency.get()) else {
            continue;
        };
        match first[usize::from(dependency)] {
            None => add(5, Some(dependency)),
            Some(place) if place >= position => add(6, Some(dependency)),
            Some(_) => {}
        }
    }
    found
}

/// For each id the first position at which it stands, if any.
fn first_positions(entries: &[Entry]) -> [Option<usize>; 256] {
    let mut first = [None; 256];
    for (position, (id, _)) in entries.iter().enumerate() {
        first[usize::from(id.get())].get_or_insert(position);
    }
    first
}

/// Whether the faults have two or more different numbers.
pub fn numbers_differ(faults: &[Fault]) -> bool {
    faults.iter().any(|fault| fault.number != faults[0].number)
}

/// Whether an entry depends on its own id.
pub fn has_self_dependency(entries: &[Entry]) -> bool {
    entries
        .iter()
        .any(|(id, attrs)| attrs.depends_on == Some(*id))
}

#[cfg(test)]
mod tests {
    use super::super::answer::{Answer, answer};
    use super::super::generate::lists;
    use super::super::line::parse;
    use super::super::{LONGEST, List};
    use super::*;

    fn of_line(line: &str) -> Vec<(u8, usize, u8, Option<u8>)> {
        faults(&parse(line).unwrap().entries)
            .iter()
            .map(|fault| (fault.number, fault.position, fault.id, fault.dependency))
            .collect()
    }

    #[test]
    fn whole_lists_have_none() {
        assert_eq!(of_line("0"), []);
        assert_eq!(of_line("1 7 0 0 0 256"), []);
        assert_eq!(of_line("3 7 0 0 0 256 8 0 0 0 7 9 0 0 0 7"), []);
    }

    #[test]
    fn each_kind_alone() {
        assert_eq!(of_line("2 4 0 0 0 256 4 0 0 0 256"), [(4, 1, 4, None)]);
        assert_eq!(of_line("1 5 0 0 0 9"), [(5, 0, 5, Some(9))]);
        assert_eq!(of_line("1 5 0 0 0 5"), [(6, 0, 5, Some(5))]);
        assert_eq!(of_line("2 1 0 0 0 2 2 0 0 0 256"), [(6, 0, 1, Some(2))]);
    }

    #[test]
    fn a_dependency_stands_at_the_first_entry_with_its_id() {
        // The second entry with id 4 depends on 4, which stands earlier.
        assert_eq!(of_line("2 4 0 0 0 256 4 0 0 0 4"), [(4, 1, 4, None)]);
    }

    #[test]
    fn by_position_then_by_number() {
        assert_eq!(
            of_line("4 1 0 0 0 3 1 0 0 0 9 3 0 0 0 3 1 0 0 0 256"),
            [
                (6, 0, 1, Some(3)),
                (4, 1, 1, None),
                (5, 1, 1, Some(9)),
                (6, 2, 3, Some(3)),
                (4, 3, 1, None),
            ]
        );
    }

    #[test]
    fn different_numbers() {
        let differ = |line: &str| numbers_differ(&faults(&parse(line).unwrap().entries));
        assert!(!differ("0"));
        assert!(!differ("2 1 0 0 0 8 2 0 0 0 9"));
        assert!(differ("2 1 0 0 0 2 2 0 0 0 9"));
    }

    #[test]
    fn own_ids() {
        let own = |line: &str| has_self_dependency(&parse(line).unwrap().entries);
        assert!(own("2 4 0 0 0 256 5 0 0 0 5"));
        assert!(!own("2 4 0 0 0 256 5 0 0 0 4"));
    }

    /// Request c: the refusal is the first 4, or else the first fault.
    fn refusal(list: &List) -> Answer {
        let found = faults(&list.entries);
        let repeated = found.iter().find(|fault| fault.number == 4);
        match repeated.or(found.first()) {
            None => Answer::ACCEPTED,
            Some(fault) => Answer::new(fault.number, fault.id, fault.dependency.unwrap_or(0)),
        }
    }

    #[test]
    fn the_rust_refuses_what_request_c_names() {
        let asked = lists(5)
            .take(5_000)
            .filter(|list| (1..=LONGEST as u64).contains(&list.length));
        for list in asked {
            assert_eq!(answer(&list), refusal(&list), "{list}");
        }
    }
}
