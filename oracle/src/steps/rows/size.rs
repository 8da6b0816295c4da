//! Chains and effects at their limits.

use super::super::Machine;
use super::super::rules::VERIFICATION_PASSED;
use super::Step;
use crate::lists::LONGEST;

const NAMES: [&str; 7] = [
    "chain_of_1",
    "chain_of_255",
    "cursor_255_before",
    "cursor_255_reached",
    "released_at_position_254",
    "effects_above_255",
    "effects_of_a_cascade_over_255",
];

pub fn names() -> Vec<String> {
    NAMES.map(String::from).to_vec()
}

pub fn reached(step: &Step) -> Vec<String> {
    let at_end = |machine: &Machine| usize::from(machine.cursor) == LONGEST;
    let (before, after) = (at_end(&step.case.machine), at_end(&step.answer.machine));
    let last = LONGEST - 1;
    let released_last = step.about(VERIFICATION_PASSED) == Some(last) && step.cursor() == last;
    let effects = step.answer.effects.len();
    [
        step.length() == 1,
        step.length() == LONGEST,
        before,
        after && !before,
        released_last,
        effects > 255,
        // Every component gives two effects.
        effects >= 2 * LONGEST,
    ]
    .into_iter()
    .zip(NAMES)
    .filter(|(reached, _)| *reached)
    .map(|(_, name)| name.into())
    .collect()
}

#[cfg(test)]
mod tests {
    use super::super::tests::rows_of;

    /// 255 components in a row of dependencies, the first one Cascading.
    fn line(state: u8, cursor: u8, event: &str) -> String {
        let mut line = "2 255 0 0 2 0 256".to_string();
        for id in 1..255 {
            line += &format!(" {id} 0 0 0 {}", id - 1);
        }
        line += &format!(" {state} 256 {cursor} 0{}", " 0 0 0 0".repeat(255));
        format!("{line} {event}")
    }

    fn sizes(line: &str) -> Vec<String> {
        let names = super::names();
        let mut rows = rows_of(line);
        rows.retain(|row| names.contains(row));
        rows
    }

    #[test]
    fn a_cascade_over_the_longest_chain() {
        assert_eq!(
            sizes(&line(3, 255, "10 0 0 0")),
            [
                "chain_of_255",
                "cursor_255_before",
                "effects_above_255",
                "effects_of_a_cascade_over_255",
            ]
        );
    }

    #[test]
    fn the_last_of_the_longest_chain_is_released() {
        assert_eq!(
            sizes(&line(1, 254, "1 254 0 0")),
            [
                "chain_of_255",
                "cursor_255_reached",
                "released_at_position_254"
            ]
        );
    }

    #[test]
    fn a_chain_of_one() {
        let line = "2 1 7 0 0 0 256 3 256 1 0 0 0 0 0 5 0 0 0";
        assert_eq!(sizes(line), ["chain_of_1"]);
    }
}
