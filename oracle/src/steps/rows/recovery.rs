//! Restored, RecoveryUnavailable and exhaustion.

use std::cmp::Ordering;

use super::super::rules::{self, RECOVERY_UNAVAILABLE};
use super::{ISOLATED, POLICIES, Step, combine, either};

const BY: [&str; 2] = ["restored", "unavailable"];

const RESTORED: [&str; 7] = [
    "other",
    "below_max_retry",
    "at_max_retry",
    "above_max_retry",
    "with_max_retry_0",
    "with_retry_254_of_255",
    "with_retry_255",
];

pub fn names() -> Vec<String> {
    [
        combine(&[&["restored"], &RESTORED]),
        combine(&[&["unavailable"], &["own", "other"]]),
        combine(&[&["exhaustion"], &BY, &POLICIES, &ISOLATED]),
    ]
    .concat()
}

pub fn reached(step: &Step) -> Vec<String> {
    let mut rows = Vec::new();
    if let Some(position) = step.about(rules::RESTORED) {
        let found = restored(step, position);
        rows.extend(found.into_iter().map(|what| format!("restored_{what}")));
    }
    if let Some(position) = step.about(RECOVERY_UNAVAILABLE) {
        let own = either(is_own(step, position), ["own", "other"]);
        rows.push(format!("unavailable_{own}"));
    }
    if let Some((by, position)) = exhausted(step) {
        let policy = step.policy(position);
        let isolated = either(step.before(position).isolated, ISOLATED);
        rows.push(format!("exhaustion_{by}_{policy}_{isolated}"));
    }
    rows
}

/// Whether the position is the one in recovery.
fn is_own(step: &Step, position: usize) -> bool {
    step.carried() == Some(step.id(position))
}

/// The retry after a restore, beside max_retry.
fn beside_max_retry(step: &Step, position: usize) -> Ordering {
    let retry = step.before(position).retry.saturating_add(1);
    retry.cmp(&step.case.max_retry)
}

fn restored(step: &Step, position: usize) -> Vec<&'static str> {
    if !is_own(step, position) {
        return vec![RESTORED[0]];
    }
    let mut rows = vec![match beside_max_retry(step, position) {
        Ordering::Less => RESTORED[1],
        Ordering::Equal => RESTORED[2],
        Ordering::Greater => RESTORED[3],
    }];
    match (step.before(position).retry, step.case.max_retry) {
        (_, 0) => rows.push(RESTORED[4]),
        (254, 255) => rows.push(RESTORED[5]),
        (255, _) => rows.push(RESTORED[6]),
        _ => {}
    }
    rows
}

/// By which event a recovery is exhausted in this step, and whose it is.
pub fn exhausted(step: &Step) -> Option<(&'static str, usize)> {
    let own = |position: &usize| is_own(step, *position);
    if let Some(position) = step.about(RECOVERY_UNAVAILABLE).filter(own) {
        return Some((BY[1], position));
    }
    let position = step.about(rules::RESTORED).filter(own)?;
    beside_max_retry(step, position)
        .is_ge()
        .then_some((BY[0], position))
}

#[cfg(test)]
mod tests {
    use super::super::tests::reaches;

    /// Component 1 Required, 2 Cascading and isolated; 1 or 2 is in recovery.
    fn line(max_retry: u8, recovering: u8, retry: u8, event: &str) -> String {
        let chain = format!("{max_retry} 2 1 0 0 0 256 2 0 2 0 256");
        format!("{chain} 5 {recovering} 0 0 0 {retry} 0 0 1 {retry} 0 0 {event}")
    }

    #[test]
    fn restored_beside_max_retry() {
        for (max_retry, retry, rows) in [
            (2, 0, &["restored_below_max_retry"][..]),
            (2, 1, &["restored_at_max_retry"]),
            (2, 2, &["restored_above_max_retry"]),
            (
                0,
                0,
                &["restored_above_max_retry", "restored_with_max_retry_0"],
            ),
            (
                255,
                254,
                &["restored_at_max_retry", "restored_with_retry_254_of_255"],
            ),
            (
                255,
                255,
                &["restored_at_max_retry", "restored_with_retry_255"],
            ),
        ] {
            let line = line(max_retry, 1, retry, "11 1 0 0");
            let expected = [&["restored_id_in_chain"][..], rows].concat();
            reaches(&line, "restored", &expected);
        }
        reaches(
            &line(2, 1, 0, "11 2 0 0"),
            "restored_o",
            &["restored_other"],
        );
    }

    #[test]
    fn exhaustion_by_policy() {
        for (recovering, event, rows) in [
            (
                1,
                "11 1 0 0",
                &["exhaustion_restored_required_not_isolated"][..],
            ),
            (
                2,
                "12 2 0 0",
                &["exhaustion_unavailable_cascading_isolated"],
            ),
            (2, "12 1 0 0", &[]),
        ] {
            let line = line(1, recovering, 0, event);
            reaches(&line, "exhaustion", rows);
        }
        let below = line(2, 1, 0, "11 1 0 0");
        reaches(&below, "exhaustion", &[]);
    }

    #[test]
    fn unavailable_own_and_other() {
        reaches(
            &line(9, 2, 0, "12 2 0 0"),
            "unavailable",
            &["unavailable_own"],
        );
        reaches(
            &line(9, 2, 0, "12 1 0 0"),
            "unavailable",
            &["unavailable_other"],
        );
    }
}
