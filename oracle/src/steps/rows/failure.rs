//! CorruptionDetected, Timeout and BootFailed.

use openprot_orchestrator_sm::{BootFailureKind, Effect, Event};

use super::super::rules::{AWAITING_READY, BOOT_FAILED, CORRUPTION_DETECTED, TIMEOUT};
use super::{AWAITING, FAILURE_STATES, ISOLATED, POLICIES, Step, combine, either};

const KINDS: [&str; 3] = ["timed_out", "device_retriable", "device_fatal"];
const CAUSES: [&str; 2] = ["corruption", "device_fatal"];

/// What becomes of the cursor in the two states that walk.
const WALKING_CURSOR: [&str; 6] = [
    "recovering_cursor_isolated",
    "recovering_cursor_not_isolated",
    "cursor_after_the_last",
    "cursor_not_isolated",
    "cursor_isolated_one_left",
    "cursor_isolated_none_left",
];

/// The cursor's component in the other states, where the cursor stays.
const OTHER_CURSOR: [&str; 2] = ["cursor_isolated", "cursor_not_isolated"];

pub fn names() -> Vec<String> {
    let (walking, others) = (&FAILURE_STATES[..2], &FAILURE_STATES[2..]);
    let standings = [&["isolated"][..], &POLICIES].concat();
    [
        combine(&[&CAUSES, &FAILURE_STATES, &standings]),
        combine(&[&CAUSES, walking, &WALKING_CURSOR]),
        combine(&[&CAUSES, others, &OTHER_CURSOR]),
        combine(&[&["timeout"], &FAILURE_STATES, &AWAITING]),
        combine(&[&["timeout_awaiting"], &ISOLATED]),
        combine(&[&["boot_failed"], &FAILURE_STATES, &KINDS, &AWAITING]),
        combine(&[&["checkpoint"], &["0", "65535"]]),
    ]
    .concat()
}

pub fn reached(step: &Step) -> Vec<String> {
    let mut rows = Vec::new();
    if let Some((cause, position)) = cause(step) {
        let what = [Some(standing(step, position)), cursor(step)];
        let row = |what| format!("{cause}_{}_{what}", step.state_name());
        rows.extend(what.into_iter().flatten().map(row));
    }
    if let Some(position) = step.about(TIMEOUT) {
        let before = step.before(position);
        let awaiting = either(before.awaiting_boot, AWAITING);
        rows.push(format!("timeout_{}_{awaiting}", step.state_name()));
        if before.awaiting_boot {
            let isolated = either(before.isolated, ISOLATED);
            rows.push(format!("timeout_awaiting_{isolated}"));
        }
    }
    rows.extend(boot_failed(step));
    rows
}

/// Why the corruption rule is asked in this step, and about which position.
pub fn cause(step: &Step) -> Option<(&'static str, usize)> {
    if let Some(position) = step.about(CORRUPTION_DETECTED) {
        return Some((CAUSES[0], position));
    }
    let position = step.about(BOOT_FAILED)?;
    let fatal = matches!(
        step.case.event,
        Event::BootFailed {
            kind: BootFailureKind::DeviceFatal,
            ..
        }
    );
    (fatal && step.before(position).awaiting_boot).then_some((CAUSES[1], position))
}

/// What the corruption rule looks at.
fn standing(step: &Step, position: usize) -> &'static str {
    if step.before(position).isolated {
        "isolated"
    } else {
        step.policy(position)
    }
}

/// How the cursor stands when the corruption rule is done.
fn cursor(step: &Step) -> Option<&'static str> {
    let after_the_last = step.cursor() == step.length();
    let isolated = !after_the_last && step.after(step.cursor()).isolated;
    let walking = step.state <= AWAITING_READY;
    match (step.recovers(), walking) {
        (true, true) => Some(either(isolated, [WALKING_CURSOR[0], WALKING_CURSOR[1]])),
        (true, false) => None,
        (false, false) => Some(either(isolated, OTHER_CURSOR)),
        (false, true) if after_the_last => Some(WALKING_CURSOR[2]),
        (false, true) if !isolated => Some(WALKING_CURSOR[3]),
        (false, true) => Some(either(
            step.one_left(),
            [WALKING_CURSOR[4], WALKING_CURSOR[5]],
        )),
    }
}

fn boot_failed(step: &Step) -> Vec<String> {
    let (Some(position), Event::BootFailed { kind, .. }) =
        (step.about(BOOT_FAILED), step.case.event)
    else {
        return Vec::new();
    };
    let kind = match kind {
        BootFailureKind::TimedOut => KINDS[0],
        BootFailureKind::DeviceRetriable => KINDS[1],
        BootFailureKind::DeviceFatal => KINDS[2],
    };
    let awaiting = either(step.before(position).awaiting_boot, AWAITING);
    let mut rows = vec![format!(
        "boot_failed_{}_{kind}_{awaiting}",
        step.state_name()
    )];
    if let Some(Effect::ReportBootFailed { checkpoint, .. }) = step.answer.effects.first()
        && ["0", "65535"].contains(checkpoint)
    {
        rows.push(format!("checkpoint_{checkpoint}"));
    }
    rows
}

#[cfg(test)]
mod tests {
    use super::super::tests::reaches;

    /// Component 1 Required, 2 Isolable, 3 Cascading, 4 Required and isolated;
    /// all await boot but 1.
    fn line(state: &str, cursor: u8, event: &str) -> String {
        let chain = "2 4 1 0 0 0 256 2 0 1 0 256 3 0 2 0 256 4 0 0 0 256";
        let statuses = "0 0 0 1 0 0 1 1 0 0 1 1 1 0 1 0";
        format!("{chain} {state} {cursor} 0 {statuses} {event}")
    }

    #[test]
    fn the_corruption_rule_by_state_and_policy() {
        for (state, id, rows) in [
            (
                "1 256",
                1,
                [
                    "pre_supervision_required",
                    "pre_supervision_recovering_cursor_not_isolated",
                ],
            ),
            (
                "2 1",
                2,
                [
                    "awaiting_ready_isolable",
                    "awaiting_ready_cursor_not_isolated",
                ],
            ),
            ("3 256", 3, ["ready_cascading", "ready_cursor_not_isolated"]),
            (
                "4 256",
                4,
                ["updating_isolated", "updating_cursor_not_isolated"],
            ),
        ] {
            let rows = rows.map(|row| format!("corruption_{row}"));
            let line = line(state, 0, &format!("10 {id} 0 0"));
            reaches(
                &line,
                "corruption_",
                &["corruption_detected_id_in_chain", &rows[0], &rows[1]],
            );
        }
    }

    #[test]
    fn the_cursor_after_the_corruption_rule() {
        for (state, cursor, id, row) in [
            ("1 256", 2, 3, "pre_supervision_cursor_isolated_none_left"),
            ("1 256", 1, 2, "pre_supervision_cursor_isolated_one_left"),
            ("2 1", 4, 3, "awaiting_ready_cursor_after_the_last"),
            ("2 1", 3, 1, "awaiting_ready_recovering_cursor_isolated"),
            ("5 1", 2, 3, "recovering_cursor_isolated"),
        ] {
            let start = format!("corruption_{row}");
            let line = line(state, cursor, &format!("10 {id} 0 0"));
            reaches(&line, &start, &[&start]);
        }
    }

    #[test]
    fn a_boot_failure_counts_its_kind_and_checkpoint() {
        let fatal = line("4 256", 4, "14 2 65535 2");
        reaches(
            &fatal,
            "boot_failed_u",
            &["boot_failed_updating_device_fatal_awaiting_boot"],
        );
        reaches(&fatal, "checkpoint", &["checkpoint_65535"]);
        reaches(
            &fatal,
            "device_fatal",
            &[
                "device_fatal_updating_isolable",
                "device_fatal_updating_cursor_not_isolated",
            ],
        );
        let dropped = line("1 256", 0, "14 1 0 2");
        let row = "boot_failed_pre_supervision_device_fatal_not_awaiting_boot";
        reaches(&dropped, "boot_failed_p", &[row]);
        reaches(&dropped, "checkpoint", &[]);
        reaches(&dropped, "device_fatal", &[]);
        let timed_out = line("5 1", 0, "14 3 7 0");
        let row = "boot_failed_recovering_timed_out_awaiting_boot";
        reaches(&timed_out, "boot_failed_r", &[row]);
        reaches(&timed_out, "device_fatal", &[]);
    }

    #[test]
    fn a_timeout_counts_the_flag() {
        let awaiting = line("1 256", 0, "15 4 0 0");
        reaches(
            &awaiting,
            "timeout_pre",
            &["timeout_pre_supervision_awaiting_boot"],
        );
        reaches(
            &awaiting,
            "timeout_awaiting_i",
            &["timeout_awaiting_isolated"],
        );
        let dropped = line("3 256", 0, "15 1 0 0");
        reaches(
            &dropped,
            "timeout_ready",
            &["timeout_ready_not_awaiting_boot"],
        );
    }
}
