//! VerificationPassed, VerificationFailed, ComponentReady and Booted.

use openprot_orchestrator_sm::ComponentKind;

use super::super::rules::{
    AWAITING_READY, BOOTED, COMPONENT_READY, VERIFICATION_FAILED, VERIFICATION_PASSED,
};
use super::{AWAITING, FAILURE_STATES, ISOLATED, LEFT, RETRY, Step, combine, either};

const KIND: [&str; 2] = ["active", "passive"];

pub fn names() -> Vec<String> {
    let (walking, supervised) = (&FAILURE_STATES[..2], &FAILURE_STATES[1..]);
    let places = ["elsewhere", "cursor_after_the_last", "isolated_cursor"];
    let ready = [
        "own_at_the_end",
        "own_before_the_end",
        "other",
        "none_awaited",
    ];
    [
        combine(&[&["passed"], walking, &places]),
        combine(&[&["passed"], walking, &KIND, &LEFT]),
        combine(&[&["passed"], walking, &LEFT[..1], &RETRY]),
        combine(&[&["failed"], walking, &ISOLATED]),
        combine(&[&["component_ready"], supervised, &AWAITING]),
        combine(&[&["component_ready_awaited"], &ready]),
        combine(&[&["booted"], &FAILURE_STATES, &AWAITING]),
    ]
    .concat()
}

pub fn reached(step: &Step) -> Vec<String> {
    let mut rows = Vec::new();
    if let Some(position) = step.about(VERIFICATION_PASSED) {
        rows.extend(passed(step, position));
    }
    if let Some(position) = step.about(VERIFICATION_FAILED) {
        let isolated = either(step.before(position).isolated, ISOLATED);
        rows.push(format!("failed_{}_{isolated}", step.state_name()));
    }
    for (event, name) in [(COMPONENT_READY, "component_ready"), (BOOTED, "booted")] {
        if let Some(position) = step.about(event) {
            let awaiting = either(step.before(position).awaiting_boot, AWAITING);
            rows.push(format!("{name}_{}_{awaiting}", step.state_name()));
        }
    }
    if let (AWAITING_READY, Some(position)) = (step.state, step.about(COMPONENT_READY)) {
        rows.push(format!(
            "component_ready_awaited_{}",
            awaited(step, position)
        ));
    }
    rows
}

fn passed(step: &Step, position: usize) -> Vec<String> {
    let row = |what: String| format!("passed_{}_{what}", step.state_name());
    if step.cursor() == step.length() {
        return vec![row("cursor_after_the_last".into())];
    }
    if step.cursor() != position {
        return vec![row("elsewhere".into())];
    }
    let kind = step.case.entries[position].1.kind;
    let kind = either(kind == ComponentKind::Active, KIND);
    let left = either(step.one_left(), LEFT);
    let mut rows = vec![row(format!("{kind}_{left}"))];
    if step.before(position).isolated {
        rows.push(row("isolated_cursor".into()));
    }
    // With none left, entering Ready sets the retry to zero as well.
    if step.one_left() {
        let retry = either(step.before(position).retry > 0, RETRY);
        rows.push(row(format!("one_left_{retry}")));
    }
    rows
}

/// How a ComponentReady stands to what AwaitingReady waits for.
fn awaited(step: &Step, position: usize) -> &'static str {
    match step.carried() {
        None => "none_awaited",
        Some(id) if id != step.id(position) => "other",
        Some(_) => either(
            step.cursor() == step.length(),
            ["own_at_the_end", "own_before_the_end"],
        ),
    }
}

#[cfg(test)]
mod tests {
    use super::super::tests::reaches;

    /// Component 1 Active, 2 Passive, 3 Active; 2 is isolated.
    fn line(state: &str, cursor: u8, event: &str) -> String {
        let chain = "2 3 1 0 0 0 256 2 1 0 0 256 3 0 0 0 256";
        let statuses = "0 0 1 1 1 4 0 0 0 5 0 0";
        format!("{chain} {state} {cursor} 0 {statuses} {event}")
    }

    #[test]
    fn verification_passed() {
        for (state, cursor, id, row) in [
            ("1 256", 3, 3, "pre_supervision_cursor_after_the_last"),
            ("2 1", 2, 1, "awaiting_ready_elsewhere"),
            ("1 256", 2, 3, "pre_supervision_active_none_left"),
        ] {
            let line = line(state, cursor, &format!("1 {id} 0 0"));
            reaches(&line, "passed", &[&format!("passed_{row}")]);
        }
        reaches(&line("3 256", 2, "1 3 0 0"), "passed", &[]);
    }

    #[test]
    fn verification_passed_with_one_left() {
        let first = [
            "passed_pre_supervision_active_one_left",
            "passed_pre_supervision_one_left_retry_0",
        ];
        reaches(&line("1 256", 0, "1 1 0 0"), "passed", &first);
        let isolated = [
            "passed_awaiting_ready_passive_one_left",
            "passed_awaiting_ready_isolated_cursor",
            "passed_awaiting_ready_one_left_retry_above_0",
        ];
        reaches(&line("2 256", 1, "1 2 0 0"), "passed", &isolated);
    }

    #[test]
    fn verification_failed() {
        let isolated = line("1 256", 1, "2 2 0 0");
        reaches(&isolated, "failed", &["failed_pre_supervision_isolated"]);
        let other = line("2 1", 1, "2 3 0 0");
        reaches(&other, "failed", &["failed_awaiting_ready_not_isolated"]);
    }

    #[test]
    fn component_ready_and_booted() {
        for (state, cursor, id, row) in [
            ("2 1", 3, 1, "own_at_the_end"),
            ("2 1", 2, 1, "own_before_the_end"),
            ("2 1", 2, 3, "other"),
            ("2 256", 2, 1, "none_awaited"),
        ] {
            let row = format!("component_ready_awaited_{row}");
            let line = line(state, cursor, &format!("3 {id} 0 0"));
            reaches(&line, "component_ready_awaited", &[&row]);
        }
        let ready = line("3 256", 3, "3 1 0 0");
        let row = "component_ready_ready_awaiting_boot";
        reaches(&ready, "component_ready_ready", &[row]);
        let booted = line("1 256", 3, "4 3 0 0");
        let row = "booted_pre_supervision_not_awaiting_boot";
        reaches(&booted, "booted_pre", &[row]);
    }
}
