//! The rows of `steps` that no history reaches, by what holds of every machine
//! that a history leads to. `steps compare` reaches each of them from machines
//! that are set up. A history that reaches one is a failure of the comparison.

/// What holds of every machine of a history, and the rows that it shuts out.
pub const UNREACHED: [(&str, &[&str]); 8] = [
    (
        "in a walk the component at the cursor is not isolated",
        &[
            "passed_pre_supervision_isolated_cursor",
            "passed_awaiting_ready_isolated_cursor",
            "corruption_pre_supervision_recovering_cursor_isolated",
            "corruption_awaiting_ready_recovering_cursor_isolated",
            "device_fatal_pre_supervision_recovering_cursor_isolated",
            "device_fatal_awaiting_ready_recovering_cursor_isolated",
        ],
    ),
    (
        "in AwaitingReady the cursor is at a component",
        &[
            "passed_awaiting_ready_cursor_after_the_last",
            "component_ready_awaited_own_at_the_end",
            "corruption_awaiting_ready_cursor_after_the_last",
            "device_fatal_awaiting_ready_cursor_after_the_last",
            "entered_ready_by_component_ready_retry_above_0",
            "entered_ready_by_component_ready_retry_0",
        ],
    ),
    (
        "in PreSupervision with the cursor after the last one, all are isolated",
        &["device_fatal_pre_supervision_cursor_after_the_last"],
    ),
    (
        "in Ready and Updating the cursor is after the last one",
        &[
            "corruption_ready_cursor_isolated",
            "corruption_updating_cursor_isolated",
            "device_fatal_ready_cursor_isolated",
            "device_fatal_updating_cursor_isolated",
        ],
    ),
    (
        "a component that awaits its boot is released, and an isolated one is neither",
        &[
            "device_fatal_pre_supervision_isolated",
            "device_fatal_awaiting_ready_isolated",
            "device_fatal_ready_isolated",
            "device_fatal_updating_isolated",
            "device_fatal_recovering_isolated",
            "timeout_awaiting_isolated",
            "entered_walk_isolated_released",
            "entered_walk_awaiting_boot_not_released",
            "entered_recovering_not_released_awaiting_boot",
        ],
    ),
    (
        "all that depends on an isolated Cascading component is isolated",
        &["cascade_exhaustion_through_isolated_root"],
    ),
    (
        "the commit window is open in Ready and Locked alone",
        &[
            "entered_pre_supervision_window_open",
            "entered_awaiting_ready_window_open",
            "entered_ready_window_open",
            "update_verified_window_open",
            "update_rejected_window_open",
        ],
    ),
    (
        "a released component has the retry 0, and so has every one in Ready and Updating",
        &[
            "entered_recovering_by_boot_failed_retry_above_0",
            "entered_recovering_by_timeout_retry_above_0",
            "entered_ready_by_update_verified_retry_above_0",
            "entered_ready_by_update_rejected_retry_above_0",
        ],
    ),
];

pub fn is_unreached(row: &str) -> bool {
    UNREACHED.iter().any(|(_, rows)| rows.contains(&row))
}

#[cfg(test)]
mod tests {
    use std::collections::HashSet;

    use super::*;
    use crate::steps::rows;

    #[test]
    fn each_is_a_row_and_stands_here_once() {
        let names: HashSet<String> = rows::names().into_iter().collect();
        let mut seen = HashSet::new();
        for row in UNREACHED.iter().flat_map(|(_, rows)| rows.iter()) {
            assert!(names.contains(*row), "{row}");
            assert!(seen.insert(row), "{row}");
        }
    }
}
