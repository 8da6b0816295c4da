//! Cascades, and Isolable components with dependents.

use openprot_orchestrator_sm::Effect;

use super::super::position_of;
use super::{Step, combine, failure, recovery};

const CAUSES: [&str; 3] = ["corruption", "device_fatal", "exhaustion"];

/// The orders are those in which a port could cascade by mistake.
const CASCADES: [&str; 6] = [
    "of_one",
    "of_more",
    "through_isolated",
    "not_in_chain_order",
    "not_depth_first",
    "not_level_by_level",
];

pub fn names() -> Vec<String> {
    [
        combine(&[&["cascade"], &CAUSES, &CASCADES]),
        vec!["cascade_exhaustion_through_isolated_root".into()],
        combine(&[&["isolable"], &CAUSES, &["with_dependent"]]),
    ]
    .concat()
}

pub fn reached(step: &Step) -> Vec<String> {
    let Some((cause, root)) = gating(step) else {
        return Vec::new();
    };
    match step.policy(root) {
        "cascading" => cascade(step, root)
            .into_iter()
            .map(|what| format!("cascade_{cause}_{what}"))
            .collect(),
        "isolable" if step.newly_isolated(root) && runs_dependent(step, root) => {
            vec![format!("isolable_{cause}_with_dependent")]
        }
        _ => Vec::new(),
    }
}

/// Why a policy is applied in this step, and to which position.
fn gating(step: &Step) -> Option<(&'static str, usize)> {
    if let Some((_, position)) = recovery::exhausted(step) {
        return Some((CAUSES[2], position));
    }
    failure::cause(step).filter(|(_, position)| !step.before(*position).isolated)
}

fn cascade(step: &Step, root: usize) -> Vec<&'static str> {
    let gated = gated_in_order(step);
    let mut rows = Vec::new();
    match gated.len() {
        0 => return rows,
        1 => rows.push(CASCADES[0]),
        _ => rows.push(CASCADES[1]),
    }
    let through = |position: &usize| {
        let link = dependency(step, *position);
        link.is_some_and(|earlier| earlier != root && step.before(earlier).isolated)
    };
    if gated.iter().any(through) {
        rows.push(CASCADES[2]);
    }
    if !gated.is_sorted() {
        rows.push(CASCADES[3]);
    }
    let mut deep = depth_first(step, root);
    deep.retain(|position| gated.contains(position));
    if deep != gated {
        rows.push(CASCADES[4]);
    }
    let mut levels = gated.clone();
    levels.sort_by_key(|position| (links_to(step, root, *position), *position));
    if levels != gated {
        rows.push(CASCADES[5]);
    }
    if step.before(root).isolated {
        rows.push("through_isolated_root");
    }
    rows
}

/// The positions that the step isolated, in the order of the reports.
fn gated_in_order(step: &Step) -> Vec<usize> {
    let reported = |effect: &Effect| match effect {
        Effect::ReportIsolated(id) => position_of(&step.case.entries, *id),
        _ => None,
    };
    step.answer.effects.iter().filter_map(reported).collect()
}

fn dependency(step: &Step, position: usize) -> Option<usize> {
    let id = step.case.entries[position].1.depends_on?;
    position_of(&step.case.entries, id)
}

fn dependents(step: &Step, position: usize) -> impl Iterator<Item = usize> {
    let id = Some(step.id(position));
    (position + 1..step.length()).filter(move |later| step.case.entries[*later].1.depends_on == id)
}

/// The root and all that depends on it over links, each before the next sibling.
fn depth_first(step: &Step, root: usize) -> Vec<usize> {
    let mut order = vec![root];
    for later in dependents(step, root) {
        order.extend(depth_first(step, later));
    }
    order
}

/// The number of links from a component to the root that it depends on.
fn links_to(step: &Step, root: usize, position: usize) -> usize {
    let mut links = 0;
    let mut here = position;
    while here != root {
        here = dependency(step, here).expect("only dependents of the root");
        links += 1;
    }
    links
}

/// Whether a direct dependent of an isolated component stays in service.
fn runs_dependent(step: &Step, root: usize) -> bool {
    dependents(step, root).any(|later| !step.after(later).isolated)
}

#[cfg(test)]
mod tests {
    use super::super::tests::reaches;

    /// Components whose policy and dependency are given; the second one may be
    /// isolated. The machine is Ready, and the first one is found corrupt.
    fn line(components: &[(u8, u16)], isolated: bool) -> String {
        let entries: String = components
            .iter()
            .zip(1..)
            .map(|((policy, dependency), id)| format!(" {id} 0 {policy} 0 {dependency}"))
            .collect();
        let length = components.len();
        let rest = " 0 0 0 0".repeat(length - 2);
        let statuses = format!("0 0 0 0 {} 0 0 0{rest}", u8::from(isolated));
        format!("2 {length}{entries} 3 256 {length} 0 {statuses} 10 1 0 0")
    }

    #[test]
    fn a_cascade_of_one() {
        let line = line(&[(2, 256), (0, 256), (0, 2), (0, 2)], false);
        reaches(&line, "cascade", &["cascade_corruption_of_one"]);
    }

    #[test]
    fn a_cascade_passes_through_an_isolated_component() {
        let entries = &[(2, 256), (0, 1), (0, 2), (0, 256)];
        reaches(
            &line(entries, false),
            "cascade",
            &["cascade_corruption_of_more"],
        );
        reaches(
            &line(entries, true),
            "cascade",
            &[
                "cascade_corruption_of_more",
                "cascade_corruption_through_isolated",
            ],
        );
    }

    #[test]
    fn the_order_of_a_cascade() {
        reaches(
            &line(&[(2, 256), (0, 1), (0, 2), (0, 1)], false),
            "cascade",
            &[
                "cascade_corruption_of_more",
                "cascade_corruption_not_in_chain_order",
                "cascade_corruption_not_depth_first",
            ],
        );
        reaches(
            &line(&[(2, 256), (0, 1), (0, 1), (0, 2)], false),
            "cascade",
            &[
                "cascade_corruption_of_more",
                "cascade_corruption_not_depth_first",
            ],
        );
        reaches(
            &line(&[(2, 256), (0, 1), (0, 1), (0, 3), (0, 2)], false),
            "cascade",
            &[
                "cascade_corruption_of_more",
                "cascade_corruption_not_in_chain_order",
                "cascade_corruption_not_depth_first",
                "cascade_corruption_not_level_by_level",
            ],
        );
    }

    #[test]
    fn an_isolated_root_cascades_when_it_is_exhausted() {
        let line = "0 2 1 0 2 0 256 2 0 0 0 1 5 1 0 0 1 0 0 0 0 0 0 0 12 1 0 0";
        reaches(
            line,
            "cascade",
            &[
                "cascade_exhaustion_of_one",
                "cascade_exhaustion_through_isolated_root",
            ],
        );
    }

    #[test]
    fn an_isolable_component_leaves_its_dependents() {
        let line = line(&[(1, 256), (2, 1), (0, 2), (0, 2)], false);
        reaches(&line, "isolable", &["isolable_corruption_with_dependent"]);
        reaches(&line, "cascade", &[]);
    }
}
