//! Every chain of a few components.

use openprot_orchestrator_sm::{
    ComponentAttrs, ComponentId, ComponentKind, FailurePolicy, RegionId,
};

use crate::lists::Entry;

/// The most components of a chain.
pub const MOST: usize = 3;

/// The ids by position. They neither rise nor equal their positions, so that a
/// port that takes one for the other gives a different answer.
pub const IDS: [u8; MOST] = [9, 4, 200];

/// An id that no chain has. It is a position of the chains of three.
pub const ABSENT: u8 = 2;

/// The region has no part in what a machine does.
const REGION: u8 = 5;

const KINDS: [ComponentKind; 2] = [ComponentKind::Active, ComponentKind::Passive];

const POLICIES: [FailurePolicy; 3] = [
    FailurePolicy::Required,
    FailurePolicy::Isolable,
    FailurePolicy::Cascading,
];

/// The values of max_retry for the chains of `length` components. After a
/// Restored the retry is at least 1, so that recovery is exhausted at once with
/// 0 and with 1. With 2 it is exhausted or not, so that the long chains have
/// both outcomes with 2 alone.
pub fn max_retries(length: usize) -> &'static [u8] {
    if is_long(length) { &[2] } else { &[0, 1, 2] }
}

/// Whether chains of this length are walked with fewer events.
pub fn is_long(length: usize) -> bool {
    length == MOST
}

/// Whether effects on this chain get other replies than done. Of the long
/// chains these are one in eight, since a kind has a part in one rule alone:
/// with these kinds PreSupervision goes on after a release and AwaitingReady is
/// entered too.
pub fn varies_replies(entries: &[Entry]) -> bool {
    let kinds = [
        ComponentKind::Passive,
        ComponentKind::Active,
        ComponentKind::Active,
    ];
    !is_long(entries.len()) || entries.iter().map(|(_, attrs)| attrs.kind).eq(kinds)
}

/// Every chain of 1 to `most` components, the short ones first.
pub fn chains(most: usize) -> Vec<Vec<Entry>> {
    (1..=most).flat_map(of_length).collect()
}

/// Every chain of `length` components.
pub fn of_length(length: usize) -> Vec<Vec<Entry>> {
    let mut chains = vec![Vec::new()];
    for position in 0..length {
        chains = chains
            .iter()
            .flat_map(|chain| entries(position).map(|entry| [chain.as_slice(), &[entry]].concat()))
            .collect();
    }
    chains
}

/// Every component that may stand at the position: each kind and policy, with
/// no dependency or one on an earlier component.
fn entries(position: usize) -> impl Iterator<Item = Entry> {
    let earlier = IDS[..position].iter().map(|id| Some(ComponentId::new(*id)));
    let links: Vec<Option<ComponentId>> = [None].into_iter().chain(earlier).collect();
    KINDS.into_iter().flat_map(move |kind| {
        let links = links.clone();
        POLICIES.into_iter().flat_map(move |failure_policy| {
            links.clone().into_iter().map(move |depends_on| {
                let attrs = ComponentAttrs {
                    kind,
                    failure_policy,
                    recovery_region: RegionId::new(REGION),
                    depends_on,
                };
                (ComponentId::new(IDS[position]), attrs)
            })
        })
    })
}

#[cfg(test)]
mod tests {
    use std::collections::HashSet;

    use super::*;
    use crate::lists::List;
    use crate::lists::answer::chain;

    #[test]
    fn there_are_6_and_72_and_1296_chains() {
        let lengths = [1, 2, 3].map(|length| of_length(length).len());
        assert_eq!(lengths, [6, 72, 1296]);
        assert_eq!(chains(3).len(), 6 + 72 + 1296);
    }

    #[test]
    fn one_in_eight_chains_of_three_varies_its_replies() {
        let varied = |chains: Vec<Vec<Entry>>| chains.iter().filter(|c| varies_replies(c)).count();
        assert_eq!(varied(chains(2)), 6 + 72);
        assert_eq!(varied(of_length(3)), 1296 / 8);
    }

    #[test]
    fn no_chain_comes_twice_and_each_is_accepted() {
        let chains = chains(3);
        assert!(chains.iter().all(|entries| chain(entries).is_ok()));
        let texts: HashSet<String> = chains
            .into_iter()
            .map(|entries| List::whole(entries).to_string())
            .collect();
        assert_eq!(texts.len(), 6 + 72 + 1296);
    }
}
