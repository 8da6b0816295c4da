//! The crate that is built holds the published source unchanged, with the
//! accessors after it.

const PUBLISHED_LIB: &str = include_str!("../../docs/src/services/orchestrator/sm/src/lib.rs");
const PUBLISHED_MODEL: &str = include_str!("../../docs/src/services/orchestrator/sm/src/model.rs");
const ACCESSORS: &str = include_str!("../accessors.rs");
const BUILT_LIB: &str = include_str!("../generated/openprot_orchestrator_sm/src/lib.rs");
const BUILT_MODEL: &str = include_str!("../generated/openprot_orchestrator_sm/src/model.rs");

#[test]
fn model_is_the_published_one() {
    assert!(BUILT_MODEL == PUBLISHED_MODEL);
}

#[test]
fn lib_is_the_published_one_with_the_accessors_appended() {
    assert!(BUILT_LIB.strip_prefix(PUBLISHED_LIB) == Some(ACCESSORS));
}
