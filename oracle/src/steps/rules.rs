//! The numbers of states and events, and which pairs have a rule by section 3 of
//! document 01.

pub const POWER_ON_RESET: usize = 0;
pub const PRE_SUPERVISION: usize = 1;
pub const AWAITING_READY: usize = 2;
pub const READY: usize = 3;
pub const UPDATING: usize = 4;
pub const RECOVERING: usize = 5;

pub const POWER_GOOD: usize = 0;
pub const VERIFICATION_PASSED: usize = 1;
pub const VERIFICATION_FAILED: usize = 2;
pub const COMPONENT_READY: usize = 3;
pub const BOOTED: usize = 4;
pub const UPDATE_VERIFIED: usize = 7;
pub const UPDATE_REJECTED: usize = 8;
pub const BOOT_CONFIRMED: usize = 9;
pub const CORRUPTION_DETECTED: usize = 10;
pub const RESTORED: usize = 11;
pub const RECOVERY_UNAVAILABLE: usize = 12;
pub const BOOT_FAILED: usize = 14;
pub const TIMEOUT: usize = 15;
pub const COMMIT_TIMEOUT: usize = 16;

/// For each state number, the numbers of the events that it has a rule for.
pub const RULES: [&[usize]; 7] = [
    &[0, 17],
    &[1, 2, 4, 10, 14, 15, 17],
    &[1, 2, 3, 4, 5, 6, 10, 14, 15, 17],
    &[3, 4, 5, 6, 9, 10, 14, 15, 16, 17],
    &[3, 4, 5, 6, 7, 8, 10, 14, 15, 17],
    &[3, 4, 5, 6, 10, 11, 12, 13, 14, 15, 17],
    &[],
];

/// The events that name a component.
pub const NAMING: [usize; 10] = [
    VERIFICATION_PASSED,
    VERIFICATION_FAILED,
    COMPONENT_READY,
    BOOTED,
    BOOT_CONFIRMED,
    CORRUPTION_DETECTED,
    RESTORED,
    RECOVERY_UNAVAILABLE,
    BOOT_FAILED,
    TIMEOUT,
];
