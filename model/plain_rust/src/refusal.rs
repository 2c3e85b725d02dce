//! Refusals.

/// The number of a refusal (docs/REFUSALS.md).
#[derive(Clone, Copy, Debug, PartialEq)]
pub struct Refused(pub u8);
