//! A set of refusals, and the order in which the calls give them back.

/// The greatest number of a refusal.
pub const LAST: u32 = 21;

/// The refusals that apply to one input, all of them and not only the first.
#[derive(Clone, Copy, Debug, Default, PartialEq, Eq)]
pub struct Faults(u32);

impl Faults {
    /// This one and no other.
    pub fn only(number: u32) -> Faults {
        Faults(1 << number)
    }

    pub fn note(&mut self, number: u32, applies: bool) {
        self.0 |= u32::from(applies) << number;
    }

    pub fn has(&self, number: u32) -> bool {
        self.0 >> number & 1 == 1
    }

    pub fn join(&mut self, other: Faults) {
        self.0 |= other.0;
    }

    pub fn any(&self) -> bool {
        self.0 != 0
    }

    /// The first in this order, or 0.
    pub fn first(&self, order: &[u32]) -> u32 {
        order.iter().copied().find(|number| self.has(*number)).unwrap_or(0)
    }
}
