//! Quorum rules.

pub const LARGEST_GROUP: usize = 7;

/// Which sets of places win; place i is bit i of a set.
pub trait QuorumRule {
    fn wins(&self, size: u8, set: u8) -> bool;
}

/// More than half of the places win.
#[derive(Clone, Copy, Debug)]
pub struct Majority;

impl QuorumRule for Majority {
    fn wins(&self, size: u8, set: u8) -> bool {
        (1..=LARGEST_GROUP as u8).contains(&size)
            && u32::from(set) < 1 << size
            && 2 * set.count_ones() > u32::from(size)
    }
}
