//! The workloads, and the calls that are timed together.

use crate::tables::Members;
use std::fmt;

#[derive(Clone, Copy, Debug, PartialEq, Eq)]
pub enum Calls {
    Reads,
    Writes,
    HandOversByLedger,
    HandOversBySynod,
}

impl Calls {
    pub const ALL: [Calls; 4] =
        [Calls::Reads, Calls::Writes, Calls::HandOversByLedger, Calls::HandOversBySynod];
}

pub const GROUPS: [u8; 2] = [3, 7];

/// The slots and the operation rows of the tables.
pub const TABLES: [(u16, u16); 4] = [(16, 64), (64, 64), (256, 64), (256, 4096)];

#[derive(Clone, Copy, Debug)]
pub struct Workload {
    pub calls: Calls,
    pub members: u8,
    pub slots: u16,
    pub rows: u16,
}

impl Workload {
    /// How many rounds make up so many rounds on tables of 64 rows. The rows make no hand-overs more.
    pub fn rounds(&self, asked: u32) -> u32 {
        match self.calls {
            Calls::Reads | Calls::Writes => (asked / u32::from(self.rows / 64)).max(1),
            Calls::HandOversByLedger | Calls::HandOversBySynod => asked,
        }
    }
}

impl fmt::Display for Workload {
    fn fmt(&self, f: &mut fmt::Formatter<'_>) -> fmt::Result {
        let calls = match self.calls {
            Calls::Reads => "reads",
            Calls::Writes => "writes",
            Calls::HandOversByLedger => "hand-overs by ledger",
            Calls::HandOversBySynod => "hand-overs by synod",
        };
        let Workload { members, slots, rows, .. } = self;
        write!(f, "{calls}, {members} members, {slots} slots, {rows} rows")
    }
}

#[derive(Clone, Copy, Debug)]
pub enum Step {
    Open { members: Members },
    Read { node: u8, count: u16 },
    Write { node: u8, count: u16 },
    Deliver { first: u16, end: u16 },
    Lose { first: u16, end: u16 },
    Regroup { node: u8, members: Members },
    Propose { operation: u16 },
    Work { number: u8 },
    Settle { node: u8 },
}

impl Step {
    pub fn calls(&self) -> u64 {
        match *self {
            Step::Read { count, .. } | Step::Write { count, .. } => count.into(),
            Step::Deliver { first, end } | Step::Lose { first, end } => (end - first).into(),
            Step::Work { .. } => 8,
            _ => 1,
        }
    }
}
