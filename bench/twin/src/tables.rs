//! The host's tables.

use crate::content::WIDEST;
use crate::quorum::LARGEST_GROUP;

#[derive(Clone, Copy, Debug, Default, PartialEq, Eq, PartialOrd, Ord)]
pub struct Tag {
    pub version: u16,
    pub node: u8,
}

#[derive(Clone, Copy, Debug, Default, PartialEq, Eq)]
pub struct SheetCopy {
    pub tag: Tag,
    pub content: [u8; WIDEST],
}

impl SheetCopy {
    pub fn newer(self, other: SheetCopy) -> SheetCopy {
        if other.tag > self.tag { other } else { self }
    }
}

#[derive(Clone, Copy, Debug, Default, PartialEq, Eq)]
pub struct Members {
    pub nodes: [u8; LARGEST_GROUP],
    pub count: u8,
}

impl Members {
    pub fn new(members: &[u8]) -> Members {
        let count = members.len().min(LARGEST_GROUP);
        let mut nodes = [0; LARGEST_GROUP];
        nodes[..count].copy_from_slice(&members[..count]);
        Members { nodes, count: count as u8 }
    }

    pub fn as_slice(&self) -> &[u8] {
        &self.nodes[..usize::from(self.count).min(LARGEST_GROUP)]
    }

    pub fn size(&self) -> u8 {
        self.as_slice().len() as u8
    }

    pub fn primary(&self) -> u8 {
        self.as_slice().first().copied().unwrap_or(0)
    }

    pub fn place_of(&self, node: u8) -> Option<usize> {
        self.as_slice().iter().position(|member| *member == node)
    }

    /// One to seven different nodes up to the highest, then zeros.
    pub fn is_lawful(&self, highest: u8) -> bool {
        let count = usize::from(self.count);
        if !(1..=LARGEST_GROUP).contains(&count) {
            return false;
        }
        let (listed, rest) = self.nodes.split_at(count);
        listed.iter().enumerate().all(|(place, node)| {
            (1..=highest).contains(node) && !listed[..place].contains(node)
        }) && rest.iter().all(|node| *node == 0)
    }
}

#[derive(Clone, Copy, Debug, Default, PartialEq, Eq)]
pub enum Status {
    #[default]
    Idle,
    Active,
    Frozen,
}

#[derive(Clone, Copy, Debug, Default, PartialEq, Eq)]
pub struct Configuration {
    pub number: u8,
    pub members: Members,
    pub opening: Tag,
}

#[derive(Clone, Copy, Debug, Default, PartialEq, Eq)]
pub struct NodeRecord {
    pub status: Status,
    pub stopped: bool,
    pub configuration: Configuration,
    pub stored: SheetCopy,
    pub served: SheetCopy,
    pub newest: u16,
}

#[derive(Clone, Copy, Debug, Default, PartialEq, Eq)]
pub enum OperationKind {
    #[default]
    Read,
    Write,
    Regroup,
}

#[derive(Clone, Copy, Debug, Default, PartialEq, Eq)]
pub enum OperationState {
    #[default]
    Open,
    Answered,
    GivenUp,
    Proposed,
}

#[derive(Clone, Copy, Debug, Default, PartialEq, Eq)]
pub struct OperationRow {
    pub kind: OperationKind,
    pub node: u8,
    pub number: u8,
    pub copy: SheetCopy,
    pub members: Members,
    pub set: u8,
    pub state: OperationState,
    pub start: u32,
    pub answer: u32,
}

#[derive(Clone, Copy, Debug, Default, PartialEq, Eq)]
pub struct ProposalRow {
    pub number: u8,
    pub members: Members,
    pub copy: SheetCopy,
}

/// The tables, as they are lent to a call.
pub struct Tables<'a> {
    pub nodes: &'a mut [NodeRecord],
    pub operations: &'a mut [OperationRow],
    pub frames: &'a mut [u8],
    pub proposals: &'a mut [ProposalRow],
}

/// The tables, as a host owns them.
#[derive(Debug)]
pub struct HostTables {
    pub nodes: Vec<NodeRecord>,
    pub operations: Vec<OperationRow>,
    pub frames: Vec<u8>,
    pub proposals: Vec<ProposalRow>,
}

impl HostTables {
    pub fn new(operations: usize, slots: usize, proposals: usize) -> HostTables {
        HostTables {
            nodes: vec![NodeRecord::default(); 16],
            operations: vec![OperationRow::default(); operations],
            frames: vec![0; 32 * slots],
            proposals: vec![ProposalRow::default(); proposals],
        }
    }

    pub fn lend(&mut self) -> Tables<'_> {
        Tables {
            nodes: &mut self.nodes,
            operations: &mut self.operations,
            frames: &mut self.frames,
            proposals: &mut self.proposals,
        }
    }
}
