//! Frames: 32 bytes each.

use crate::content::{Content, WIDEST};
use crate::quorum::LARGEST_GROUP;
use crate::tables::{Members, SheetCopy, Tag};

pub const SLOT: usize = 32;

#[derive(Clone, Copy, Debug, PartialEq, Eq)]
pub enum Cause {
    Kind = 1,
    Field = 2,
    Content = 3,
    Rest = 4,
}

#[derive(Clone, Copy, Debug, PartialEq, Eq)]
pub struct FrameFault {
    pub cause: Cause,
    pub offset: usize,
}

/// A frame as it is read from a slot, or sent.
#[derive(Clone, Copy, Debug, PartialEq, Eq)]
pub struct Frame {
    pub receiver: u8,
    pub sender: u8,
    pub number: u8,
    pub body: Body,
}

#[derive(Clone, Copy, Debug, PartialEq, Eq)]
pub enum Body {
    Get { operation: u16 },
    GetAck { operation: u16 },
    Put { operation: u16, copy: SheetCopy },
    PutAck { operation: u16 },
    Freeze { operation: u16 },
    Held { operation: u16, copy: SheetCopy },
    Update { members: Members, copy: SheetCopy },
}

impl Frame {
    /// Reads a slot, field by field; the first that fails is the fault.
    pub fn read<C: Content>(slot: &[u8; SLOT]) -> Result<Frame, FrameFault> {
        let kind = slot[0];
        require((1..=7).contains(&kind), Cause::Kind, 0)?;
        require(is_node(slot[1]), Cause::Field, 1)?;
        require(is_node(slot[2]), Cause::Field, 2)?;
        let (body, length) = match kind {
            7 => {
                require((1..=16).contains(&slot[3]), Cause::Field, 3)?;
                let members = read_members(slot)?;
                let copy = read_copy::<C>(slot, 12)?;
                (Body::Update { members, copy }, 15 + C::WIDTH)
            }
            _ => {
                require(slot[3] <= 16, Cause::Field, 3)?;
                let operation = word(slot, 4);
                require(operation <= 4095, Cause::Field, 4)?;
                match kind {
                    1 => (Body::Get { operation }, 6),
                    2 => (Body::GetAck { operation }, 6),
                    4 => (Body::PutAck { operation }, 6),
                    5 => (Body::Freeze { operation }, 6),
                    _ => {
                        let copy = read_copy::<C>(slot, 6)?;
                        let body = match kind {
                            3 => Body::Put { operation, copy },
                            _ => Body::Held { operation, copy },
                        };
                        (body, 9 + C::WIDTH)
                    }
                }
            }
        };
        require(slot[length..].iter().all(|byte| *byte == 0), Cause::Rest, length)?;
        Ok(Frame { receiver: slot[1], sender: slot[2], number: slot[3], body })
    }

    /// Writes the frame over a slot.
    pub fn write<C: Content>(&self, slot: &mut [u8; SLOT]) {
        *slot = [0; SLOT];
        slot[0] = self.kind();
        slot[1] = self.receiver;
        slot[2] = self.sender;
        slot[3] = self.number;
        match &self.body {
            Body::Get { operation }
            | Body::GetAck { operation }
            | Body::PutAck { operation }
            | Body::Freeze { operation } => put_word(slot, 4, *operation),
            Body::Put { operation, copy } | Body::Held { operation, copy } => {
                put_word(slot, 4, *operation);
                put_copy::<C>(slot, 6, copy);
            }
            Body::Update { members, copy } => {
                slot[4] = members.count;
                slot[5..12].copy_from_slice(&members.nodes);
                put_copy::<C>(slot, 12, copy);
            }
        }
    }

    fn kind(&self) -> u8 {
        match self.body {
            Body::Get { .. } => 1,
            Body::GetAck { .. } => 2,
            Body::Put { .. } => 3,
            Body::PutAck { .. } => 4,
            Body::Freeze { .. } => 5,
            Body::Held { .. } => 6,
            Body::Update { .. } => 7,
        }
    }
}

fn require(passes: bool, cause: Cause, offset: usize) -> Result<(), FrameFault> {
    if passes { Ok(()) } else { Err(FrameFault { cause, offset }) }
}

fn is_node(node: u8) -> bool {
    (1..=16).contains(&node)
}

fn word(slot: &[u8; SLOT], at: usize) -> u16 {
    u16::from_be_bytes([slot[at], slot[at + 1]])
}

fn put_word(slot: &mut [u8; SLOT], at: usize, value: u16) {
    slot[at..at + 2].copy_from_slice(&value.to_be_bytes());
}

fn put_copy<C: Content>(slot: &mut [u8; SLOT], at: usize, copy: &SheetCopy) {
    put_word(slot, at, copy.tag.version);
    slot[at + 2] = copy.tag.node;
    slot[at + 3..at + 3 + C::WIDTH].copy_from_slice(&copy.content[..C::WIDTH]);
}

fn read_copy<C: Content>(slot: &[u8; SLOT], at: usize) -> Result<SheetCopy, FrameFault> {
    let tag = Tag { version: word(slot, at), node: slot[at + 2] };
    require(tag.version <= 9999, Cause::Field, at)?;
    let suits = if tag.version == 0 { tag.node == 0 } else { is_node(tag.node) };
    require(suits, Cause::Field, at + 2)?;
    let bytes = &slot[at + 3..at + 3 + C::WIDTH];
    require(C::from_bytes(bytes).is_some(), Cause::Content, at + 3)?;
    let mut content = [0; WIDEST];
    content[..C::WIDTH].copy_from_slice(bytes);
    Ok(SheetCopy { tag, content })
}

fn read_members(slot: &[u8; SLOT]) -> Result<Members, FrameFault> {
    let count = usize::from(slot[4]);
    require((1..=LARGEST_GROUP).contains(&count), Cause::Field, 4)?;
    let listed = &slot[5..12];
    for (place, member) in listed.iter().enumerate() {
        let passes = if place < count {
            is_node(*member) && !listed[..place].contains(member)
        } else {
            *member == 0
        };
        require(passes, Cause::Field, 5 + place)?;
    }
    Ok(Members::new(&listed[..count]))
}
