//! The floor and its twelve calls.

use crate::chooser::Chooser;
use crate::content::Content;
use crate::fault::Fault;
use crate::frame::{Body, Frame, SLOT};
use crate::quorum::QuorumRule;
use crate::slots::{lowest_empty, need, occupied, send};
use crate::tables::{
    Configuration, Members, NodeRecord, OperationKind, OperationRow, OperationState, ProposalRow,
    SheetCopy, Status, Tables, Tag,
};
use std::marker::PhantomData;

/// What became of a frame that was delivered.
#[derive(Clone, Copy, Debug, PartialEq, Eq)]
pub enum Delivery {
    Ignored = 0,
    Handled = 1,
    Answered = 2,
}

pub struct Floor<C, Q, S> {
    is_open: bool,
    node_count: u8,
    /// Operation rows, bytes of the frame table, proposal rows at the opening.
    lengths: [usize; 3],
    operations_used: u16,
    proposals_used: u8,
    moment: u32,
    rule: Q,
    chooser: S,
    kind: PhantomData<C>,
}

fn lengths_of(tables: &Tables<'_>) -> [usize; 3] {
    [tables.operations.len(), tables.frames.len(), tables.proposals.len()]
}

fn are_allowed(tables: &Tables<'_>) -> bool {
    tables.nodes.len() == 16
        && (1..=4096).contains(&tables.operations.len())
        && tables.frames.len() % SLOT == 0
        && (1..=256).contains(&(tables.frames.len() / SLOT))
        && (1..=128).contains(&tables.proposals.len())
}

impl<C: Content, Q: QuorumRule, S: Chooser> Floor<C, Q, S> {
    pub fn new(rule: Q, chooser: S) -> Self {
        Floor {
            is_open: false,
            node_count: 0,
            lengths: [0; 3],
            operations_used: 0,
            proposals_used: 0,
            moment: 0,
            rule,
            chooser,
            kind: PhantomData,
        }
    }

    pub fn open(
        &mut self,
        tables: &mut Tables<'_>,
        count: u8,
        members: Members,
        content: &C,
    ) -> Result<(), Fault> {
        if self.is_open {
            return Err(Fault::AlreadyOpen);
        }
        if !are_allowed(tables) {
            return Err(Fault::TableLength);
        }
        if !(1..=16).contains(&count) {
            return Err(Fault::NodeCount);
        }
        if !members.is_lawful(count) {
            return Err(Fault::Unlawful);
        }
        let copy = SheetCopy { tag: Tag::default(), content: content.to_bytes() };
        for (node, record) in (1..=count).zip(tables.nodes.iter_mut()) {
            let is_member = members.place_of(node).is_some();
            *record = NodeRecord {
                status: if is_member { Status::Active } else { Status::Idle },
                stopped: false,
                configuration: Configuration { number: 0, members, opening: copy.tag },
                stored: copy,
                served: copy,
                newest: 0,
            };
        }
        tables.frames.fill(0);
        self.is_open = true;
        self.node_count = count;
        self.lengths = lengths_of(tables);
        self.operations_used = 0;
        self.proposals_used = 0;
        self.moment = 0;
        Ok(())
    }

    pub fn read(&mut self, tables: &mut Tables<'_>, node: u8) -> Result<u16, Fault> {
        self.check(tables)?;
        let record = self.leading(tables.nodes, node)?;
        self.row_left()?;
        need(tables.frames, usize::from(record.configuration.members.size()))?;
        let operation = self.operations_used;
        let members = record.configuration.members;
        let row = self.row(node, record, OperationKind::Read, record.served, members);
        tables.operations[usize::from(operation)] = row;
        let body = Body::Get { operation };
        send::<C>(tables.frames, members.as_slice(), node, row.number, body);
        self.count_start(row.start);
        Ok(operation)
    }

    pub fn write(
        &mut self,
        tables: &mut Tables<'_>,
        node: u8,
        content: &C,
    ) -> Result<u16, Fault> {
        self.check(tables)?;
        let record = self.leading(tables.nodes, node)?;
        self.row_left()?;
        if record.newest >= 9999 {
            return Err(Fault::LastVersion);
        }
        let members = record.configuration.members;
        need(tables.frames, usize::from(members.size()))?;
        record.newest += 1;
        let tag = Tag { version: record.newest, node };
        let copy = SheetCopy { tag, content: content.to_bytes() };
        let operation = self.operations_used;
        let row = self.row(node, record, OperationKind::Write, copy, members);
        tables.operations[usize::from(operation)] = row;
        let body = Body::Put { operation, copy };
        send::<C>(tables.frames, members.as_slice(), node, row.number, body);
        self.count_start(row.start);
        Ok(operation)
    }

    pub fn regroup(
        &mut self,
        tables: &mut Tables<'_>,
        node: u8,
        members: Members,
    ) -> Result<u16, Fault> {
        self.check(tables)?;
        let record = self.taking_part(tables.nodes, node)?;
        if !members.is_lawful(self.node_count) {
            return Err(Fault::Unlawful);
        }
        self.row_left()?;
        let present = record.configuration.members;
        need(tables.frames, usize::from(present.size()))?;
        record.status = Status::Frozen;
        let operation = self.operations_used;
        let row = self.row(node, record, OperationKind::Regroup, record.served, members);
        tables.operations[usize::from(operation)] = row;
        let body = Body::Freeze { operation };
        send::<C>(tables.frames, present.as_slice(), node, row.number, body);
        self.count_start(row.start);
        Ok(operation)
    }

    pub fn propose(&mut self, tables: &mut Tables<'_>, operation: u16) -> Result<u8, Fault> {
        self.check(tables)?;
        let row = self.started(tables.operations, operation)?;
        if row.state != OperationState::Open {
            return Err(Fault::NotOpen);
        }
        if row.kind != OperationKind::Regroup {
            return Err(Fault::NoRegroup);
        }
        let place = usize::from(row.node).checked_sub(1).ok_or(Fault::Stopped)?;
        let node = tables.nodes.get(place).ok_or(Fault::Stopped)?;
        if node.stopped {
            return Err(Fault::Stopped);
        }
        if node.configuration.number != row.number {
            return Err(Fault::OtherNumber);
        }
        if !self.rule.wins(node.configuration.members.size(), row.set) {
            return Err(Fault::TooFewFrozen);
        }
        let proposal = self.proposals_used;
        let next = tables
            .proposals
            .get_mut(usize::from(proposal))
            .ok_or(Fault::ProposalsUsed)?;
        self.chooser.offer(row.number, proposal)?;
        *next = ProposalRow { number: row.number, members: row.members, copy: row.copy };
        row.state = OperationState::Proposed;
        self.proposals_used += 1;
        Ok(proposal)
    }

    pub fn settle(&self, tables: &mut Tables<'_>, node: u8) -> Result<u8, Fault> {
        self.check(tables)?;
        let number = self.taking_part(tables.nodes, node)?.configuration.number;
        let proposal = self.chooser.decision(number).ok_or(Fault::NoDecision)?;
        let row = tables.proposals[..usize::from(self.proposals_used)]
            .get(usize::from(proposal))
            .filter(|row| row.number == number)
            .ok_or(Fault::NotProposed)?;
        need(tables.frames, usize::from(row.members.size()))?;
        let body = Body::Update { members: row.members, copy: row.copy };
        send::<C>(tables.frames, row.members.as_slice(), node, number + 1, body);
        Ok(row.members.size())
    }

    pub fn work(
        &mut self,
        tables: &Tables<'_>,
        number: u8,
        step: u8,
        ballot: u8,
        set: u8,
    ) -> Result<(), Fault> {
        self.check(tables)?;
        self.chooser.work(number, step, ballot, set)?;
        Ok(())
    }

    pub fn deliver(&mut self, tables: &mut Tables<'_>, slot: u16) -> Result<Delivery, Fault> {
        self.check(tables)?;
        let frame = Frame::read::<C>(occupied(tables.frames, slot)?)?;
        let node = self.running(tables.nodes, frame.receiver)?;
        let used = usize::from(self.operations_used).min(tables.operations.len());
        let rows = &mut tables.operations[..used];
        match (frame.body, node.status) {
            (Body::Get { operation }, Status::Active) if obeys(node, &frame) => {
                let slot = lowest_empty(tables.frames)?;
                Ok(reply::<C>(slot, &frame, Body::GetAck { operation }))
            }
            (Body::Put { operation, copy }, Status::Active) if obeys(node, &frame) => {
                let slot = lowest_empty(tables.frames)?;
                node.stored = node.stored.newer(copy);
                Ok(reply::<C>(slot, &frame, Body::PutAck { operation }))
            }
            (Body::Freeze { operation }, Status::Active | Status::Frozen)
                if frame.number == node.configuration.number =>
            {
                let slot = lowest_empty(tables.frames)?;
                node.status = Status::Frozen;
                let copy = node.stored;
                Ok(reply::<C>(slot, &frame, Body::Held { operation, copy }))
            }
            (Body::GetAck { operation }, Status::Active) => {
                let Some((row, bit)) = counted(rows, operation, OperationKind::Read, node, &frame)
                else {
                    return Ok(Delivery::Ignored);
                };
                row.set |= bit;
                if !self.rule.wins(node.configuration.members.size(), row.set) {
                    return Ok(Delivery::Handled);
                }
                row.copy = node.served;
                Ok(self.answer(row))
            }
            (Body::PutAck { operation }, Status::Active) => {
                let Some((row, bit)) = counted(rows, operation, OperationKind::Write, node, &frame)
                else {
                    return Ok(Delivery::Ignored);
                };
                row.set |= bit;
                if !self.rule.wins(node.configuration.members.size(), row.set) {
                    return Ok(Delivery::Handled);
                }
                node.served = node.served.newer(row.copy);
                Ok(self.answer(row))
            }
            (Body::Held { operation, copy }, Status::Active | Status::Frozen) => {
                let Some((row, bit)) =
                    counted(rows, operation, OperationKind::Regroup, node, &frame)
                else {
                    return Ok(Delivery::Ignored);
                };
                row.copy = if row.set == 0 { copy } else { row.copy.newer(copy) };
                row.set |= bit;
                Ok(Delivery::Handled)
            }
            (Body::Update { members, copy }, _) => Ok(join(node, &frame, members, copy)),
            _ => Ok(Delivery::Ignored),
        }
    }

    pub fn lose(&self, tables: &mut Tables<'_>, slot: u16) -> Result<(), Fault> {
        self.check(tables)?;
        *occupied(tables.frames, slot)? = [0; SLOT];
        Ok(())
    }

    pub fn give_up(&self, tables: &mut Tables<'_>, operation: u16) -> Result<(), Fault> {
        self.check(tables)?;
        let row = self.started(tables.operations, operation)?;
        if row.state != OperationState::Open {
            return Err(Fault::NotOpen);
        }
        row.state = OperationState::GivenUp;
        Ok(())
    }

    pub fn stop(&self, tables: &mut Tables<'_>, node: u8) -> Result<(), Fault> {
        self.check(tables)?;
        self.running(tables.nodes, node)?.stopped = true;
        Ok(())
    }

    pub fn look(&self, tables: &mut Tables<'_>, operation: u16) -> Result<OperationRow, Fault> {
        self.check(tables)?;
        self.started(tables.operations, operation).copied()
    }

    // Whether the floor is open, and these are its tables.
    fn check(&self, tables: &Tables<'_>) -> Result<(), Fault> {
        if !self.is_open {
            return Err(Fault::Closed);
        }
        if !are_allowed(tables) || lengths_of(tables) != self.lengths {
            return Err(Fault::TableLength);
        }
        Ok(())
    }

    fn running<'a>(
        &self,
        nodes: &'a mut [NodeRecord],
        node: u8,
    ) -> Result<&'a mut NodeRecord, Fault> {
        if node > self.node_count {
            return Err(Fault::NoNode);
        }
        let place = usize::from(node).checked_sub(1).ok_or(Fault::NoNode)?;
        let record = nodes.get_mut(place).ok_or(Fault::NoNode)?;
        if record.stopped {
            return Err(Fault::Stopped);
        }
        Ok(record)
    }

    fn taking_part<'a>(
        &self,
        nodes: &'a mut [NodeRecord],
        node: u8,
    ) -> Result<&'a mut NodeRecord, Fault> {
        let record = self.running(nodes, node)?;
        if record.status == Status::Idle {
            return Err(Fault::Idle);
        }
        Ok(record)
    }

    fn leading<'a>(
        &self,
        nodes: &'a mut [NodeRecord],
        node: u8,
    ) -> Result<&'a mut NodeRecord, Fault> {
        let record = self.taking_part(nodes, node)?;
        if record.status == Status::Frozen {
            return Err(Fault::Frozen);
        }
        if record.configuration.members.primary() != node {
            return Err(Fault::NotPrimary);
        }
        Ok(record)
    }

    fn row_left(&self) -> Result<(), Fault> {
        if usize::from(self.operations_used) >= self.lengths[0] {
            return Err(Fault::OperationsUsed);
        }
        Ok(())
    }

    fn started<'a>(
        &self,
        operations: &'a mut [OperationRow],
        operation: u16,
    ) -> Result<&'a mut OperationRow, Fault> {
        if operation >= self.operations_used {
            return Err(Fault::NotStarted);
        }
        operations.get_mut(usize::from(operation)).ok_or(Fault::NotStarted)
    }

    fn row(
        &self,
        node: u8,
        record: &NodeRecord,
        kind: OperationKind,
        copy: SheetCopy,
        members: Members,
    ) -> OperationRow {
        OperationRow {
            kind,
            node,
            number: record.configuration.number,
            copy,
            members,
            set: 0,
            state: OperationState::Open,
            start: self.moment.saturating_add(1),
            answer: 0,
        }
    }

    fn count_start(&mut self, moment: u32) {
        self.operations_used += 1;
        self.moment = moment;
    }

    fn answer(&mut self, row: &mut OperationRow) -> Delivery {
        self.moment = self.moment.saturating_add(1);
        row.state = OperationState::Answered;
        row.answer = self.moment;
        Delivery::Answered
    }
}

// Whether a frame comes from the node's primary, under the node's number.
fn obeys(node: &NodeRecord, frame: &Frame) -> bool {
    frame.number == node.configuration.number
        && frame.sender == node.configuration.members.primary()
}

// The row that waits for a frame, and the bit of the sender's place.
fn counted<'a>(
    rows: &'a mut [OperationRow],
    operation: u16,
    kind: OperationKind,
    node: &NodeRecord,
    frame: &Frame,
) -> Option<(&'a mut OperationRow, u8)> {
    let row = rows.get_mut(usize::from(operation))?;
    let waits = row.kind == kind
        && row.state == OperationState::Open
        && row.node == frame.receiver
        && row.number == frame.number
        && frame.number == node.configuration.number;
    if !waits {
        return None;
    }
    let place = node.configuration.members.place_of(frame.sender)?;
    Some((row, 1 << place))
}

fn reply<C: Content>(slot: &mut [u8; SLOT], frame: &Frame, body: Body) -> Delivery {
    let reply = Frame {
        receiver: frame.sender,
        sender: frame.receiver,
        number: frame.number,
        body,
    };
    reply.write::<C>(slot);
    Delivery::Handled
}

// The node joins the configuration of an update, if it is a member and in none or under a lower number.
fn join(node: &mut NodeRecord, frame: &Frame, members: Members, copy: SheetCopy) -> Delivery {
    let may_join = members.place_of(frame.receiver).is_some()
        && (node.status == Status::Idle || node.configuration.number < frame.number);
    if !may_join {
        return Delivery::Ignored;
    }
    node.status = Status::Active;
    node.configuration = Configuration { number: frame.number, members, opening: copy.tag };
    node.stored = node.stored.newer(copy);
    node.served = copy;
    node.newest = node.newest.max(copy.tag.version);
    Delivery::Handled
}
