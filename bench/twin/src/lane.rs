//! A floor with its tables, and the calls that the workloads make on it.

use crate::chooser::Chooser;
use crate::content::Quote;
use crate::digest::Digest;
use crate::fault::Fault;
use crate::floor::{Delivery, Floor};
use crate::quorum::Majority;
use crate::tables::{HostTables, Members, NodeRecord, OperationRow, SheetCopy};
use crate::workload::{Step, Workload};

const NODES: u8 = 16;

/// The ballot of the offer that stands first.
const BALLOT: u8 = 8;

/// Three promise, the ballot is fixed, three accept, it is counted.
const WORK: [(u8, u8); 8] = [
    (1, 0b00001),
    (1, 0b00010),
    (1, 0b00100),
    (2, 0b00111),
    (3, 0b00001),
    (3, 0b00010),
    (3, 0b00100),
    (4, 0b00111),
];

pub struct Lane<S> {
    floor: Floor<Quote, Majority, S>,
    host: HostTables,
    price: u32,
}

impl<S: Chooser> Lane<S> {
    pub fn new(workload: &Workload, chooser: S) -> Lane<S> {
        let rows = usize::from(workload.rows);
        let slots = usize::from(workload.slots);
        Lane {
            floor: Floor::new(Majority, chooser),
            host: HostTables::new(rows, slots, 16),
            price: 0,
        }
    }

    pub fn renew(&mut self, chooser: S) {
        self.floor = Floor::new(Majority, chooser);
    }

    pub fn make(&mut self, step: &Step, digest: &mut Digest) {
        let Lane { floor, host, price } = self;
        match *step {
            Step::Open { members } => {
                let content = Quote::new(500, 510).expect("500 is not above 510");
                digest.add(number(floor.open(&mut host.lend(), NODES, members, &content)));
            }
            Step::Read { node, count } => {
                for _ in 0..count {
                    digest.add(number(floor.read(&mut host.lend(), node)));
                }
            }
            Step::Write { node, count } => {
                for _ in 0..count {
                    *price = price.wrapping_add(1);
                    let content = Quote::new(*price, u32::MAX).expect("no price is above this");
                    digest.add(number(floor.write(&mut host.lend(), node, &content)));
                }
            }
            Step::Deliver { first, end } => {
                for slot in first..end {
                    digest.add(number(floor.deliver(&mut host.lend(), slot)));
                }
            }
            Step::Lose { first, end } => {
                for slot in first..end {
                    digest.add(number(floor.lose(&mut host.lend(), slot)));
                }
            }
            Step::Regroup { node, members } => {
                digest.add(number(floor.regroup(&mut host.lend(), node, members)));
            }
            Step::Propose { operation } => {
                digest.add(number(floor.propose(&mut host.lend(), operation)));
            }
            Step::Work { number: under } => {
                for (step, set) in WORK {
                    let answer = floor.work(&host.lend(), under, step, BALLOT, set);
                    digest.add(number(answer));
                }
            }
            Step::Settle { node } => {
                digest.add(number(floor.settle(&mut host.lend(), node)));
            }
        }
    }

    /// Adds what the tables hold, but for opening tags, stopped marks and proposal rows.
    pub fn add_tables(&self, digest: &mut Digest) {
        digest.add_bytes(&self.host.frames);
        for record in &self.host.nodes {
            add_record(record, digest);
        }
        for row in &self.host.operations {
            add_row(row, digest);
        }
    }
}

/// What a call answered, as a number.
trait Answer {
    fn told(self) -> u64;
}

impl Answer for () {
    fn told(self) -> u64 {
        0
    }
}

impl Answer for u8 {
    fn told(self) -> u64 {
        self.into()
    }
}

impl Answer for u16 {
    fn told(self) -> u64 {
        self.into()
    }
}

impl Answer for Delivery {
    fn told(self) -> u64 {
        self as u64
    }
}

fn number<T: Answer>(answer: Result<T, Fault>) -> u64 {
    match answer {
        Ok(answer) => answer.told(),
        Err(fault) => 10_000 + u64::from(fault.number()),
    }
}

fn add_copy(copy: &SheetCopy, digest: &mut Digest) {
    digest.add(copy.tag.version.into());
    digest.add(copy.tag.node.into());
    digest.add_bytes(&copy.content);
}

fn add_members(members: &Members, digest: &mut Digest) {
    digest.add(members.count.into());
    digest.add_bytes(&members.nodes);
}

fn add_record(record: &NodeRecord, digest: &mut Digest) {
    digest.add(record.status as u64);
    digest.add(record.configuration.number.into());
    add_members(&record.configuration.members, digest);
    add_copy(&record.stored, digest);
    add_copy(&record.served, digest);
    digest.add(record.newest.into());
}

fn add_row(row: &OperationRow, digest: &mut Digest) {
    digest.add(row.kind as u64);
    digest.add(row.state as u64);
    digest.add(row.node.into());
    digest.add(row.number.into());
    add_copy(&row.copy, digest);
    add_members(&row.members, digest);
    digest.add(row.set.into());
    digest.add(row.start.into());
    digest.add(row.answer.into());
}
