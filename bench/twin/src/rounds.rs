//! Rounds of calls: each opens floors anew and goes on until their rows are used.

use crate::chooser::{Chooser, Ledger, Synod};
use crate::digest::Digest;
use crate::lane::Lane;
use crate::meter::Meter;
use crate::quorum::Majority;
use crate::tables::Members;
use crate::workload::{Calls, Step, Workload};
use std::time::{Duration, Instant};

const LANES: usize = 4;
const HAND_OVERS: u8 = 16;

pub trait Fresh: Chooser {
    fn fresh() -> Self;
}

impl Fresh for Ledger {
    fn fresh() -> Ledger {
        Ledger::default()
    }
}

impl Fresh for Synod {
    fn fresh() -> Synod {
        Synod::new(&Majority)
    }
}

pub struct Lanes<S> {
    workload: Workload,
    lanes: Vec<Lane<S>>,
    pub digest: Digest,
    pub meter: Meter,
}

impl<S: Fresh> Lanes<S> {
    pub fn new(workload: Workload, meter: Meter) -> Lanes<S> {
        let lanes = (0..LANES).map(|_| Lane::new(&workload, S::fresh())).collect();
        Lanes { workload, lanes, digest: Digest::default(), meter }
    }

    pub fn round(&mut self) {
        for lane in &mut self.lanes {
            lane.renew(S::fresh());
        }
        self.timed("open", Step::Open { members: self.group(0) });
        match self.workload.calls {
            Calls::Reads => self.operations("read", |node, count| Step::Read { node, count }),
            Calls::Writes => self.operations("write", |node, count| Step::Write { node, count }),
            Calls::HandOversByLedger | Calls::HandOversBySynod => {
                for number in 0..HAND_OVERS {
                    self.hand_over(number);
                }
            }
        }
        for lane in &self.lanes {
            lane.add_tables(&mut self.digest);
        }
    }

    // As many operations at once as leave slots enough for their replies, until the rows are used.
    fn operations(&mut self, kind: &str, step: fn(u8, u16) -> Step) {
        let count = self.workload.slots / (2 * u16::from(self.workload.members));
        let (asked, replied) = match kind {
            "read" => ("deliver get", "deliver get-ack"),
            _ => ("deliver put", "deliver put-ack"),
        };
        for _ in 0..self.workload.rows / count {
            self.timed(kind, step(1, count));
            self.delivered(asked, replied, count);
        }
    }

    fn delivered(&mut self, asked: &str, replied: &str, operations: u16) {
        let sent = operations * u16::from(self.workload.members);
        self.timed(asked, Step::Deliver { first: 0, end: sent });
        self.timed(replied, Step::Deliver { first: sent, end: 2 * sent });
        self.timed("lose", Step::Lose { first: 0, end: 2 * sent });
    }

    fn hand_over(&mut self, number: u8) {
        let node = self.group(number).primary();
        let members = self.group(number + 1);
        self.timed("regroup", Step::Regroup { node, members });
        self.delivered("deliver freeze", "deliver held", 1);
        self.timed("propose", Step::Propose { operation: number.into() });
        if self.workload.calls == Calls::HandOversBySynod {
            self.timed("work", Step::Work { number });
        }
        self.timed("settle", Step::Settle { node });
        let end = self.workload.members.into();
        self.timed("deliver update", Step::Deliver { first: 0, end });
        self.timed("lose", Step::Lose { first: 0, end });
    }

    fn timed(&mut self, kind: &str, step: Step) {
        let start = self.meter.is_timing().then(Instant::now);
        for lane in &mut self.lanes {
            lane.make(&step, &mut self.digest);
        }
        let took = start.map_or(Duration::ZERO, |start| start.elapsed());
        self.meter.note(kind, step.calls() * LANES as u64, took);
    }

    // The members under a number: two groups take turns.
    fn group(&self, number: u8) -> Members {
        let size = self.workload.members;
        let first = if number % 2 == 0 { 1 } else { size + 1 };
        let members: Vec<u8> = (first..first + size).collect();
        Members::new(&members)
    }
}
