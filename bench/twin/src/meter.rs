//! How many calls of each kind there were, and how long they took.

use std::time::{Duration, Instant};

pub const KINDS: [&str; 15] = [
    "open",
    "read",
    "deliver get",
    "deliver get-ack",
    "write",
    "deliver put",
    "deliver put-ack",
    "lose",
    "regroup",
    "deliver freeze",
    "deliver held",
    "propose",
    "work",
    "settle",
    "deliver update",
];

#[derive(Clone, Copy, Debug, Default)]
struct Tally {
    calls: u64,
    nanoseconds: u64,
}

#[derive(Debug)]
pub struct Meter {
    /// What the clock itself takes, where times are wanted.
    clock: Option<u64>,
    tallies: [Tally; KINDS.len()],
}

impl Meter {
    pub fn new(clock: Option<u64>) -> Meter {
        Meter { clock, tallies: Default::default() }
    }

    pub fn is_timing(&self) -> bool {
        self.clock.is_some()
    }

    pub fn note(&mut self, kind: &str, calls: u64, took: Duration) {
        let place = KINDS.iter().position(|known| *known == kind).expect("a kind of call");
        let tally = &mut self.tallies[place];
        tally.calls += calls;
        tally.nanoseconds += nanoseconds(took).saturating_sub(self.clock.unwrap_or(0));
    }

    pub fn calls(&self) -> u64 {
        self.tallies.iter().map(|tally| tally.calls).sum()
    }

    pub fn print(&self) {
        for (kind, tally) in KINDS.iter().zip(&self.tallies) {
            if tally.calls > 0 {
                let tenths = tally.nanoseconds * 10 / tally.calls;
                let (whole, tenth) = (tenths / 10, tenths % 10);
                println!("    {kind}: {} calls, {whole}.{tenth} ns a call", tally.calls);
            }
        }
    }
}

fn nanoseconds(took: Duration) -> u64 {
    took.as_nanos() as u64
}

/// What it takes at least to read the clock twice, in nanoseconds.
pub fn clock_cost() -> u64 {
    const READINGS: u64 = 10_000;
    let costs = (0..READINGS).map(|_| nanoseconds(Instant::now().elapsed()));
    costs.min().unwrap_or(0)
}
