//! The floor as plain Rust, with the workloads of `crates/pace`: the same calls, the same answers, the same lines.

mod chooser;
mod content;
mod digest;
mod fault;
mod floor;
mod frame;
mod lane;
mod meter;
mod quorum;
mod rounds;
mod slots;
mod tables;
mod workload;

use chooser::{Ledger, Synod};
use meter::{Meter, clock_cost};
use rounds::{Fresh, Lanes};
use workload::{Calls, GROUPS, TABLES, Workload};

// How many rounds each workload has where no argument says it.
const FEW: u32 = 1;

fn main() {
    let asked = std::env::args().nth(1).and_then(|word| word.parse::<u32>().ok());
    let clock = asked.map(|_| clock_cost());
    let rounds = asked.unwrap_or(FEW);
    for calls in Calls::ALL {
        for members in GROUPS {
            for (slots, rows) in TABLES {
                let workload = Workload { calls, members, slots, rows };
                match calls {
                    Calls::HandOversBySynod => play::<Synod>(workload, rounds, clock),
                    _ => play::<Ledger>(workload, rounds, clock),
                }
            }
        }
    }
}

fn play<S: Fresh>(workload: Workload, rounds: u32, clock: Option<u64>) {
    let mut lanes = Lanes::<S>::new(workload, Meter::new(clock));
    for _ in 0..workload.rounds(rounds) {
        lanes.round();
    }
    let calls = lanes.meter.calls();
    println!("{workload}: {calls} calls, digest {}", lanes.digest.value());
    if clock.is_some() {
        lanes.meter.print();
    }
}
