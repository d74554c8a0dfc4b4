//! Choosers: which group follows which.

use crate::quorum::QuorumRule;

const NUMBERS: usize = 16;
const MOST_OFFERS: usize = 8;
const ACCEPTORS: usize = 5;
const LAST_BALLOT: usize = 15;

#[derive(Clone, Copy, Debug, PartialEq, Eq)]
pub enum ChooserRefusal {
    TooHigh = 1,
    Full = 2,
    NotAllowed = 3,
}

pub trait Chooser {
    fn decision(&self, number: u8) -> Option<u8>;
    fn offer(&mut self, number: u8, value: u8) -> Result<(), ChooserRefusal>;
    fn work(&mut self, number: u8, step: u8, ballot: u8, set: u8) -> Result<(), ChooserRefusal>;
}

/// The offers under one number, in the order in which they were made.
#[derive(Clone, Copy, Debug, Default)]
struct Offers {
    values: [u8; MOST_OFFERS],
    count: usize,
}

impl Offers {
    fn as_slice(&self) -> &[u8] {
        &self.values[..self.count]
    }

    fn push(&mut self, value: u8) -> Result<(), ChooserRefusal> {
        let place = self.values.get_mut(self.count).ok_or(ChooserRefusal::Full)?;
        *place = value;
        self.count += 1;
        Ok(())
    }
}

/// Decides the first offer.
#[derive(Debug, Default)]
pub struct Ledger {
    offers: [Offers; NUMBERS],
}

impl Chooser for Ledger {
    fn decision(&self, number: u8) -> Option<u8> {
        self.offers.get(usize::from(number))?.as_slice().first().copied()
    }

    fn offer(&mut self, number: u8, value: u8) -> Result<(), ChooserRefusal> {
        self.offers
            .get_mut(usize::from(number))
            .ok_or(ChooserRefusal::TooHigh)?
            .push(value)
    }

    fn work(&mut self, number: u8, _: u8, _: u8, _: u8) -> Result<(), ChooserRefusal> {
        if usize::from(number) >= NUMBERS {
            Err(ChooserRefusal::TooHigh)
        } else {
            Err(ChooserRefusal::NotAllowed)
        }
    }
}

#[derive(Clone, Copy, Debug, Default)]
struct Acceptor {
    promised: u8,
    accepted: u8,
}

/// What is kept under one number.
#[derive(Clone, Copy, Debug, Default)]
struct Instance {
    offers: Offers,
    acceptors: [Acceptor; ACCEPTORS],
    values: [Option<u8>; LAST_BALLOT + 1],
    decision: Option<u8>,
}

impl Instance {
    fn members(&self, set: u8) -> impl Iterator<Item = &Acceptor> {
        self.acceptors
            .iter()
            .enumerate()
            .filter(move |(place, _)| set >> place & 1 == 1)
            .map(|(_, acceptor)| acceptor)
    }

    fn promise(&mut self, ballot: u8, set: u8) -> Option<()> {
        let offered = usize::from(ballot) % MOST_OFFERS < self.offers.count;
        let acceptor = &mut self.acceptors[sole(set)?];
        if !offered || acceptor.promised >= ballot {
            return None;
        }
        acceptor.promised = ballot;
        Some(())
    }

    fn fix(&mut self, ballot: u8, set: u8, wins: bool) -> Option<()> {
        let fixed = self.values[usize::from(ballot)].is_some();
        if fixed || !wins || self.members(set).any(|acceptor| acceptor.promised != ballot) {
            return None;
        }
        let highest = self.members(set).map(|acceptor| acceptor.accepted).max().unwrap_or(0);
        self.values[usize::from(ballot)] = match highest {
            0 => self.offers.as_slice().get(usize::from(ballot) % MOST_OFFERS).copied(),
            taken => self.values[usize::from(taken)],
        };
        Some(())
    }

    fn accept(&mut self, ballot: u8, set: u8) -> Option<()> {
        self.values[usize::from(ballot)]?;
        let acceptor = &mut self.acceptors[sole(set)?];
        if acceptor.promised > ballot {
            return None;
        }
        *acceptor = Acceptor { promised: ballot, accepted: ballot };
        Some(())
    }

    fn count(&mut self, ballot: u8, set: u8, wins: bool) -> Option<()> {
        if !wins || self.members(set).any(|acceptor| acceptor.accepted != ballot) {
            return None;
        }
        self.decision = self.values[usize::from(ballot)];
        Some(())
    }
}

// The acceptor of a set that has only one.
fn sole(set: u8) -> Option<usize> {
    set.is_power_of_two().then(|| set.trailing_zeros() as usize)
}

/// Decides by ballots among five acceptors of each number.
#[derive(Debug)]
pub struct Synod {
    wins: [bool; 1 << ACCEPTORS],
    instances: [Instance; NUMBERS],
}

impl Synod {
    pub fn new<Q: QuorumRule>(rule: &Q) -> Synod {
        Synod {
            wins: std::array::from_fn(|set| rule.wins(ACCEPTORS as u8, set as u8)),
            instances: [Instance::default(); NUMBERS],
        }
    }
}

impl Chooser for Synod {
    fn decision(&self, number: u8) -> Option<u8> {
        self.instances.get(usize::from(number))?.decision
    }

    fn offer(&mut self, number: u8, value: u8) -> Result<(), ChooserRefusal> {
        self.instances
            .get_mut(usize::from(number))
            .ok_or(ChooserRefusal::TooHigh)?
            .offers
            .push(value)
    }

    fn work(&mut self, number: u8, step: u8, ballot: u8, set: u8) -> Result<(), ChooserRefusal> {
        let instance =
            self.instances.get_mut(usize::from(number)).ok_or(ChooserRefusal::TooHigh)?;
        let wins = *self.wins.get(usize::from(set)).ok_or(ChooserRefusal::NotAllowed)?;
        if !(1..=LAST_BALLOT).contains(&usize::from(ballot)) {
            return Err(ChooserRefusal::NotAllowed);
        }
        let done = match step {
            1 => instance.promise(ballot, set),
            2 => instance.fix(ballot, set, wins),
            3 => instance.accept(ballot, set),
            4 => instance.count(ballot, set, wins),
            _ => None,
        };
        done.ok_or(ChooserRefusal::NotAllowed)
    }
}
