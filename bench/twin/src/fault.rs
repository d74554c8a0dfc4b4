//! On which grounds a call stops.

use crate::chooser::ChooserRefusal;
use crate::frame::FrameFault;

#[derive(Clone, Copy, Debug, PartialEq, Eq)]
pub enum Fault {
    Closed,
    AlreadyOpen,
    TableLength,
    NoSlot,
    Unreadable(FrameFault),
    NotStarted,
    NotOpen,
    NoRegroup,
    NoNode,
    NodeCount,
    Stopped,
    Idle,
    Frozen,
    NotPrimary,
    OtherNumber,
    Unlawful,
    TooFewFrozen,
    NoDecision,
    NotProposed,
    OperationsUsed,
    LastVersion,
    TooFewSlots,
    ProposalsUsed,
    Chooser(ChooserRefusal),
}

impl Fault {
    pub fn number(self) -> u8 {
        match self {
            Fault::Closed | Fault::AlreadyOpen => 1,
            Fault::TableLength => 2,
            Fault::NoSlot => 3,
            Fault::Unreadable(_) => 4,
            Fault::NotStarted => 5,
            Fault::NotOpen | Fault::NoRegroup => 6,
            Fault::NoNode | Fault::NodeCount => 7,
            Fault::Stopped => 8,
            Fault::Idle => 9,
            Fault::Frozen => 10,
            Fault::NotPrimary => 11,
            Fault::OtherNumber => 12,
            Fault::Unlawful => 13,
            Fault::TooFewFrozen => 14,
            Fault::NoDecision => 15,
            Fault::NotProposed => 16,
            Fault::OperationsUsed => 17,
            Fault::LastVersion => 18,
            Fault::TooFewSlots => 19,
            Fault::ProposalsUsed => 20,
            Fault::Chooser(_) => 21,
        }
    }
}

impl From<FrameFault> for Fault {
    fn from(fault: FrameFault) -> Fault {
        Fault::Unreadable(fault)
    }
}

impl From<ChooserRefusal> for Fault {
    fn from(refusal: ChooserRefusal) -> Fault {
        Fault::Chooser(refusal)
    }
}
