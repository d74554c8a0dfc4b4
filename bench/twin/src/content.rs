//! Contents of a sheet.

pub const WIDEST: usize = 16;

/// A kind of content: so many bytes wide, written and read by its own rules.
pub trait Content: Sized {
    const WIDTH: usize;

    fn to_bytes(&self) -> [u8; WIDEST];
    fn from_bytes(bytes: &[u8]) -> Option<Self>;
}

/// A bid and an ask; the bid is at most the ask.
#[derive(Clone, Copy, Debug, PartialEq, Eq)]
pub struct Quote {
    bid: u32,
    ask: u32,
}

impl Quote {
    pub fn new(bid: u32, ask: u32) -> Option<Quote> {
        (bid <= ask).then_some(Quote { bid, ask })
    }
}

impl Content for Quote {
    const WIDTH: usize = 8;

    fn to_bytes(&self) -> [u8; WIDEST] {
        let mut bytes = [0; WIDEST];
        bytes[..4].copy_from_slice(&self.bid.to_be_bytes());
        bytes[4..8].copy_from_slice(&self.ask.to_be_bytes());
        bytes
    }

    fn from_bytes(bytes: &[u8]) -> Option<Quote> {
        let bytes: &[u8; 8] = bytes.try_into().ok()?;
        let both = u64::from_be_bytes(*bytes);
        Quote::new((both >> 32) as u32, both as u32)
    }
}
