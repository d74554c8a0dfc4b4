//! The slots of the frame table. A slot is empty if its first byte is 0.

use crate::content::Content;
use crate::fault::Fault;
use crate::frame::{Body, Frame, SLOT};

/// The bytes of a slot that is not empty.
pub fn occupied(frames: &mut [u8], slot: u16) -> Result<&mut [u8; SLOT], Fault> {
    let (slots, _) = frames.as_chunks_mut();
    match slots.get_mut(usize::from(slot)) {
        Some(bytes) if bytes[0] != 0 => Ok(bytes),
        _ => Err(Fault::NoSlot),
    }
}

/// The lowest empty slot.
pub fn lowest_empty(frames: &mut [u8]) -> Result<&mut [u8; SLOT], Fault> {
    let (slots, _) = frames.as_chunks_mut();
    slots.iter_mut().find(|slot| slot[0] == 0).ok_or(Fault::TooFewSlots)
}

/// Whether so many slots are empty.
pub fn need(frames: &[u8], count: usize) -> Result<(), Fault> {
    let (slots, _) = frames.as_chunks::<SLOT>();
    if slots.iter().filter(|slot| slot[0] == 0).take(count).count() < count {
        return Err(Fault::TooFewSlots);
    }
    Ok(())
}

/// Sends a frame to each receiver, into the lowest empty slots.
pub fn send<C: Content>(
    frames: &mut [u8],
    receivers: &[u8],
    sender: u8,
    number: u8,
    body: Body,
) {
    let (slots, _) = frames.as_chunks_mut::<SLOT>();
    let empty = slots.iter_mut().filter(|slot| slot[0] == 0);
    for (slot, receiver) in empty.zip(receivers) {
        Frame { receiver: *receiver, sender, number, body }.write::<C>(slot);
    }
}
