//! Messages as bytes: a length, a version, and the fields the kind has.

use crate::data::slot;
use crate::{Clock, Message, Refusal, CELLS, DESKS};

/// The longest frame there is: eight desks, any kind but a read asked.
pub const LONGEST: usize = LENGTH + HEAD + 4 + 4 * DESKS;

/// Bytes that tell the length.
const LENGTH: usize = 2;
/// Version, kind, desk count, asking desk, cell.
const HEAD: usize = 5;
const VERSION: u8 = 1;

/// Reads the frame that `bytes` begins with, and tells how many bytes it used.
pub fn read(bytes: &[u8]) -> Result<(Message, usize), Refusal> {
    let (length, rest) = bytes.split_first_chunk().ok_or(Refusal::FrameCut)?;
    let length = usize::from(u16::from_be_bytes(*length));
    let body = rest.get(..length).ok_or(Refusal::FrameCut)?;
    let (&[version, kind, desks, desk, cell], tail) = body
        .split_first_chunk::<HEAD>()
        .ok_or(Refusal::FrameLength)?;
    if version != VERSION {
        return Err(Refusal::FrameVersion);
    }
    let mut message = Message {
        kind,
        desks,
        desk,
        cell,
        ..Message::ZERO
    };
    check_head(&message)?;
    if length != length_of(&message) {
        return Err(Refusal::FrameLength);
    }
    let (fours, _) = tail.as_chunks();
    let mut numbers = fours.iter().map(|&four| u32::from_be_bytes(four));
    message.word = numbers.next().unwrap_or(0);
    for (to, from) in message.clock.n.iter_mut().zip(numbers) {
        *to = from;
    }
    Ok((message, LENGTH + length))
}

/// Writes a message's frame at the front of `out`, and tells how many bytes it used. A refusal
/// writes nothing.
pub fn write(message: &Message, out: &mut [u8]) -> Result<usize, Refusal> {
    check_head(message)?;
    let bare = message.kind == slot::READ_ASKED;
    let desks = usize::from(message.desks);
    if !message.clock.fits(desks) || bare && (message.word != 0 || message.clock != Clock::ZERO) {
        return Err(Refusal::FrameExtra);
    }
    let length = length_of(message);
    let frame = out.get_mut(..LENGTH + length).ok_or(Refusal::FrameRoom)?;
    let (front, tail) = frame.split_at_mut(LENGTH + HEAD);
    front[..LENGTH].copy_from_slice(&(length as u16).to_be_bytes());
    front[LENGTH..].copy_from_slice(&[
        VERSION,
        message.kind,
        message.desks,
        message.desk,
        message.cell,
    ]);
    let numbers = std::iter::once(&message.word).chain(&message.clock.n);
    let (fours, _) = tail.as_chunks_mut();
    for (four, number) in fours.iter_mut().zip(numbers) {
        *four = number.to_be_bytes();
    }
    Ok(LENGTH + length)
}

/// 32 to 35, the same both ways.
fn check_head(message: &Message) -> Result<(), Refusal> {
    if !(slot::READ_ASKED..=slot::WRITE_ANSWERED).contains(&message.kind) {
        return Err(Refusal::FrameKind);
    }
    if !(2..=DESKS as u8).contains(&message.desks) {
        return Err(Refusal::FrameDesks);
    }
    if message.desk >= message.desks {
        return Err(Refusal::FrameDesk);
    }
    if message.cell >= CELLS as u8 {
        return Err(Refusal::FrameCell);
    }
    Ok(())
}

/// The length a frame must tell.
fn length_of(message: &Message) -> usize {
    match message.kind {
        slot::READ_ASKED => HEAD,
        _ => HEAD + 4 + 4 * usize::from(message.desks),
    }
}
