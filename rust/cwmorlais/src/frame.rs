//! Messages as bytes.

use std::fmt::{self, Debug, Formatter};

use crate::sys::{self, Message};
use crate::{Refusal, DESKS};

/// The bytes of the longest frame: its length, version, kind, desk count, asking desk and cell, a
/// word and eight numbers.
pub const FRAME_BYTES: usize = 2 + 5 + 4 + 4 * DESKS;

/// A message of a desk as the bytes to send, and the desk to send them to.
#[derive(Clone, Copy)]
pub struct Frame {
    bytes: [u8; FRAME_BYTES],
    used: usize,
    to: u8,
}

impl Frame {
    /// The frame of a message that a sound record gave: it has one, and 43 bytes are room enough.
    pub(crate) fn of(message: Message, to: u8) -> Frame {
        let mut bytes = [0; FRAME_BYTES];
        let written = sys::frame_write(&message, &mut bytes);
        assert_eq!(
            written.code, 0,
            "a desk's own message has a frame: {message:?}"
        );
        Frame {
            bytes,
            used: written.used,
            to,
        }
    }

    /// The bytes, at most 43.
    #[must_use]
    pub fn as_bytes(&self) -> &[u8] {
        &self.bytes[..self.used]
    }

    /// The desk it is for: a request goes to the cell's keeper, an answer to the desk that asked.
    #[must_use]
    pub fn to(&self) -> u32 {
        self.to.into()
    }
}

impl AsRef<[u8]> for Frame {
    fn as_ref(&self) -> &[u8] {
        self.as_bytes()
    }
}

impl PartialEq for Frame {
    fn eq(&self, other: &Frame) -> bool {
        (self.to, self.as_bytes()) == (other.to, other.as_bytes())
    }
}

impl Eq for Frame {}

impl Debug for Frame {
    fn fmt(&self, f: &mut Formatter<'_>) -> fmt::Result {
        write!(f, "Frame to {}: {:02x?}", self.to, self.as_bytes())
    }
}

/// The message whose frame `bytes` begins with, and how many bytes it used; or 30 to 36. Bytes
/// after the frame are allowed.
///
/// ```
/// use cwmorlais::{read_frame, Refusal};
/// let bytes = [0, 5, 1, 1, 3, 0, 0, 99];
/// let (message, used) = read_frame(&bytes)?;
/// assert_eq!((message.kind, message.desks, message.desk, message.cell, used), (1, 3, 0, 0, 7));
/// assert_eq!(read_frame(&bytes[..6]), Err(Refusal::FrameCut));
/// # Ok::<(), Refusal>(())
/// ```
pub fn read_frame(bytes: &[u8]) -> Result<(Message, usize), Refusal> {
    let reading = sys::frame_read(bytes);
    match reading.code {
        0 => Ok((reading.message, reading.used)),
        code => Err(Refusal::given(code)),
    }
}

/// Writes a message's frame at the front of `out` and nothing past it, and tells how many bytes it
/// used; or 32 to 35, 38, 37, and `out` is as it was. [`FRAME_BYTES`] are always room enough.
pub fn write_frame(message: &Message, out: &mut [u8]) -> Result<usize, Refusal> {
    let written = sys::frame_write(message, out);
    match written.code {
        0 => Ok(written.used),
        code => Err(Refusal::given(code)),
    }
}
