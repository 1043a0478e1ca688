//! Why something is refused.

use std::error::Error;
use std::fmt::{self, Display, Formatter};

/// Every reason to refuse, with its number. A refusal changes nothing.
#[repr(u32)]
#[derive(Clone, Copy, Debug, PartialEq, Eq, Hash)]
pub enum Refusal {
    /// 8: no such kind of event.
    Kind = 8,
    /// 9: the table or record is not sound.
    Unsound = 9,
    /// 10: no such desk.
    Desk = 10,
    /// 11: no such cell.
    Cell = 11,
    /// 12: the desk waits for an answer.
    Waits = 12,
    /// 13: no request to take, or no answer to bring.
    Nothing = 13,
    /// 14: a keeper does not give its own cell up.
    Keeps = 14,
    /// 15: the message does not fit the desk it came to.
    Unfit = 15,
    /// 16: the desk's own clock number can go no higher.
    Spent = 16,
    /// 20: set-up with other than 1 to 8 desks.
    SetUpDesks = 20,
    /// 21: set-up with other than 1 to 32 cells.
    SetUpCells = 21,
    /// 22: set-up with a keeper that is no desk.
    SetUpKeeper = 22,
    /// 30: the frame's bytes are not all there. A program that reads a stream waits for more.
    FrameCut = 30,
    /// 31: a frame of another version.
    FrameVersion = 31,
    /// 32: no such kind of message.
    FrameKind = 32,
    /// 33: a desk count that is not 2 to 8.
    FrameDesks = 33,
    /// 34: the asking desk is not below the desk count.
    FrameDesk = 34,
    /// 35: a cell above 31.
    FrameCell = 35,
    /// 36: a length that the frame's kind and desk count do not have.
    FrameLength = 36,
    /// 37: no room to write the frame.
    FrameRoom = 37,
    /// 38: a field that the frame has no place for is not 0.
    FrameExtra = 38,
}

impl Refusal {
    /// All of them, by number.
    pub const ALL: [Refusal; 21] = [
        Refusal::Kind,
        Refusal::Unsound,
        Refusal::Desk,
        Refusal::Cell,
        Refusal::Waits,
        Refusal::Nothing,
        Refusal::Keeps,
        Refusal::Unfit,
        Refusal::Spent,
        Refusal::SetUpDesks,
        Refusal::SetUpCells,
        Refusal::SetUpKeeper,
        Refusal::FrameCut,
        Refusal::FrameVersion,
        Refusal::FrameKind,
        Refusal::FrameDesks,
        Refusal::FrameDesk,
        Refusal::FrameCell,
        Refusal::FrameLength,
        Refusal::FrameRoom,
        Refusal::FrameExtra,
    ];

    /// The number that the requirements give it.
    #[must_use]
    pub const fn number(self) -> u32 {
        self as u32
    }

    /// The refusal of this number, if there is one.
    ///
    /// ```
    /// use cwmorlais::Refusal;
    /// assert_eq!(Refusal::of(12), Some(Refusal::Waits));
    /// assert_eq!(Refusal::of(2), None); // a blank was read
    /// ```
    #[must_use]
    pub fn of(number: u32) -> Option<Refusal> {
        let mut all = Refusal::ALL.into_iter();
        all.find(|refusal| refusal.number() == number)
    }

    /// The refusal that a function gave, which has no other codes than these.
    pub(crate) fn given(code: u32) -> Refusal {
        Refusal::of(code).unwrap_or_else(|| unreachable!("the library gave code {code}"))
    }

    fn text(self) -> &'static str {
        match self {
            Refusal::Kind => "no such kind of event",
            Refusal::Unsound => "the table or record is not sound",
            Refusal::Desk => "no such desk",
            Refusal::Cell => "no such cell",
            Refusal::Waits => "the desk waits for an answer",
            Refusal::Nothing => "no request to take, or no answer to bring",
            Refusal::Keeps => "a keeper does not give its own cell up",
            Refusal::Unfit => "the message does not fit this desk",
            Refusal::Spent => "the desk's own clock number can go no higher",
            Refusal::SetUpDesks => "desks are not 1 to 8",
            Refusal::SetUpCells => "cells are not 1 to 32",
            Refusal::SetUpKeeper => "a keeper is no desk",
            Refusal::FrameCut => "the frame's bytes are not all there",
            Refusal::FrameVersion => "the frame has another version",
            Refusal::FrameKind => "no such kind of message",
            Refusal::FrameDesks => "the frame's desk count is not 2 to 8",
            Refusal::FrameDesk => "the frame's asking desk is no desk",
            Refusal::FrameCell => "the frame's cell is above 31",
            Refusal::FrameLength => "the frame's length is wrong",
            Refusal::FrameRoom => "no room to write the frame",
            Refusal::FrameExtra => "the frame has no place for a field that is not 0",
        }
    }
}

impl Display for Refusal {
    fn fmt(&self, f: &mut Formatter<'_>) -> fmt::Result {
        write!(f, "{} (refusal {})", self.text(), self.number())
    }
}

impl Error for Refusal {}
