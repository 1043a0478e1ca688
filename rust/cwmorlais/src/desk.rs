//! One desk's part.

use crate::sys::{self, Answer, Event, Record};
use crate::{read_frame, Frame, Message, Plan, Refusal};

/// One desk: what it holds, what it knows of the others, and what it waits for.
///
/// A desk waits from the moment it asks until it is brought the answer. Until then its own reads,
/// writes and drops are refused ([`Refusal::Waits`]), while it goes on serving others.
#[derive(Clone, Debug, PartialEq, Eq)]
pub struct Desk {
    record: Record,
}

/// What becomes of a read.
#[derive(Clone, Copy, Debug, PartialEq, Eq)]
pub enum Read {
    /// The word, from the desk's own cell or copy. 0 is a word like any other: somebody wrote it.
    Shown(u32),
    /// The desk holds the cell, and it is blank: it knows of no write.
    Blank,
    /// The desk does not hold the cell: send this to its keeper.
    Asked(Frame),
}

/// What becomes of a write.
#[derive(Clone, Copy, Debug, PartialEq, Eq)]
pub enum Write {
    /// The desk keeps the cell, and the word is stored.
    Stored,
    /// Another desk keeps the cell: send this to it.
    Asked(Frame),
}

/// A request served.
#[derive(Clone, Copy, Debug, PartialEq, Eq)]
pub struct Served {
    /// The answer, for the desk that asked.
    pub answer: Frame,
    /// How many copies this desk gave up, as older than the write it served.
    pub dropped: u32,
}

/// An answer brought.
#[derive(Clone, Copy, Debug, PartialEq, Eq)]
pub struct Brought {
    /// What the desk's user is told.
    pub told: Told,
    /// How many copies this desk gave up, as older than the answer.
    pub dropped: u32,
}

/// What an answer says.
#[derive(Clone, Copy, Debug, PartialEq, Eq)]
pub enum Told {
    /// The word read, which may be 0.
    Shown(u32),
    /// The cell read was blank: nobody had written it when its keeper answered.
    Blank,
    /// The word that the desk wrote is stored at the keeper.
    Stored(u32),
}

/// A frame received, of either sort.
#[derive(Clone, Copy, Debug, PartialEq, Eq)]
pub enum Received {
    /// It was a request.
    Served(Served),
    /// It was an answer.
    Brought(Brought),
}

const READ: u32 = 1;
const WRITE: u32 = 2;
const DROP: u32 = 5;
const WRITE_ASKED: u8 = 2;
const WRITE_ANSWERED: u8 = 4;

const DONE: u32 = 0;
const ASKED: u32 = 1;
const BLANK: u32 = 2;

impl Desk {
    /// A desk before its first event: 20, 21, 22, or 10 if `desk` is not below the desk count.
    pub fn start(plan: &Plan, desk: u32) -> Result<Desk, Refusal> {
        let mut record = sys::Record::default();
        match sys::start(&mut record, *plan, desk) {
            DONE => Ok(Desk { record }),
            code => Err(Refusal::given(code)),
        }
    }

    /// Shows a cell's word: 11, 12.
    ///
    /// ```
    /// use cwmorlais::{Desk, Plan, Read, Refusal, Write};
    /// let mut desk = Desk::start(&Plan::new(1, &[0]), 0)?;
    /// assert_eq!(desk.read(0)?, Read::Blank);
    /// assert_eq!(desk.write(0, 0)?, Write::Stored); // a sheet from the equator
    /// assert_eq!(desk.read(0)?, Read::Shown(0));
    /// # Ok::<(), Refusal>(())
    /// ```
    pub fn read(&mut self, cell: u32) -> Result<Read, Refusal> {
        let Answer { reply, message } = self.event(READ, cell, 0);
        match reply.code {
            DONE => Ok(Read::Shown(reply.value)),
            BLANK => Ok(Read::Blank),
            ASKED => Ok(Read::Asked(self.request(message))),
            code => Err(Refusal::given(code)),
        }
    }

    /// Writes a word, which may be 0; nothing makes a cell blank again: 11, 12, 16.
    pub fn write(&mut self, cell: u32, word: u32) -> Result<Write, Refusal> {
        let Answer { reply, message } = self.event(WRITE, cell, word);
        match reply.code {
            DONE => Ok(Write::Stored),
            ASKED => Ok(Write::Asked(self.request(message))),
            code => Err(Refusal::given(code)),
        }
    }

    /// Gives a copy up, so that the next read asks the keeper; tells whether there was one: 11, 12,
    /// 14.
    pub fn drop_copy(&mut self, cell: u32) -> Result<bool, Refusal> {
        let Answer { reply, .. } = self.event(DROP, cell, 0);
        match reply.code {
            DONE => Ok(reply.count == 1),
            code => Err(Refusal::given(code)),
        }
    }

    /// Answers a request for a cell that this desk keeps: 30 to 36, 15.
    pub fn serve(&mut self, frame: &[u8]) -> Result<Served, Refusal> {
        let (request, _) = read_frame(frame)?;
        self.serve_message(request)
    }

    /// Receives the answer to what this desk asked: 30 to 36, 13, 15.
    pub fn bring(&mut self, frame: &[u8]) -> Result<Brought, Refusal> {
        let (answer, _) = read_frame(frame)?;
        self.bring_message(answer)
    }

    /// Serves a request, or brings an answer, whichever it is.
    pub fn receive(&mut self, frame: &[u8]) -> Result<Received, Refusal> {
        let (message, _) = read_frame(frame)?;
        if message.kind <= WRITE_ASKED {
            self.serve_message(message).map(Received::Served)
        } else {
            self.bring_message(message).map(Received::Brought)
        }
    }

    /// This desk's number.
    #[must_use]
    pub fn number(&self) -> u32 {
        self.record.desk.into()
    }

    /// Whether the desk waits for an answer.
    #[must_use]
    pub fn waits(&self) -> bool {
        self.record.seat.slot.kind != 0
    }

    /// The record behind it, to look at.
    #[must_use]
    pub fn record(&self) -> &Record {
        &self.record
    }

    fn event(&mut self, kind: u32, cell: u32, word: u32) -> Answer {
        let event = Event {
            kind,
            desk: self.number(),
            cell,
            word,
        };
        sys::desk_event(&mut self.record, event)
    }

    fn request(&self, message: Message) -> Frame {
        let place = &self.record.tray.places[usize::from(message.cell)];
        Frame::of(message, place.keeper)
    }

    fn serve_message(&mut self, request: Message) -> Result<Served, Refusal> {
        let Answer { reply, message } = sys::desk_serve(&mut self.record, &request);
        match reply.code {
            DONE => Ok(Served {
                answer: Frame::of(message, message.desk),
                dropped: reply.count,
            }),
            code => Err(Refusal::given(code)),
        }
    }

    fn bring_message(&mut self, answer: Message) -> Result<Brought, Refusal> {
        let reply = sys::desk_bring(&mut self.record, &answer).reply;
        let told = match reply.code {
            DONE if answer.kind == WRITE_ANSWERED => Told::Stored(reply.value),
            DONE => Told::Shown(reply.value),
            BLANK => Told::Blank,
            code => return Err(Refusal::given(code)),
        };
        Ok(Brought {
            told,
            dropped: reply.count,
        })
    }
}
