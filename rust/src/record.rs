//! One desk's record: its events, serving a request and bringing an answer.

use crate::data::{code, kind, slot};
use crate::rules::Rules;
use crate::{Clock, Event, Message, Plan, Refusal, Reply, Row, Tray};

/// The record of one desk: its row of the table, with the tray and the desk's number.
#[repr(C)]
#[derive(Clone, Copy, Debug, Default, PartialEq, Eq)]
pub struct Record {
    /// The counts and the cells' places.
    pub tray: Tray,
    /// The desk's number.
    pub desk: u8,
    /// All that the desk has.
    pub row: Row,
}

impl Record {
    /// The record of a desk before its first event, or 20, 21, 22, or 10 for a number that is no desk.
    pub fn new(plan: &Plan, desk: u32) -> Result<Record, Refusal> {
        let tray = Tray::new(plan)?;
        if desk >= plan.desks {
            return Err(Refusal::Desk);
        }
        let mut record = Record {
            tray,
            desk: desk as u8,
            row: Row::UNUSED,
        };
        record.row.begin(&tray, record.desk);
        Ok(record)
    }

    /// Whether this is a record that some desk of the tray could lend.
    #[must_use]
    pub fn is_sound(&self) -> bool {
        self.tray.is_sound()
            && self.desk < self.tray.desks
            && !self.row.slot.is_answered()
            && self.row.is_sound(&self.tray, self.desk)
    }

    /// Reads, writes or drops, whatever desk the event names. Code 1 comes with the request to send.
    pub fn event(&mut self, event: &Event) -> (Reply, Message) {
        match self.try_event(event) {
            Ok(reply) if reply.code == code::ASKED => {
                let request = Message::of(&self.row.slot, self.tray.desks, self.desk);
                (reply, request)
            }
            Ok(reply) => (reply, Message::ZERO),
            Err(refusal) => (refusal.into(), Message::ZERO),
        }
    }

    /// Answers another desk's request for a cell kept here.
    pub fn serve(&mut self, request: &Message) -> (Reply, Message) {
        match self.try_serve(request) {
            Ok(done) => done,
            Err(refusal) => (refusal.into(), Message::ZERO),
        }
    }

    /// Receives the answer to what was asked.
    pub fn bring(&mut self, answer: &Message) -> Reply {
        self.try_bring(answer).unwrap_or_else(Reply::from)
    }

    fn try_event(&mut self, event: &Event) -> Result<Reply, Refusal> {
        self.check()?;
        if !matches!(event.kind, kind::READ | kind::WRITE | kind::DROP) {
            return Err(Refusal::Kind);
        }
        self.rules().event(event)
    }

    fn try_serve(&mut self, request: &Message) -> Result<(Reply, Message), Refusal> {
        self.check()?;
        let is_request = match request.kind {
            slot::READ_ASKED => true, // its word and clock are ignored
            slot::WRITE_ASKED => request.clock != Clock::ZERO,
            _ => false,
        };
        let fits = is_request
            && self.fits(request)
            && request.desk != self.desk
            && request.desk < self.tray.desks
            && self.tray.keeps(self.desk, request.cell);
        if !fits {
            return Err(Refusal::Unfit);
        }
        let (reply, answer) = self.rules().serve(&request.slot());
        Ok((reply, Message::of(&answer, request.desks, request.desk)))
    }

    fn try_bring(&mut self, answer: &Message) -> Result<Reply, Refusal> {
        self.check()?;
        if self.row.slot.kind == slot::EMPTY {
            return Err(Refusal::Nothing);
        }
        let fits = self.fits(answer)
            && answer.desk == self.desk
            && answer.cell == self.row.slot.cell
            && answer.kind == self.row.slot.kind + slot::ANSWER
            && answer.clock.may_stamp(answer.word);
        if !fits {
            return Err(Refusal::Unfit);
        }
        Ok(self.rules().bring(&answer.slot()))
    }

    fn check(&self) -> Result<(), Refusal> {
        if self.is_sound() {
            Ok(())
        } else {
            Err(Refusal::Unsound)
        }
    }

    /// What a request and an answer both need to fit.
    fn fits(&self, message: &Message) -> bool {
        message.desks == self.tray.desks && message.clock.fits(self.tray.desks as usize)
    }

    fn rules(&mut self) -> Rules<'_> {
        Rules {
            tray: &self.tray,
            desk: self.desk,
            row: &mut self.row,
        }
    }
}
