//! What one desk does, in a record or in the table, and when its row is sound.

use crate::data::{code, kind, slot};
use crate::{Cell, Clock, Event, Refusal, Reply, Row, Slot, Tray};

impl Row {
    /// Sound for this desk of a tray that is itself sound.
    pub(crate) fn is_sound(&self, tray: &Tray, desk: u8) -> bool {
        self.scan().is_some_and(|(held, numbers)| {
            held & !tray.cell_bits() == 0
                && tray.kept_bits(desk) & !held == 0
                && numbers.fits(tray.desks as usize)
        }) && self.has_sound_slot(tray, desk)
    }

    /// The held cells as bits, and the numbers of the clock and of all stamps laid over each other;
    /// nothing if something is left in a cell not held, or a blank has a word.
    fn scan(&self) -> Option<(u32, Clock)> {
        let mut held = 0;
        let mut numbers = self.clock;
        for (i, cell) in self.cells.iter().enumerate() {
            if cell.held {
                if !cell.stamp.may_stamp(cell.word) {
                    return None;
                }
                held |= 1 << i;
                for (all, number) in numbers.n.iter_mut().zip(cell.stamp.n) {
                    *all |= number;
                }
            } else if *cell != Cell::NONE {
                return None;
            }
        }
        Some((held, numbers))
    }

    fn has_sound_slot(&self, tray: &Tray, desk: u8) -> bool {
        let slot = &self.slot;
        let has_sound_clock = match slot.kind {
            slot::EMPTY => return *slot == Slot::EMPTY && !self.served,
            slot::READ_ASKED => slot.word == 0 && slot.clock == Clock::ZERO,
            slot::WRITE_ASKED => slot.clock != Clock::ZERO,
            slot::READ_ANSWERED | slot::WRITE_ANSWERED => slot.clock.may_stamp(slot.word),
            _ => false,
        };
        has_sound_clock
            && slot.cell < tray.cells
            && !tray.keeps(desk, slot.cell)
            && slot.clock.fits(tray.desks as usize)
    }
}

/// A desk's row in a sound record or table, to change by the rules.
pub(crate) struct Rules<'a> {
    pub tray: &'a Tray,
    pub desk: u8,
    pub row: &'a mut Row,
}

impl Rules<'_> {
    /// Kinds 1, 2 and 5; the caller has refused all others.
    pub fn event(&mut self, event: &Event) -> Result<Reply, Refusal> {
        if event.cell >= u32::from(self.tray.cells) {
            return Err(Refusal::Cell);
        }
        if self.row.slot.kind != slot::EMPTY {
            return Err(Refusal::Waits);
        }
        let cell = event.cell as u8;
        match event.kind {
            kind::READ => Ok(self.read(cell)),
            kind::WRITE => self.write(cell, event.word),
            _ => self.drop(cell),
        }
    }

    fn read(&mut self, cell: u8) -> Reply {
        let here = &self.row.cells[cell as usize];
        if here.held {
            return Reply::shows(here.word, &here.stamp, 0);
        }
        self.ask(Slot {
            kind: slot::READ_ASKED,
            cell,
            ..Slot::EMPTY
        })
    }

    fn write(&mut self, cell: u8, word: u32) -> Result<Reply, Refusal> {
        let mut clock = self.row.clock;
        let own = &mut clock.n[self.desk as usize];
        *own = own.checked_add(1).ok_or(Refusal::Spent)?;
        if self.tray.keeps(self.desk, cell) {
            self.row.clock = clock;
            self.store(cell, word);
            return Ok(Reply::new(code::DONE, word, 0));
        }
        // The desk's own clock stays until the keeper has taken the write.
        Ok(self.ask(Slot {
            kind: slot::WRITE_ASKED,
            cell,
            word,
            clock,
        }))
    }

    fn drop(&mut self, cell: u8) -> Result<Reply, Refusal> {
        if self.tray.keeps(self.desk, cell) {
            return Err(Refusal::Keeps);
        }
        let copy = std::mem::replace(&mut self.row.cells[cell as usize], Cell::NONE);
        Ok(Reply::new(code::DONE, 0, u32::from(copy.held)))
    }

    fn ask(&mut self, request: Slot) -> Reply {
        self.row.slot = request;
        self.row.served = false;
        Reply::ASKED
    }

    /// The word of a kept cell, stamped with the desk's clock as it is now.
    fn store(&mut self, cell: u8, word: u32) {
        self.row.cells[cell as usize] = Cell {
            held: true,
            word,
            stamp: self.row.clock,
        };
    }

    /// The keeper's part of a take: the request is another desk's for a cell kept here.
    pub fn serve(&mut self, request: &Slot) -> (Reply, Slot) {
        let mut reply = Reply::DONE;
        if request.kind == slot::WRITE_ASKED {
            self.row.clock = self.row.clock.merge(&request.clock);
            self.store(request.cell, request.word);
            reply.count = self.drop_before(&request.clock, None);
            self.row.served |= self.row.slot.kind != slot::EMPTY;
        }
        let here = &self.row.cells[request.cell as usize];
        let answer = Slot {
            kind: request.kind + slot::ANSWER,
            cell: request.cell,
            word: here.word,
            clock: here.stamp,
        };
        (reply, answer)
    }

    /// The asking desk's part of a bring: the answer is to what its slot asked.
    pub fn bring(&mut self, answer: &Slot) -> Reply {
        self.row.clock = self.row.clock.merge(&answer.clock);
        let count = self.drop_before(&answer.clock, Some(answer.cell));
        // An answer that crossed with a served write may be older than what the desk now knows.
        self.row.cells[answer.cell as usize] = if self.row.served {
            Cell::NONE
        } else {
            Cell {
                held: true,
                word: answer.word,
                stamp: answer.clock,
            }
        };
        self.row.slot = Slot::EMPTY;
        self.row.served = false;
        if answer.kind == slot::READ_ANSWERED {
            Reply::shows(answer.word, &answer.clock, count)
        } else {
            Reply::new(code::DONE, answer.word, count)
        }
    }

    /// Drops the copies strictly before `clock`, but for one cell, and counts them.
    fn drop_before(&mut self, clock: &Clock, but: Option<u8>) -> u32 {
        let places = self.tray.used_places();
        let mut count = 0;
        for (i, (cell, place)) in self.row.cells.iter_mut().zip(places).enumerate() {
            let is_copy = cell.held && place.keeper != self.desk;
            if is_copy && but != Some(i as u8) && cell.stamp.is_before(clock) {
                *cell = Cell::NONE;
                count += 1;
            }
        }
        count
    }
}
