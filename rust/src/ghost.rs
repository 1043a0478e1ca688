//! The rules once more, told at leisure, with a ghost beside every word: the write it came from.
//!
//! A ghost travels with its word wherever that goes, so that a read's source is known without
//! guessing from equal words. Blank is here what came from no write, whatever its stamp. With no
//! shortcut the replies and rows are the twin's (the tests hold it to that); with one, the history
//! shows whether demand 3 notices.

use crate::data::{code, kind, slot};
use crate::history::{Does, Operation};
use crate::{Cell, Clock, Event, Refusal, Reply, Row, Slot, Table, Tray};

/// A place where the rules may be cut short.
#[derive(Clone, Copy, Debug, PartialEq, Eq)]
pub enum Shortcut {
    /// Keeping an answer that arrives after the desk served a write.
    KeepServed,
    /// Raising the writer's own clock when it asks.
    RaiseAtAsk,
    /// Dropping nothing when a write's answer arrives.
    DropNothing,
    /// Dropping also copies whose stamp equals the incoming clock or stands beside it.
    DropBeside,
    /// Leaving the old copy when the desk's own write was answered with *served* on.
    LeaveOld,
}

/// A word with its stamp, and the write it came from.
#[derive(Clone, Copy, Debug, PartialEq)]
struct Datum {
    word: u32,
    stamp: Clock,
    from: Option<usize>,
}

/// A write before the run: no history has it.
const BEFORE: usize = usize::MAX;

const BLANK: Datum = Datum {
    word: 0,
    stamp: Clock::ZERO,
    from: None,
};

#[derive(Clone, Copy, Debug, PartialEq)]
enum Waits {
    No,
    ReadAsked(usize),
    WriteAsked(usize, u32, Clock),
    Answered {
        write: bool,
        cell: usize,
        datum: Datum,
    },
}

#[derive(Clone, Debug)]
struct Desk {
    clock: Clock,
    cells: Vec<Option<Datum>>,
    waits: Waits,
    served: bool,
}

impl Desk {
    /// What the table has for it.
    fn row(&self) -> Row {
        let mut row = Row {
            clock: self.clock,
            slot: self.slot(),
            served: self.served,
            cells: Row::UNUSED.cells,
        };
        for (cell, datum) in row.cells.iter_mut().zip(&self.cells) {
            if let Some(Datum { word, stamp, .. }) = *datum {
                *cell = Cell {
                    held: true,
                    word,
                    stamp,
                };
            }
        }
        row
    }

    fn slot(&self) -> Slot {
        let (kind, cell, word, clock) = match self.waits {
            Waits::No => return Slot::EMPTY,
            Waits::ReadAsked(cell) => (slot::READ_ASKED, cell, 0, Clock::ZERO),
            Waits::WriteAsked(cell, word, sent) => (slot::WRITE_ASKED, cell, word, sent),
            Waits::Answered { write, cell, datum } => {
                let asked = if write {
                    slot::WRITE_ASKED
                } else {
                    slot::READ_ASKED
                };
                (asked + slot::ANSWER, cell, datum.word, datum.stamp)
            }
        };
        Slot {
            kind,
            cell: cell as u8,
            word,
            clock,
        }
    }
}

/// A table with ghosts, and the history of its run so far.
#[derive(Clone, Debug)]
pub struct Ghost {
    keepers: Vec<usize>,
    desks: Vec<Desk>,
    shortcut: Option<Shortcut>,
    history: Vec<Operation>,
}

impl Ghost {
    /// A fresh table of this tray.
    #[must_use]
    pub fn new(tray: &Tray, shortcut: Option<Shortcut>) -> Ghost {
        let places = tray.used_places().iter();
        let keepers: Vec<usize> = places.map(|place| place.keeper.into()).collect();
        let desks = (0..usize::from(tray.desks))
            .map(|desk| Desk {
                clock: Clock::ZERO,
                cells: keepers
                    .iter()
                    .map(|&k| (k == desk).then_some(BLANK))
                    .collect(),
                waits: Waits::No,
                served: false,
            })
            .collect();
        Ghost {
            keepers,
            desks,
            shortcut,
            history: Vec::new(),
        }
    }

    /// A sound table as it stands, though nobody knows which writes its words came from: only that
    /// what has a stamp came from one.
    #[must_use]
    pub fn amid(table: &Table) -> Ghost {
        let datum = |word, stamp| Datum {
            word,
            stamp,
            from: (stamp != Clock::ZERO).then_some(BEFORE),
        };
        let mut ghost = Ghost::new(&table.tray, None);
        for (desk, row) in ghost.desks.iter_mut().zip(table.rows) {
            let Row {
                clock,
                cells,
                slot,
                served,
            } = row;
            let cells = cells.iter().take(ghost.keepers.len());
            *desk = Desk {
                clock,
                cells: cells
                    .map(|cell| cell.held.then(|| datum(cell.word, cell.stamp)))
                    .collect(),
                waits: match (slot.kind, slot.cell.into()) {
                    (slot::EMPTY, _) => Waits::No,
                    (slot::READ_ASKED, cell) => Waits::ReadAsked(cell),
                    (slot::WRITE_ASKED, cell) => Waits::WriteAsked(cell, slot.word, slot.clock),
                    (kind, cell) => Waits::Answered {
                        write: kind == slot::WRITE_ANSWERED,
                        cell,
                        datum: datum(slot.word, slot.clock),
                    },
                },
                served,
            };
        }
        ghost
    }

    /// The operations so far.
    #[must_use]
    pub fn history(&self) -> &[Operation] {
        &self.history
    }

    /// What a desk waits for, as the number of a slot's kind.
    #[must_use]
    pub fn slot_kind(&self, desk: usize) -> u8 {
        self.desks[desk].slot().kind
    }

    /// Whether every desk's row of the table is the same.
    #[must_use]
    pub fn agrees(&self, table: &Table) -> bool {
        let mut rows = self.desks.iter().zip(&table.rows);
        rows.all(|(desk, row)| desk.row() == *row)
    }

    /// Does one event.
    pub fn event(&mut self, event: &Event) -> Reply {
        let (desk, cell) = (event.desk as usize, event.cell as usize);
        if !(1..=5).contains(&event.kind) {
            return Refusal::Kind.into();
        }
        if desk >= self.desks.len() {
            return Refusal::Desk.into();
        }
        if event.kind == kind::TAKE {
            return self.take(desk);
        }
        if event.kind == kind::BRING {
            return self.bring(desk);
        }
        if cell >= self.keepers.len() {
            return Refusal::Cell.into();
        }
        if self.desks[desk].waits != Waits::No {
            return Refusal::Waits.into();
        }
        match event.kind {
            kind::READ => self.read(desk, cell),
            kind::WRITE => self.write(desk, cell, event.word),
            _ if self.keepers[cell] == desk => Refusal::Keeps.into(),
            _ => Reply::new(0, 0, self.desks[desk].cells[cell].take().is_some().into()),
        }
    }

    fn read(&mut self, desk: usize, cell: usize) -> Reply {
        match self.desks[desk].cells[cell] {
            Some(datum) => self.finished_read(desk, cell, datum, 0),
            None => self.ask(desk, Waits::ReadAsked(cell)),
        }
    }

    fn write(&mut self, desk: usize, cell: usize, word: u32) -> Reply {
        let mut clock = self.desks[desk].clock;
        if clock.n[desk] == u32::MAX {
            return Refusal::Spent.into();
        }
        clock.n[desk] += 1;
        if self.keepers[cell] == desk {
            self.desks[desk].clock = clock;
            self.taken_write(desk, cell, word, desk, clock);
            return Reply::new(code::DONE, word, 0);
        }
        if self.shortcut == Some(Shortcut::RaiseAtAsk) {
            self.desks[desk].clock = clock;
        }
        self.ask(desk, Waits::WriteAsked(cell, word, clock))
    }

    fn ask(&mut self, desk: usize, waits: Waits) -> Reply {
        self.desks[desk].waits = waits;
        self.desks[desk].served = false;
        Reply::ASKED
    }

    fn take(&mut self, desk: usize) -> Reply {
        let (cell, write) = match self.desks[desk].waits {
            Waits::ReadAsked(cell) => (cell, None),
            Waits::WriteAsked(cell, word, sent) => (cell, Some((word, sent))),
            _ => return Refusal::Nothing.into(),
        };
        let keeper = self.keepers[cell];
        let mut count = 0;
        if let Some((word, sent)) = write {
            let merged = self.desks[keeper].clock.merge(&sent);
            self.desks[keeper].clock = merged;
            self.taken_write(desk, cell, word, keeper, merged);
            count = self.drop_copies(keeper, &sent, None);
            self.desks[keeper].served |= self.desks[keeper].waits != Waits::No;
        }
        self.desks[desk].waits = Waits::Answered {
            write: write.is_some(),
            cell,
            datum: self.desks[keeper].cells[cell].expect("a keeper holds its cells"),
        };
        Reply::new(code::DONE, 0, count)
    }

    fn bring(&mut self, desk: usize) -> Reply {
        let Waits::Answered { write, cell, datum } = self.desks[desk].waits else {
            return Refusal::Nothing.into();
        };
        let shortcut = |which| self.shortcut == Some(which);
        let (keeps_served, leaves_old, drops_nothing) = (
            shortcut(Shortcut::KeepServed),
            shortcut(Shortcut::LeaveOld) && write,
            shortcut(Shortcut::DropNothing) && write,
        );
        self.desks[desk].clock = self.desks[desk].clock.merge(&datum.stamp);
        let count = if drops_nothing {
            0
        } else {
            self.drop_copies(desk, &datum.stamp, Some(cell))
        };
        if !self.desks[desk].served || keeps_served {
            self.desks[desk].cells[cell] = Some(datum);
        } else if !leaves_old {
            self.desks[desk].cells[cell] = None;
        }
        self.desks[desk].waits = Waits::No;
        self.desks[desk].served = false;
        if write {
            Reply::new(code::DONE, datum.word, count)
        } else {
            self.finished_read(desk, cell, datum, count)
        }
    }

    fn drop_copies(&mut self, desk: usize, clock: &Clock, but: Option<usize>) -> u32 {
        let drops_beside = self.shortcut == Some(Shortcut::DropBeside);
        let mut count = 0;
        for (cell, place) in self.desks[desk].cells.iter_mut().enumerate() {
            let Some(copy) = *place else { continue };
            let older =
                copy.stamp.is_before(clock) || drops_beside && !clock.is_before(&copy.stamp);
            if self.keepers[cell] != desk && but != Some(cell) && older {
                *place = None;
                count += 1;
            }
        }
        count
    }

    fn finished_read(&mut self, desk: usize, cell: usize, datum: Datum, count: u32) -> Reply {
        self.history.push(Operation {
            desk: desk as u8,
            cell: cell as u8,
            word: datum.word,
            does: Does::Read(datum.from),
        });
        match datum.from {
            None => Reply::new(code::BLANK, 0, count),
            Some(_) => Reply::new(code::DONE, datum.word, count),
        }
    }

    /// `desk` asked the write, `keeper` stores it.
    fn taken_write(&mut self, desk: usize, cell: usize, word: u32, keeper: usize, stamp: Clock) {
        self.desks[keeper].cells[cell] = Some(Datum {
            word,
            stamp,
            from: Some(self.history.len()),
        });
        self.history.push(Operation {
            desk: desk as u8,
            cell: cell as u8,
            word,
            does: Does::Write,
        });
    }
}
