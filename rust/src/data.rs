//! The plain data of a tray, with the names and numbers of the requirements.

use crate::{Clock, CELLS, DESKS};

/// Kinds of events, by their numbers.
pub mod kind {
    /// Show a cell's word.
    pub const READ: u32 = 1;
    /// Store a word in a cell.
    pub const WRITE: u32 = 2;
    /// The keeper receives a desk's request.
    pub const TAKE: u32 = 3;
    /// A desk receives its answer.
    pub const BRING: u32 = 4;
    /// Give a copy up.
    pub const DROP: u32 = 5;
}

/// Kinds of slots and of messages, by their numbers. An answer's is its request's plus [`ANSWER`](slot::ANSWER).
pub mod slot {
    /// The desk does not wait.
    pub const EMPTY: u8 = 0;
    /// A read under way to the keeper.
    pub const READ_ASKED: u8 = 1;
    /// A write under way to the keeper.
    pub const WRITE_ASKED: u8 = 2;
    /// A read's answer under way to the desk.
    pub const READ_ANSWERED: u8 = 3;
    /// A write's answer under way to the desk.
    pub const WRITE_ANSWERED: u8 = 4;
    /// From a request's kind to its answer's.
    pub const ANSWER: u8 = 2;
}

/// Codes of replies that are no refusals.
pub mod code {
    /// Done.
    pub const DONE: u32 = 0;
    /// The request is under way.
    pub const ASKED: u32 = 1;
    /// Done, and what is shown is blank: nobody wrote it.
    pub const BLANK: u32 = 2;
}

/// Every reason to refuse, with its number.
#[repr(u32)]
#[derive(Clone, Copy, Debug, PartialEq, Eq)]
pub enum Refusal {
    /// No such kind of event.
    Kind = 8,
    /// The table or record is not sound.
    Unsound = 9,
    /// No such desk.
    Desk = 10,
    /// No such cell.
    Cell = 11,
    /// The desk waits.
    Waits = 12,
    /// No request to take, or no answer to bring.
    Nothing = 13,
    /// A keeper does not give its own cell up.
    Keeps = 14,
    /// The message does not fit the record.
    Unfit = 15,
    /// The desk's own clock number can go no higher.
    Spent = 16,
    /// Set-up: desks not 1 to 8.
    SetupDesks = 20,
    /// Set-up: cells not 1 to 32.
    SetupCells = 21,
    /// Set-up: a keeper that is no desk.
    SetupKeeper = 22,
    /// Frame: bytes are missing.
    FrameCut = 30,
    /// Frame: version.
    FrameVersion = 31,
    /// Frame: kind.
    FrameKind = 32,
    /// Frame: desk count not 2 to 8.
    FrameDesks = 33,
    /// Frame: the asking desk is no desk.
    FrameDesk = 34,
    /// Frame: cell above 31.
    FrameCell = 35,
    /// Frame: length.
    FrameLength = 36,
    /// Frame: no room to write it.
    FrameRoom = 37,
    /// Frame: a field that the frame has no place for is not 0.
    FrameExtra = 38,
}

/// What happens at a desk. Fields a kind does not use are ignored.
#[repr(C)]
#[derive(Clone, Copy, Debug, Default, PartialEq, Eq)]
pub struct Event {
    /// 1 read, 2 write, 3 take, 4 bring, 5 drop.
    pub kind: u32,
    /// The desk.
    pub desk: u32,
    /// The cell.
    pub cell: u32,
    /// The word to write.
    pub word: u32,
}

/// What an event gives back.
#[repr(C)]
#[derive(Clone, Copy, Debug, Default, PartialEq, Eq)]
pub struct Reply {
    /// 0 done, 1 asked, 2 blank, or the number of a refusal.
    pub code: u32,
    /// The word, where there is one to show.
    pub value: u32,
    /// Copies dropped.
    pub count: u32,
}

impl Reply {
    /// Done, with nothing to show.
    pub const DONE: Reply = Reply::new(code::DONE, 0, 0);
    /// Under way.
    pub const ASKED: Reply = Reply::new(code::ASKED, 0, 0);

    /// A reply of these three numbers.
    #[must_use]
    pub const fn new(code: u32, value: u32, count: u32) -> Reply {
        Reply { code, value, count }
    }

    /// A finished read of a word with this stamp.
    pub(crate) fn shows(word: u32, stamp: &Clock, count: u32) -> Reply {
        let code = if stamp.is_blank() {
            code::BLANK
        } else {
            code::DONE
        };
        Reply::new(code, word, count)
    }
}

impl From<Refusal> for Reply {
    fn from(refusal: Refusal) -> Reply {
        Reply::new(refusal as u32, 0, 0)
    }
}

/// A request or an answer between two desks.
#[repr(C)]
#[derive(Clone, Copy, Debug, Default, PartialEq, Eq)]
pub struct Message {
    /// 1 read asked, 2 write asked, 3 read answered, 4 write answered.
    pub kind: u8,
    /// The desk count of the tray.
    pub desks: u8,
    /// The asking desk, in the answer too.
    pub desk: u8,
    /// The cell.
    pub cell: u8,
    /// The word to write, or the word answered.
    pub word: u32,
    /// The sent clock, or the stamp answered.
    pub clock: Clock,
}

impl Message {
    /// What a refusal gives.
    pub const ZERO: Message = Message {
        kind: 0,
        desks: 0,
        desk: 0,
        cell: 0,
        word: 0,
        clock: Clock::ZERO,
    };

    /// A slot's content as it travels.
    pub(crate) fn of(slot: &Slot, desks: u8, desk: u8) -> Message {
        Message {
            kind: slot.kind,
            desks,
            desk,
            cell: slot.cell,
            word: slot.word,
            clock: slot.clock,
        }
    }

    /// The part of a message that a slot of the table would hold.
    pub(crate) fn slot(&self) -> Slot {
        Slot {
            kind: self.kind,
            cell: self.cell,
            word: self.word,
            clock: self.clock,
        }
    }
}

/// One cell as one desk has it.
#[repr(C)]
#[derive(Clone, Copy, Debug, Default, PartialEq, Eq)]
pub struct Cell {
    /// Whether the desk has the cell at all.
    pub held: bool,
    /// Its word. 0 is a word too, where somebody wrote it.
    pub word: u32,
    /// When that word was written; all zeros if nobody has, and then the cell is blank.
    pub stamp: Clock,
}

impl Cell {
    /// A cell not held.
    pub const NONE: Cell = Cell {
        held: false,
        word: 0,
        stamp: Clock::ZERO,
    };

    /// A kept cell before its first write.
    pub const FRESH: Cell = Cell {
        held: true,
        ..Cell::NONE
    };
}

/// What a desk waits for.
#[repr(C)]
#[derive(Clone, Copy, Debug, Default, PartialEq, Eq)]
pub struct Slot {
    /// One of the numbers in [`slot`].
    pub kind: u8,
    /// The cell asked for.
    pub cell: u8,
    /// The word to write, or the word answered.
    pub word: u32,
    /// The sent clock, or the stamp answered.
    pub clock: Clock,
}

impl Slot {
    /// The desk does not wait.
    pub const EMPTY: Slot = Slot {
        kind: slot::EMPTY,
        cell: 0,
        word: 0,
        clock: Clock::ZERO,
    };

    /// Whether this is a request that waits to be taken.
    #[must_use]
    pub fn is_asked(&self) -> bool {
        matches!(self.kind, slot::READ_ASKED | slot::WRITE_ASKED)
    }

    /// Whether this is an answer that waits to be brought.
    #[must_use]
    pub fn is_answered(&self) -> bool {
        matches!(self.kind, slot::READ_ANSWERED | slot::WRITE_ANSWERED)
    }
}

/// One desk's row of the table.
#[repr(C)]
#[derive(Clone, Copy, Debug, Default, PartialEq, Eq)]
pub struct Row {
    /// The desk's clock.
    pub clock: Clock,
    /// The cells as the desk has them.
    pub cells: [Cell; CELLS],
    /// What the desk waits for. In a table asked or answered; in a record a request stays here
    /// until its answer is brought.
    pub slot: Slot,
    /// Whether it served a write since it began to wait.
    pub served: bool,
}

impl Row {
    /// The row of a desk that is not there.
    pub const UNUSED: Row = Row {
        clock: Clock::ZERO,
        cells: [Cell::NONE; CELLS],
        slot: Slot::EMPTY,
        served: false,
    };

    /// Makes an unused row this desk's, before its first event: it holds what it keeps.
    pub(crate) fn begin(&mut self, tray: &Tray, desk: u8) {
        for (cell, place) in self.cells.iter_mut().zip(tray.used_places()) {
            cell.held = place.keeper == desk;
        }
    }
}

/// All that set-up is told, in any numbers.
#[repr(C)]
#[derive(Clone, Copy, Debug, Default, PartialEq, Eq)]
pub struct Plan {
    /// How many desks.
    pub desks: u32,
    /// How many cells.
    pub cells: u32,
    /// Each cell's keeper; those past the cell count are ignored.
    pub keepers: [u32; CELLS],
}

impl Plan {
    /// So many desks, and a cell for each of these keepers.
    ///
    /// # Panics
    /// If these are more than there is room for.
    #[must_use]
    pub fn new(desks: u32, keepers: &[u32]) -> Plan {
        let mut plan = Plan {
            desks,
            cells: keepers.len() as u32,
            ..Plan::default()
        };
        plan.keepers[..keepers.len()].copy_from_slice(keepers);
        plan
    }
}

/// What all desks know of a cell from the start.
#[repr(C)]
#[derive(Clone, Copy, Debug, Default, PartialEq, Eq)]
pub struct Place {
    /// The desk that keeps it.
    pub keeper: u8,
}

impl Place {
    /// Where there is no cell.
    pub const UNUSED: Place = Place { keeper: 0 };
}

/// What all desks know from the start: the counts, and who keeps which cell.
#[repr(C)]
#[derive(Clone, Copy, Debug, Default, PartialEq, Eq)]
pub struct Tray {
    /// How many desks, 1 to 8.
    pub desks: u8,
    /// How many cells, 1 to 32.
    pub cells: u8,
    /// The cells' places; unused past the cell count.
    pub places: [Place; CELLS],
}

impl Tray {
    /// The tray of this plan, or 20, 21 or 22.
    pub fn new(plan: &Plan) -> Result<Tray, Refusal> {
        if !(1..=DESKS as u32).contains(&plan.desks) {
            return Err(Refusal::SetupDesks);
        }
        if !(1..=CELLS as u32).contains(&plan.cells) {
            return Err(Refusal::SetupCells);
        }
        let mut tray = Tray {
            desks: plan.desks as u8,
            cells: plan.cells as u8,
            places: [Place::UNUSED; CELLS],
        };
        let keepers = &plan.keepers[..plan.cells as usize];
        for (place, &keeper) in tray.places.iter_mut().zip(keepers) {
            if keeper >= plan.desks {
                return Err(Refusal::SetupKeeper);
            }
            place.keeper = keeper as u8;
        }
        Ok(tray)
    }

    /// Counts in range, keepers desks, and nothing where there is no cell.
    pub(crate) fn is_sound(&self) -> bool {
        let cells = self.cells as usize;
        (1..=DESKS).contains(&(self.desks as usize))
            && (1..=CELLS).contains(&cells)
            && self.used_places().iter().all(|p| p.keeper < self.desks)
            && self.places[cells..].iter().all(|p| *p == Place::UNUSED)
    }

    /// The places of the cells there are, where the count is in range.
    pub(crate) fn used_places(&self) -> &[Place] {
        &self.places[..self.cells as usize]
    }

    /// The cells there are, as bits.
    pub(crate) fn cell_bits(&self) -> u32 {
        u32::MAX >> (CELLS - self.cells as usize)
    }

    /// The cells that a desk keeps, as bits.
    pub(crate) fn kept_bits(&self, desk: u8) -> u32 {
        let places = self.places.iter().enumerate();
        let all = places.fold(0, |bits, (i, place)| {
            bits | u32::from(place.keeper == desk) << i
        });
        all & self.cell_bits()
    }

    /// Whether this desk keeps this cell; both may be any number.
    pub(crate) fn keeps(&self, desk: u8, cell: u8) -> bool {
        cell < self.cells && self.places[cell as usize].keeper == desk
    }
}
