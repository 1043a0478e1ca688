//! All desks at once.

use crate::{sys, Plan, Refusal};

/// The table of all desks with their messages under way, for a program that plays a tray's whole
/// history: it says of each event what its desk would be told.
///
/// ```
/// use cwmorlais::{Done, Event, Plan, Refusal, Table};
///
/// let mut table = Table::set_up(&Plan::new(2, &[1]))?;
/// assert_eq!(table.event(Event::Write { desk: 0, cell: 0, word: 27 })?, Done::Asked);
/// assert_eq!(table.event(Event::Read { desk: 0, cell: 0 }), Err(Refusal::Waits));
/// assert_eq!(table.event(Event::Take { desk: 0 })?, Done::Done { value: 0, dropped: 0 });
/// assert_eq!(table.event(Event::Bring { desk: 0 })?, Done::Done { value: 27, dropped: 0 });
/// # Ok::<(), Refusal>(())
/// ```
#[derive(Clone, Debug, PartialEq, Eq)]
pub struct Table {
    table: sys::Table,
}

/// Something that happens at a desk.
#[derive(Clone, Copy, Debug, PartialEq, Eq)]
pub enum Event {
    /// The desk's user wants to see a cell.
    Read {
        /// The desk.
        desk: u32,
        /// The cell.
        cell: u32,
    },
    /// The desk's user wants to store a word.
    Write {
        /// The desk.
        desk: u32,
        /// The cell.
        cell: u32,
        /// The word.
        word: u32,
    },
    /// The keeper receives the request of this desk.
    Take {
        /// The desk that asked.
        desk: u32,
    },
    /// The desk receives its answer.
    Bring {
        /// The desk.
        desk: u32,
    },
    /// The desk gives a copy up.
    Drop {
        /// The desk.
        desk: u32,
        /// The cell.
        cell: u32,
    },
}

/// What an event that is not refused gives.
#[derive(Clone, Copy, Debug, PartialEq, Eq)]
pub enum Done {
    /// Code 0.
    Done {
        /// The word read or written, where there is one to show; it may be 0.
        value: u32,
        /// Copies dropped.
        dropped: u32,
    },
    /// Code 1: the request is under way.
    Asked,
    /// Code 2: a blank was read, which nobody has written.
    Blank {
        /// Copies dropped.
        dropped: u32,
    },
}

impl Table {
    /// A fresh table: 20, 21, 22.
    pub fn set_up(plan: &Plan) -> Result<Table, Refusal> {
        let mut table = sys::Table::default();
        match sys::set_up(&mut table, *plan) {
            0 => Ok(Table { table }),
            code => Err(Refusal::given(code)),
        }
    }

    /// Does one event: 10 to 14, 16.
    pub fn event(&mut self, event: Event) -> Result<Done, Refusal> {
        let (kind, desk, cell, word) = match event {
            Event::Read { desk, cell } => (1, desk, cell, 0),
            Event::Write { desk, cell, word } => (2, desk, cell, word),
            Event::Take { desk } => (3, desk, 0, 0),
            Event::Bring { desk } => (4, desk, 0, 0),
            Event::Drop { desk, cell } => (5, desk, cell, 0),
        };
        let event = sys::Event {
            kind,
            desk,
            cell,
            word,
        };
        let sys::Reply { code, value, count } = sys::table_event(&mut self.table, event);
        match code {
            0 => Ok(Done::Done {
                value,
                dropped: count,
            }),
            1 => Ok(Done::Asked),
            2 => Ok(Done::Blank { dropped: count }),
            code => Err(Refusal::given(code)),
        }
    }

    /// The table behind it, to look at.
    #[must_use]
    pub fn table(&self) -> &sys::Table {
        &self.table
    }
}
