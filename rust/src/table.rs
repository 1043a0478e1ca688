//! The table of all desks with their messages under way, and its five events.

use crate::data::kind;
use crate::rules::Rules;
use crate::{Event, Plan, Record, Refusal, Reply, Row, Tray, DESKS};

/// The tray and a row for each desk, with room for all eight.
#[repr(C)]
#[derive(Clone, Copy, Debug, Default, PartialEq, Eq)]
pub struct Table {
    /// The counts and the cells' places.
    pub tray: Tray,
    /// The desks' rows.
    pub rows: [Row; DESKS],
}

impl Table {
    /// A fresh table, or 20, 21 or 22.
    pub fn new(plan: &Plan) -> Result<Table, Refusal> {
        Tray::new(plan).map(Table::fresh)
    }

    /// The fresh table of a sound tray.
    pub(crate) fn fresh(tray: Tray) -> Table {
        let mut table = Table {
            tray,
            rows: [Row::UNUSED; DESKS],
        };
        for (row, desk) in table.rows.iter_mut().zip(0..tray.desks) {
            row.begin(&tray, desk);
        }
        table
    }

    /// Whether every rule for a table holds.
    #[must_use]
    pub fn is_sound(&self) -> bool {
        self.tray.is_sound()
            && self.rows.iter().zip(0..).all(|(row, desk)| {
                if desk < self.tray.desks {
                    row.is_sound(&self.tray, desk)
                } else {
                    *row == Row::UNUSED
                }
            })
    }

    /// Does one event, or refuses it and leaves the table as it was.
    pub fn event(&mut self, event: &Event) -> Reply {
        self.try_event(event).unwrap_or_else(Reply::from)
    }

    /// A desk's row as that desk's record. A slot that is answered here is copied as it is, and no
    /// lent record is sound with that.
    #[must_use]
    pub fn record(&self, desk: u8) -> Record {
        Record {
            tray: self.tray,
            desk,
            row: self.rows[desk as usize],
        }
    }

    fn try_event(&mut self, event: &Event) -> Result<Reply, Refusal> {
        if !self.is_sound() {
            return Err(Refusal::Unsound);
        }
        if !(kind::READ..=kind::DROP).contains(&event.kind) {
            return Err(Refusal::Kind);
        }
        if event.desk >= u32::from(self.tray.desks) {
            return Err(Refusal::Desk);
        }
        let desk = event.desk as u8;
        match event.kind {
            kind::TAKE => self.take(desk),
            kind::BRING => self.bring(desk),
            _ => self.rules(desk).event(event),
        }
    }

    fn take(&mut self, desk: u8) -> Result<Reply, Refusal> {
        let request = self.rows[desk as usize].slot;
        if !request.is_asked() {
            return Err(Refusal::Nothing);
        }
        let keeper = self.tray.places[request.cell as usize].keeper;
        let (reply, answer) = self.rules(keeper).serve(&request);
        self.rows[desk as usize].slot = answer;
        Ok(reply)
    }

    fn bring(&mut self, desk: u8) -> Result<Reply, Refusal> {
        let answer = self.rows[desk as usize].slot;
        if !answer.is_answered() {
            return Err(Refusal::Nothing);
        }
        Ok(self.rules(desk).bring(&answer))
    }

    fn rules(&mut self, desk: u8) -> Rules<'_> {
        Rules {
            tray: &self.tray,
            desk,
            row: &mut self.rows[desk as usize],
        }
    }
}
