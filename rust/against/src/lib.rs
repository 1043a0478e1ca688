//! The proved library and the twin, held against each other: the data of one as the other's, field
//! by field; the library as a part and an engine of the twin's test tools; and counts of what a
//! test saw. The tests are in `tests/`, the benchmark is `src/bin/bench.rs`.

#![forbid(unsafe_code)]
#![warn(missing_docs)]

use cwmorlais::sys;
use twin::eight::{Engine, Part};
use twin::{Cell, Clock, Event, Message, Place, Plan, Record, Reply, Row, Slot, Table, Tray};

/// The same value in the other's type. Each way names every field of both types, so that a field
/// which one of them lacks does not compile.
pub trait Same<T> {
    /// Every field as it is.
    fn same(&self) -> T;
}

/// Both ways, for structs of the same fields.
macro_rules! same {
    ($($name:ident { $($field:ident),* })*) => {$(
        impl Same<sys::$name> for $name {
            fn same(&self) -> sys::$name {
                let $name { $($field),* } = self;
                sys::$name { $($field: $field.same()),* }
            }
        }
        impl Same<$name> for sys::$name {
            fn same(&self) -> $name {
                let sys::$name { $($field),* } = self;
                $name { $($field: $field.same()),* }
            }
        }
    )*};
}

same! {
    Clock { n }
    Cell { held, word, stamp }
    Slot { kind, cell, word, clock }
    Place { keeper }
    Plan { desks, cells, keepers }
    Event { kind, desk, cell, word }
    Reply { code, value, count }
    Message { kind, desks, desk, cell, word, clock }
}

/// What is the same in both.
macro_rules! plain {
    ($($type:ty),*) => {$(
        impl Same<$type> for $type {
            fn same(&self) -> $type {
                *self
            }
        }
    )*};
}

plain!(bool, u8, u32);

impl<T, S: Same<T>, const N: usize> Same<[T; N]> for [S; N] {
    fn same(&self) -> [T; N] {
        std::array::from_fn(|i| self[i].same())
    }
}

impl Same<sys::Tray> for Tray {
    fn same(&self) -> sys::Tray {
        let Tray {
            desks,
            cells,
            places,
        } = *self;
        sys::Tray {
            counts: sys::Counts { desks, cells },
            places: places.same(),
        }
    }
}

impl Same<Tray> for sys::Tray {
    fn same(&self) -> Tray {
        let sys::Tray { counts, places } = self;
        let sys::Counts { desks, cells } = *counts;
        Tray {
            desks,
            cells,
            places: places.same(),
        }
    }
}

/// A twin's row is a seat and cells.
type Parts = (sys::Seat, [sys::Cell; 32]);

impl Same<Parts> for Row {
    fn same(&self) -> Parts {
        let Row {
            clock,
            cells,
            slot,
            served,
        } = self;
        let seat = sys::Seat {
            clock: clock.same(),
            slot: slot.same(),
            served: served.same(),
        };
        (seat, cells.same())
    }
}

impl Same<Row> for Parts {
    fn same(&self) -> Row {
        let (seat, cells) = self;
        let sys::Seat {
            clock,
            slot,
            served,
        } = seat;
        Row {
            clock: clock.same(),
            cells: cells.same(),
            slot: slot.same(),
            served: served.same(),
        }
    }
}

impl Same<sys::Record> for Record {
    fn same(&self) -> sys::Record {
        let Record { tray, desk, row } = self;
        let (seat, row) = row.same();
        sys::Record {
            tray: tray.same(),
            desk: desk.same(),
            seat,
            row,
        }
    }
}

impl Same<Record> for sys::Record {
    fn same(&self) -> Record {
        let sys::Record {
            tray,
            desk,
            seat,
            row,
        } = *self;
        Record {
            tray: tray.same(),
            desk,
            row: (seat, row).same(),
        }
    }
}

impl Same<sys::Table> for Table {
    fn same(&self) -> sys::Table {
        let Table { tray, rows } = self;
        let mut cells = [sys::Cell::default(); 256];
        let (of_desks, _) = cells.as_chunks_mut::<32>();
        let seats = std::array::from_fn(|desk| {
            let (seat, row) = rows[desk].same();
            of_desks[desk] = row;
            seat
        });
        sys::Table {
            cells,
            tray: tray.same(),
            seats,
        }
    }
}

impl Same<Table> for sys::Table {
    fn same(&self) -> Table {
        let sys::Table { cells, tray, seats } = self;
        let (of_desks, _) = cells.as_chunks::<32>();
        Table {
            tray: tray.same(),
            rows: std::array::from_fn(|desk| (seats[desk], of_desks[desk]).same()),
        }
    }
}

/// The proved library as the part of a desk.
pub struct Proved;

/// Does something to a twin's record in the library's type.
fn lent<A>(record: &mut Record, step: impl FnOnce(&mut sys::Record) -> A) -> A {
    let mut given = record.same();
    let answer = step(&mut given);
    *record = given.same();
    answer
}

fn result<T>(code: u32, value: T) -> Result<T, u32> {
    match code {
        0 => Ok(value),
        code => Err(code),
    }
}

impl Part for Proved {
    fn start(plan: &Plan, desk: u32) -> Result<Record, u32> {
        let mut record = sys::Record::default();
        let code = sys::start(&mut record, plan.same(), desk);
        result(code, record.same())
    }

    fn event(record: &mut Record, event: &Event) -> (Reply, Message) {
        let answer = lent(record, |record| sys::desk_event(record, event.same()));
        answered(answer)
    }

    fn serve(record: &mut Record, request: &Message) -> (Reply, Message) {
        let answer = lent(record, |record| sys::desk_serve(record, &request.same()));
        answered(answer)
    }

    fn bring(record: &mut Record, answer: &Message) -> Reply {
        let answer = lent(record, |record| sys::desk_bring(record, &answer.same()));
        let (reply, message) = answered(answer);
        assert_eq!(message, Message::ZERO);
        reply
    }

    fn read(bytes: &[u8]) -> Result<(Message, usize), u32> {
        let sys::Reading {
            code,
            message,
            used,
        } = sys::frame_read(bytes);
        result(code, (message.same(), used))
    }

    fn write(message: &Message, out: &mut [u8]) -> Result<usize, u32> {
        let sys::Written { code, used } = sys::frame_write(&message.same(), out);
        result(code, used)
    }
}

/// What a part gives, as the twin gives it.
#[must_use]
pub fn answered(answer: sys::Answer) -> (Reply, Message) {
    let sys::Answer { reply, message } = answer;
    (reply.same(), message.same())
}

/// The proved library's table.
pub struct ProvedTable(pub sys::Table);

impl Engine for ProvedTable {
    fn set_up(plan: &Plan) -> Result<ProvedTable, u32> {
        let mut table = sys::Table::default();
        let code = sys::set_up(&mut table, plan.same());
        result(code, ProvedTable(table))
    }

    fn event(&mut self, event: &Event) -> Reply {
        sys::table_event(&mut self.0, event.same()).same()
    }

    fn table(&self) -> Table {
        self.0.same()
    }
}

/// How often each code was given.
pub struct Tally([u64; 39]);

impl Default for Tally {
    fn default() -> Tally {
        Tally([0; 39])
    }
}

impl Tally {
    /// One more.
    pub fn add(&mut self, code: u32) {
        self.0[code as usize] += 1;
    }

    /// How often this code was given.
    #[must_use]
    pub fn of(&self, code: u32) -> u64 {
        self.0[code as usize]
    }

    /// Says what was seen: each of these codes at least so often, and no other.
    pub fn expect(&self, what: &str, codes: &[u32], least: u64) {
        let seen = || (0..).zip(self.0).filter(|&(_, count)| count > 0);
        println!(
            "{what}: {} compared; by code {:?}",
            self.0.iter().sum::<u64>(),
            seen().collect::<Vec<(u32, u64)>>()
        );
        for &code in codes {
            let count = self.of(code);
            assert!(count >= least, "{what}: code {code} only {count} times");
        }
        for (code, _) in seen() {
            assert!(
                codes.contains(&code),
                "{what}: code {code} is not one of them"
            );
        }
    }
}
