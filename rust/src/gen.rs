//! Seeded, repeatable inputs: runs, sound and unsound tables and records, whole and damaged frames.

use crate::data::{kind, slot};
use crate::{
    frame, Cell, Clock, Event, Message, Place, Plan, Record, Row, Slot, Table, Tray, CELLS, DESKS,
};

/// A random generator (xorshift64*): the same seed gives the same numbers everywhere.
#[derive(Clone, Debug)]
pub struct Rng(u64);

impl Rng {
    /// Any seed will do, neighbours too: it is scattered first.
    #[must_use]
    pub fn new(seed: u64) -> Rng {
        let mut z = seed.wrapping_add(0x9E37_79B9_7F4A_7C15);
        z = (z ^ z >> 30).wrapping_mul(0xBF58_476D_1CE4_E5B9);
        z = (z ^ z >> 27).wrapping_mul(0x94D0_49BB_1331_11EB);
        // Zero would stay zero.
        Rng((z ^ z >> 31).max(1))
    }

    /// The next 64 bits.
    pub fn bits(&mut self) -> u64 {
        self.0 ^= self.0 >> 12;
        self.0 ^= self.0 << 25;
        self.0 ^= self.0 >> 27;
        self.0.wrapping_mul(0x2545_F491_4F6C_DD1D)
    }

    /// A number below `bound`, which is not 0.
    pub fn below(&mut self, bound: u32) -> u32 {
        (((self.bits() >> 32) * u64::from(bound)) >> 32) as u32
    }

    /// An index below `bound`, which is not 0.
    pub fn index(&mut self, bound: usize) -> usize {
        self.below(bound as u32) as usize
    }

    /// True once in `n` times.
    pub fn one_in(&mut self, n: u32) -> bool {
        self.below(n) == 0
    }

    /// One of these.
    pub fn pick<T: Copy>(&mut self, from: &[T]) -> T {
        from[self.index(from.len())]
    }

    /// A number from near an edge, or any.
    pub fn edgy(&mut self) -> u32 {
        match self.below(4) {
            0 => self.below(4),
            1 => u32::MAX - self.below(3),
            2 => 1 << self.below(32),
            _ => self.bits() as u32,
        }
    }

    /// A number other than 0.
    pub fn nonzero(&mut self) -> u32 {
        self.edgy().max(1)
    }
}

/// What set-up is told, good or (once in eight) not.
pub fn setup(rng: &mut Rng) -> Plan {
    let mut plan = good_setup(rng, 1);
    match rng.below(32) {
        0 => plan.desks = rng.pick(&[0, 9, 255, 256, 257, u32::MAX]),
        1 => plan.cells = rng.pick(&[0, 33, 255, 256, 257, u32::MAX]),
        2 | 3 => {
            // Past the cell count this is ignored.
            plan.keepers[rng.index(CELLS)] =
                plan.desks + rng.pick(&[0, 1, 248, 256, u32::MAX - DESKS as u32]);
        }
        _ => {}
    }
    plan
}

/// A plan that set-up accepts, with at least so many desks. Few cells are commoner: desks meet
/// there.
pub fn good_setup(rng: &mut Rng, least_desks: u32) -> Plan {
    let desks = least_desks + rng.below(DESKS as u32 + 1 - least_desks);
    let cells = match rng.below(4) {
        0 => 1 + rng.below(CELLS as u32),
        _ => 1 + rng.below(6),
    };
    Plan {
        desks,
        cells,
        keepers: std::array::from_fn(|_| rng.below(desks)),
    }
}

/// An event with any numbers, most of them near the counts.
pub fn wild_event(rng: &mut Rng, tray: &Tray) -> Event {
    Event {
        kind: match rng.below(12) {
            0 => rng.edgy(),
            1 => rng.pick(&[0, 6]),
            _ => 1 + rng.below(5),
        },
        desk: near(rng, tray.desks),
        cell: near(rng, tray.cells),
        word: rng.edgy(),
    }
}

fn near(rng: &mut Rng, count: u8) -> u32 {
    match rng.below(12) {
        0 => u32::from(count),
        1 => u32::from(count) + 256,
        2 => rng.edgy(),
        _ => rng.below(u32::from(count).max(1)),
    }
}

/// The temper of a run: how long each desk's messages stay under way, and what desks like to do.
/// Slow desks make requests pile up, keepers serve while they wait, and answers come late.
#[derive(Clone, Debug)]
pub struct Mood {
    take_one_in: [u32; DESKS],
    bring_one_in: [u32; DESKS],
    /// Of sixteen events, at each desk, so many are reads, then so many writes; the others drops.
    reads: [u32; DESKS],
    writes: [u32; DESKS],
    wild_one_in: u32,
}

impl Mood {
    /// Any temper.
    pub fn new(rng: &mut Rng) -> Mood {
        let mut each = |choices: &[u32]| std::array::from_fn(|_| rng.pick(choices));
        Mood {
            take_one_in: each(&[1, 2, 6, 20]),
            bring_one_in: each(&[1, 3, 10, 30]),
            reads: each(&[4, 8, 10]),
            writes: each(&[2, 4, 6]),
            wild_one_in: rng.pick(&[8, 64]),
        }
    }

    /// The next event, where `slot_kind` tells what a desk waits for.
    pub fn event(&self, rng: &mut Rng, tray: &Tray, slot_kind: impl Fn(usize) -> u8) -> Event {
        if rng.one_in(self.wild_one_in) {
            return wild_event(rng, tray);
        }
        loop {
            let desk = rng.index(tray.desks.into());
            let kind = match slot_kind(desk) {
                slot::EMPTY => match rng.below(16) {
                    n if n < self.reads[desk] => kind::READ,
                    n if n < self.reads[desk] + self.writes[desk] => kind::WRITE,
                    _ => kind::DROP,
                },
                slot::READ_ASKED | slot::WRITE_ASKED if rng.one_in(self.take_one_in[desk]) => {
                    kind::TAKE
                }
                slot::READ_ANSWERED | slot::WRITE_ANSWERED
                    if rng.one_in(self.bring_one_in[desk]) =>
                {
                    kind::BRING
                }
                _ => continue,
            };
            return Event {
                kind,
                desk: desk as u32,
                cell: rng.below(tray.cells.into()),
                word: match rng.below(8) {
                    0 => 0,
                    1 => rng.edgy(),
                    _ => 1 + rng.below(1000),
                },
            };
        }
    }

    /// The next event of this table's run.
    pub fn event_at(&self, rng: &mut Rng, table: &Table) -> Event {
        self.event(rng, &table.tray, |desk| table.rows[desk].slot.kind)
    }
}

/// A run of this plan as a script of exactly so many bytes, which are enough for the first lines.
pub fn script(rng: &mut Rng, plan: &Plan, bytes: usize) -> String {
    let mut table = Table::new(plan).expect("a good set-up");
    let mood = Mood::new(rng);
    let Plan {
        desks,
        cells,
        keepers,
    } = plan;
    let kept = keepers[..*cells as usize].iter().map(u32::to_string);
    let kept: Vec<String> = kept.collect();
    let mut script = format!("{desks} {cells}\n{}\n", kept.join(" "));
    while script.len() < bytes {
        let event = mood.event_at(rng, &table);
        let Event {
            kind,
            desk,
            cell,
            word,
        } = event;
        let line = format!("{kind} {desk} {cell} {word}\n");
        // What is left must be nothing, or have room for a line.
        let left = bytes - script.len();
        if line.len() + SHORTEST_LINE <= left {
            table.event(&event);
            script += &line;
        } else {
            // Reads, whose word is ignored, of any length from 8 to 17.
            let length = if left <= LONGEST_READ {
                left
            } else {
                (left - SHORTEST_LINE).min(LONGEST_READ)
            };
            script += &format!("1 0 0 {}\n", "1".repeat(length - SHORTEST_LINE + 1));
        }
    }
    script
}

/// `1 0 0 0` and its LF.
const SHORTEST_LINE: usize = 8;
/// `1 0 0 1111111111` and its LF.
const LONGEST_READ: usize = 17;

/// A sound table, often one that no run reaches.
pub fn table(rng: &mut Rng) -> Table {
    let mut table = Table::new(&good_setup(rng, 1)).expect("a good set-up");
    if rng.one_in(2) {
        let mood = Mood::new(rng);
        for _ in 0..rng.below(60) {
            let event = mood.event_at(rng, &table);
            table.event(&event);
        }
        return table;
    }
    let tray = table.tray;
    for (row, desk) in table.rows.iter_mut().zip(0..tray.desks) {
        *row = sound_row(rng, &tray, desk);
    }
    table
}

/// A sound record, often one that no run reaches.
pub fn record(rng: &mut Rng) -> Record {
    let table = table(rng);
    lent(&table, rng.below(u32::from(table.tray.desks)) as u8)
}

/// A desk's record as it would lend it: with the request still in its slot. What a write was sent
/// with is not in the table any more, and the answer's word and stamp stand there instead; no rule
/// looks at them.
#[must_use]
pub fn lent(table: &Table, desk: u8) -> Record {
    let mut record = table.record(desk);
    let slot = &mut record.row.slot;
    if slot.is_answered() {
        slot.kind -= slot::ANSWER;
        if slot.kind == slot::READ_ASKED {
            (slot.word, slot.clock) = (0, Clock::ZERO);
        } else if slot.clock == Clock::ZERO {
            // No write is sent with a clock of zeros, though a sound table may have it answered so.
            slot.clock.n[usize::from(desk)] = 1;
        }
    }
    record
}

fn sound_row(rng: &mut Rng, tray: &Tray, desk: u8) -> Row {
    let mut row = Row {
        clock: clock(rng, tray.desks),
        ..Row::UNUSED
    };
    if rng.one_in(4) {
        // On either side of the last number there is.
        row.clock.n[usize::from(desk)] = u32::MAX - rng.below(2);
    }
    for (cell, place) in row.cells.iter_mut().zip(tray.used_places()) {
        if place.keeper == desk || rng.one_in(2) {
            let (word, stamp) = stamped(rng, tray.desks);
            *cell = Cell {
                held: true,
                word,
                stamp,
            };
        }
    }
    let cell = rng.below(u32::from(tray.cells)) as u8;
    if !tray.keeps(desk, cell) && rng.one_in(2) {
        row.served = rng.one_in(2);
        let kind = 1 + rng.below(4) as u8;
        let (word, clock) = match kind {
            slot::READ_ASKED => (0, Clock::ZERO),
            slot::WRITE_ASKED => sent(rng, tray.desks),
            _ => stamped(rng, tray.desks),
        };
        row.slot = Slot {
            kind,
            cell,
            word,
            clock,
        };
    }
    row
}

/// A word and its stamp as they may stand together: in six of them one blank and one written 0.
fn stamped(rng: &mut Rng, desks: u8) -> (u32, Clock) {
    match rng.below(6) {
        0 => (0, Clock::ZERO),
        1 => (0, clock(rng, desks)),
        _ => sent(rng, desks),
    }
}

/// A word and a clock that is not all zeros, as a write is sent with.
fn sent(rng: &mut Rng, desks: u8) -> (u32, Clock) {
    let mut clock = clock(rng, desks);
    if clock == Clock::ZERO {
        clock.n[rng.index(desks.into())] = rng.nonzero();
    }
    (rng.edgy(), clock)
}

/// A clock of so many desks: small numbers, so that before, equal and beside all happen, or edges.
pub fn clock(rng: &mut Rng, desks: u8) -> Clock {
    let mut clock = Clock::ZERO;
    let edges = rng.one_in(4);
    for number in &mut clock.n[..usize::from(desks)] {
        *number = if edges { rng.edgy() } else { rng.below(3) };
    }
    clock
}

/// A way to break one field of a sound table. It says whether it could, as not every table has
/// the field to break.
pub type Break = fn(&mut Rng, &mut Table) -> bool;

/// Every kind of field of a table, broken in turn, each so that the table is no longer sound.
pub const BREAKS: &[(&str, Break)] = &[
    ("no desks", |_, t| set(&mut t.tray.desks, 0)),
    ("too many desks", |rng, t| {
        set(&mut t.tray.desks, 9 + rng.below(247) as u8)
    }),
    ("no cells", |_, t| set(&mut t.tray.cells, 0)),
    ("too many cells", |rng, t| {
        set(&mut t.tray.cells, 33 + rng.below(223) as u8)
    }),
    ("a keeper is no desk", |rng, t| {
        let desks = t.tray.desks;
        let cell = rng.index(t.tray.cells.into());
        set(
            &mut t.tray.places[cell].keeper,
            desks + rng.below(256 - u32::from(desks)) as u8,
        )
    }),
    ("a keeper past the count", |rng, t| {
        past(rng, t.tray.cells, CELLS)
            .is_some_and(|cell| set(&mut t.tray.places[cell].keeper, 1 + rng.below(255) as u8))
    }),
    ("a keeper without its cell", |rng, t| {
        let cell = rng.index(t.tray.cells.into());
        let keeper = usize::from(t.tray.places[cell].keeper);
        set(&mut t.rows[keeper].cells[cell], Cell::NONE)
    }),
    ("a clock number past the count", |rng, t| {
        let number = past(rng, t.tray.desks, DESKS);
        let desk = present(rng, t);
        number.is_some_and(|n| set(&mut t.rows[desk].clock.n[n], rng.nonzero()))
    }),
    ("a stamp number past the count", |rng, t| {
        let cell = rng.index(t.tray.cells.into());
        let keeper = usize::from(t.tray.places[cell].keeper);
        past(rng, t.tray.desks, DESKS)
            .is_some_and(|n| set(&mut t.rows[keeper].cells[cell].stamp.n[n], rng.nonzero()))
    }),
    ("a slot's number past the count", |rng, t| {
        let number = past(rng, t.tray.desks, DESKS);
        waiting(rng, t, &[2, 3, 4])
            .zip(number)
            .is_some_and(|(d, n)| set(&mut t.rows[d].slot.clock.n[n], rng.nonzero()))
    }),
    ("a held cell past the count", |rng, t| {
        let desk = present(rng, t);
        past(rng, t.tray.cells, CELLS).is_some_and(|c| set(&mut t.rows[desk].cells[c].held, true))
    }),
    ("a word past the count", |rng, t| {
        let desk = present(rng, t);
        past(rng, t.tray.cells, CELLS)
            .is_some_and(|c| set(&mut t.rows[desk].cells[c].word, rng.nonzero()))
    }),
    ("a stamp past the count", |rng, t| {
        let desk = present(rng, t);
        past(rng, t.tray.cells, CELLS).is_some_and(|c| {
            set(
                &mut t.rows[desk].cells[c].stamp.n[rng.index(DESKS)],
                rng.nonzero(),
            )
        })
    }),
    ("a word not held", |rng, t| {
        not_held(rng, t).is_some_and(|(d, c)| set(&mut t.rows[d].cells[c].word, rng.nonzero()))
    }),
    ("a stamp not held", |rng, t| {
        let number = present(rng, t);
        not_held(rng, t)
            .is_some_and(|(d, c)| set(&mut t.rows[d].cells[c].stamp.n[number], rng.nonzero()))
    }),
    ("a blank with a word", |rng, t| {
        let (desk, cell) = held(rng, t);
        let cell = &mut t.rows[desk].cells[cell];
        (cell.word, cell.stamp) = (rng.nonzero(), Clock::ZERO);
        true
    }),
    ("a slot of no kind", |rng, t| {
        let desk = rng.index(DESKS);
        set(&mut t.rows[desk].slot.kind, 5 + rng.below(251) as u8)
    }),
    ("a slot's cell out of range", |rng, t| {
        let cells = u32::from(t.tray.cells);
        waiting(rng, t, &[1, 2, 3, 4]).is_some_and(|d| {
            set(
                &mut t.rows[d].slot.cell,
                (cells + rng.below(256 - cells)) as u8,
            )
        })
    }),
    ("a slot's cell kept by its desk", |rng, t| {
        let cell = rng.index(t.tray.cells.into());
        let keeper = usize::from(t.tray.places[cell].keeper);
        t.rows[keeper].slot = Slot {
            kind: 1 + rng.below(4) as u8,
            cell: cell as u8,
            ..Slot::EMPTY
        };
        true
    }),
    ("an empty slot's cell", |rng, t| {
        waiting(rng, t, &[0])
            .is_some_and(|d| set(&mut t.rows[d].slot.cell, 1 + rng.below(255) as u8))
    }),
    ("an empty slot's word", |rng, t| {
        waiting(rng, t, &[0]).is_some_and(|d| set(&mut t.rows[d].slot.word, rng.nonzero()))
    }),
    ("an empty slot's clock", |rng, t| {
        let number = present(rng, t);
        waiting(rng, t, &[0])
            .is_some_and(|d| set(&mut t.rows[d].slot.clock.n[number], rng.nonzero()))
    }),
    ("a read asked with a word", |rng, t| {
        waiting(rng, t, &[1]).is_some_and(|d| set(&mut t.rows[d].slot.word, rng.nonzero()))
    }),
    ("a read asked with a clock", |rng, t| {
        let number = present(rng, t);
        waiting(rng, t, &[1])
            .is_some_and(|d| set(&mut t.rows[d].slot.clock.n[number], rng.nonzero()))
    }),
    ("a write asked with a clock of zeros", |rng, t| {
        waiting(rng, t, &[2]).is_some_and(|d| set(&mut t.rows[d].slot.clock, Clock::ZERO))
    }),
    ("a blank answered with a word", |rng, t| {
        waiting(rng, t, &[3, 4]).is_some_and(|d| {
            let slot = &mut t.rows[d].slot;
            (slot.word, slot.clock) = (rng.nonzero(), Clock::ZERO);
            true
        })
    }),
    ("served without waiting", |rng, t| {
        waiting(rng, t, &[0]).is_some_and(|d| set(&mut t.rows[d].served, true))
    }),
    ("an absent desk's clock", |rng, t| {
        past(rng, t.tray.desks, DESKS)
            .is_some_and(|d| set(&mut t.rows[d].clock.n[rng.index(DESKS)], rng.nonzero()))
    }),
    ("an absent desk's held cell", |rng, t| {
        past(rng, t.tray.desks, DESKS)
            .is_some_and(|d| set(&mut t.rows[d].cells[rng.index(CELLS)].held, true))
    }),
    ("an absent desk's word", |rng, t| {
        past(rng, t.tray.desks, DESKS)
            .is_some_and(|d| set(&mut t.rows[d].cells[rng.index(CELLS)].word, rng.nonzero()))
    }),
    ("an absent desk's stamp", |rng, t| {
        past(rng, t.tray.desks, DESKS).is_some_and(|d| {
            let stamp = &mut t.rows[d].cells[rng.index(CELLS)].stamp;
            set(&mut stamp.n[rng.index(DESKS)], rng.nonzero())
        })
    }),
    ("an absent desk's slot kind", |rng, t| {
        past(rng, t.tray.desks, DESKS)
            .is_some_and(|d| set(&mut t.rows[d].slot.kind, 1 + rng.below(4) as u8))
    }),
    ("an absent desk's slot cell", |rng, t| {
        past(rng, t.tray.desks, DESKS)
            .is_some_and(|d| set(&mut t.rows[d].slot.cell, 1 + rng.below(31) as u8))
    }),
    ("an absent desk's slot word", |rng, t| {
        past(rng, t.tray.desks, DESKS).is_some_and(|d| set(&mut t.rows[d].slot.word, rng.nonzero()))
    }),
    ("an absent desk's slot clock", |rng, t| {
        past(rng, t.tray.desks, DESKS)
            .is_some_and(|d| set(&mut t.rows[d].slot.clock.n[rng.index(DESKS)], rng.nonzero()))
    }),
    ("an absent desk served", |rng, t| {
        past(rng, t.tray.desks, DESKS).is_some_and(|d| set(&mut t.rows[d].served, true))
    }),
];

/// Breaks one field of a sound record so that it is no longer sound: the number of the desk, an
/// answered slot, or a field that its table could have had broken. Says which.
pub fn break_record(rng: &mut Rng, record: &mut Record) -> &'static str {
    loop {
        match rng.below(12) {
            0 => {
                let desks = record.tray.desks;
                record.desk = desks + rng.below(256 - u32::from(desks)) as u8;
                return "a number that is no desk";
            }
            1 if record.row.slot.is_asked() => {
                record.row.slot.kind += slot::ANSWER;
                return "an answered slot";
            }
            _ => {
                // In a table with this desk alone in it, what breaks the row breaks the record.
                let mut table = around(record);
                let (name, broken) = rng.pick(BREAKS);
                if broken(rng, &mut table) {
                    let damaged = table.record(record.desk);
                    if damaged != *record {
                        *record = damaged;
                        return name;
                    }
                }
            }
        }
    }
}

/// A table whose row for the record's desk is the record, and all others fresh.
fn around(record: &Record) -> Table {
    let mut table = Table::fresh(record.tray);
    table.rows[usize::from(record.desk)] = record.row;
    table
}

/// Sets one field anywhere in the table, used or not, to any value, or one clock to zeros. The table
/// may stay sound.
pub fn scramble(rng: &mut Rng, table: &mut Table) {
    let byte = rng.edgy() as u8;
    let word = rng.edgy();
    let row = &mut table.rows[rng.index(DESKS)];
    let cell = &mut row.cells[rng.index(CELLS)];
    let number = rng.index(DESKS);
    match rng.below(14) {
        0 => table.tray.desks = byte,
        1 => table.tray.cells = byte,
        2 => table.tray.places[rng.index(CELLS)].keeper = byte,
        3 => row.clock.n[number] = word,
        4 => cell.held = !cell.held,
        5 => cell.word = word,
        6 => cell.stamp.n[number] = word,
        7 => row.slot.kind = byte % 6,
        8 => row.slot.cell = byte,
        9 => row.slot.word = word,
        10 => row.slot.clock.n[number] = word,
        11 => cell.stamp = Clock::ZERO,
        12 => row.slot.clock = Clock::ZERO,
        _ => row.served = !row.served,
    }
}

/// What can have any one field set.
pub trait Poke {
    /// How many fields there are, each number of a clock counted.
    const FIELDS: usize;
    /// Sets the field of this number, below [`FIELDS`](Poke::FIELDS), to as much of `value` as it
    /// has room for.
    fn poke(&mut self, field: usize, value: u32);
}

/// A struct of these fields; one that is left out does not compile.
macro_rules! poke {
    ($($name:ident { $($part:ident: $type:ty),* })*) => {$(
        impl Poke for $name {
            const FIELDS: usize = 0 $(+ <$type>::FIELDS)*;

            fn poke(&mut self, mut field: usize, value: u32) {
                let $name { $($part),* } = self;
                $(
                    if field < <$type>::FIELDS {
                        return $part.poke(field, value);
                    }
                    field -= <$type>::FIELDS;
                )*
                panic!("no field {field} after the last");
            }
        }
    )*};
}

poke! {
    Clock { n: [u32; DESKS] }
    Cell { held: bool, word: u32, stamp: Clock }
    Slot { kind: u8, cell: u8, word: u32, clock: Clock }
    Row { clock: Clock, slot: Slot, served: bool, cells: [Cell; CELLS] }
    Place { keeper: u8 }
    Tray { desks: u8, cells: u8, places: [Place; CELLS] }
    Table { tray: Tray, rows: [Row; DESKS] }
    Record { tray: Tray, desk: u8, row: Row }
}

impl<T: Poke, const N: usize> Poke for [T; N] {
    const FIELDS: usize = N * T::FIELDS;

    fn poke(&mut self, field: usize, value: u32) {
        self[field / T::FIELDS].poke(field % T::FIELDS, value);
    }
}

impl Poke for u32 {
    const FIELDS: usize = 1;

    fn poke(&mut self, _: usize, value: u32) {
        *self = value;
    }
}

impl Poke for u8 {
    const FIELDS: usize = 1;

    fn poke(&mut self, _: usize, value: u32) {
        *self = value as u8;
    }
}

impl Poke for bool {
    const FIELDS: usize = 1;

    fn poke(&mut self, _: usize, value: u32) {
        *self = value & 1 == 1;
    }
}

fn set<T: PartialEq>(field: &mut T, value: T) -> bool {
    let other = *field != value;
    *field = value;
    other
}

/// A place past the count, if there is one.
fn past(rng: &mut Rng, count: u8, room: usize) -> Option<usize> {
    let count = usize::from(count);
    (count < room).then(|| count + rng.index(room - count))
}

/// A desk that is there.
fn present(rng: &mut Rng, table: &Table) -> usize {
    rng.index(table.tray.desks.into())
}

/// A desk that is there with a slot of one of these kinds, if there is one.
fn waiting(rng: &mut Rng, table: &Table, kinds: &[u8]) -> Option<usize> {
    some(rng, 0..table.tray.desks.into(), |&desk| {
        kinds.contains(&table.rows[desk].slot.kind)
    })
}

/// A desk and a cell that are there, the cell held.
fn held(rng: &mut Rng, table: &Table) -> (usize, usize) {
    place_of(rng, table, true).expect("a keeper holds its cells")
}

/// A desk and a cell that are there, the cell not held, if there are any.
fn not_held(rng: &mut Rng, table: &Table) -> Option<(usize, usize)> {
    place_of(rng, table, false)
}

fn place_of(rng: &mut Rng, table: &Table, held: bool) -> Option<(usize, usize)> {
    let cells = usize::from(table.tray.cells);
    let places = 0..usize::from(table.tray.desks) * cells;
    some(rng, places, |&place| {
        table.rows[place / cells].cells[place % cells].held == held
    })
    .map(|place| (place / cells, place % cells))
}

/// One of those that pass, each as likely.
fn some<T>(rng: &mut Rng, from: impl Iterator<Item = T>, pass: impl Fn(&T) -> bool) -> Option<T> {
    let mut passed: Vec<T> = from.filter(pass).collect();
    if passed.is_empty() {
        return None;
    }
    let chosen = rng.index(passed.len());
    Some(passed.swap_remove(chosen))
}

/// A message that has a frame; it fits nowhere if what it says was written has a clock of zeros.
pub fn message(rng: &mut Rng) -> Message {
    let desks = 2 + rng.below(7) as u8;
    let kind = 1 + rng.below(4) as u8;
    let mut message = Message {
        kind,
        desks,
        desk: rng.below(desks.into()) as u8,
        cell: rng.below(CELLS as u32) as u8,
        ..Message::ZERO
    };
    if kind != slot::READ_ASKED {
        message.word = rng.edgy();
        if !rng.one_in(6) {
            message.clock = clock(rng, desks);
        }
    }
    message
}

/// A message with a field or two that may be wrong.
pub fn any_message(rng: &mut Rng) -> Message {
    let mut message = message(rng);
    for _ in 0..rng.below(3) {
        let byte = rng.edgy() as u8;
        match rng.below(6) {
            0 => message.kind = byte,
            1 => message.desks = byte,
            2 => message.desk = byte,
            3 => message.cell = byte,
            4 => message.word = rng.edgy(),
            _ => message.clock.n[rng.index(DESKS)] = rng.edgy(),
        }
    }
    message
}

/// A record, one in six of them broken, with an event and a message for it.
pub fn given(seed: u64) -> (Record, Event, Message) {
    let mut rng = Rng::new(seed);
    let mut record = record(&mut rng);
    if rng.one_in(6) {
        break_record(&mut rng, &mut record);
    }
    let event = wild_event(&mut rng, &record.tray);
    let message = message_for(&mut rng, &record);
    (record, event, message)
}

/// A message that fits this record, sound or not, or nearly: one in four has a field changed.
pub fn message_for(rng: &mut Rng, record: &Record) -> Message {
    let tray = &record.tray;
    let desks = tray.desks.clamp(1, DESKS as u8);
    let cells = tray.cells.clamp(1, CELLS as u8);
    let kept = some(rng, 0..cells, |&cell| {
        tray.places[usize::from(cell)].keeper == record.desk
    });
    let another = u32::from(record.desk) + 1 + rng.below(u32::from(desks).max(2) - 1);
    let (word, clock) = sent(rng, desks);
    let mut message = Message {
        kind: 1 + rng.below(2) as u8,
        desks: tray.desks,
        desk: another as u8 % desks,
        cell: kept.unwrap_or_else(|| rng.below(cells.into()) as u8),
        word,
        clock,
    };
    let asked = &record.row.slot;
    if asked.is_asked() && rng.one_in(2) {
        message.kind = asked.kind + slot::ANSWER;
        message.desk = record.desk;
        message.cell = asked.cell;
        (message.word, message.clock) = stamped(rng, desks);
    }
    if rng.one_in(4) {
        let small = rng.below(10) as u8;
        match rng.below(7) {
            0 => message.kind = small,
            1 => message.desks = small,
            2 => message.desk = small,
            3 => message.cell = rng.edgy() as u8,
            4 => message.word = 0,
            5 => message.clock = Clock::ZERO,
            _ => message.clock.n[rng.index(DESKS)] = rng.edgy(),
        }
    }
    message
}

/// A frame, whole.
pub fn whole_frame(rng: &mut Rng) -> Vec<u8> {
    let mut bytes = vec![0; frame::LONGEST];
    let used = frame::write(&message(rng), &mut bytes).expect("a well-formed message");
    bytes.truncate(used);
    bytes
}

/// A frame with bytes changed, missing or added, or nothing but noise.
pub fn damaged_frame(rng: &mut Rng) -> Vec<u8> {
    let mut bytes = whole_frame(rng);
    for _ in 0..=rng.below(3) {
        match rng.below(5) {
            0 => bytes.truncate(rng.index(bytes.len() + 1)),
            1 => bytes.extend((0..rng.below(9)).map(|_| 0)),
            2 => bytes = (0..rng.below(50)).map(|_| rng.edgy() as u8).collect(),
            // The head is where most refusals are.
            _ if !bytes.is_empty() => {
                let place = rng.index(bytes.len().min(8));
                bytes[place] = rng.edgy() as u8;
            }
            _ => {}
        }
    }
    bytes
}
