//! Each numbered paragraph of the requirements, by a small example on either side of its edge.

use twin::{
    frame, script, Cell, Clock, Event, Message, Place, Plan, Record, Refusal, Reply, Row, Slot,
    Table,
};

fn clock(numbers: &[u32]) -> Clock {
    let mut clock = Clock::ZERO;
    clock.n[..numbers.len()].copy_from_slice(numbers);
    clock
}

fn table(desks: u32, keepers: &[u32]) -> Table {
    Table::new(&Plan::new(desks, keepers)).expect("a good set-up")
}

fn event(kind: u32, desk: u32, cell: u32, word: u32) -> Event {
    Event {
        kind,
        desk,
        cell,
        word,
    }
}

/// Does one event: code, value, count.
fn does(table: &mut Table, kind: u32, desk: u32, cell: u32, word: u32) -> (u32, u32, u32) {
    let Reply { code, value, count } = table.event(&event(kind, desk, cell, word));
    (code, value, count)
}

/// Asks, takes and brings.
fn fetch(table: &mut Table, kind: u32, desk: u32, cell: u32, word: u32) -> (u32, u32, u32) {
    assert_eq!(does(table, kind, desk, cell, word), (1, 0, 0));
    assert_eq!(does(table, 3, desk, 0, 0).0, 0);
    does(table, 4, desk, 0, 0)
}

#[test]
fn clocks_merge_and_compare() {
    assert_eq!(
        clock(&[0, 3, 1]).merge(&clock(&[2, 1, 1])),
        clock(&[2, 3, 1])
    );
    assert!(clock(&[0, 0, 1]).is_before(&clock(&[0, 0, 2])));
    assert!(!clock(&[0, 0, 1]).is_before(&clock(&[0, 0, 1])));
    assert!(!clock(&[1, 0]).is_before(&clock(&[0, 1])));
    assert!(!clock(&[0, 1]).is_before(&clock(&[1, 0])));
    // In every place, and by number and not by sign.
    for place in 0..8 {
        let mut high = Clock::ZERO;
        high.n[place] = u32::MAX;
        assert!(Clock::ZERO.is_before(&high) && !high.is_before(&Clock::ZERO));
        assert_eq!(Clock::ZERO.merge(&high), high);
        assert!(!high.fits(place) && high.fits(place + 1));
    }
}

#[test]
fn a_fresh_table_is_held_by_its_keepers_alone() {
    let table = table(3, &[1, 0, 1]);
    for (desk, row) in table.rows.iter().enumerate() {
        for (cell, here) in row.cells.iter().enumerate() {
            let keeps = matches!((desk, cell), (1, 0) | (0, 1) | (1, 2));
            assert_eq!(*here, if keeps { Cell::FRESH } else { Cell::NONE });
        }
        let cells = row.cells;
        assert_eq!(
            *row,
            Row {
                cells,
                ..Row::UNUSED
            }
        );
    }
    assert!(table.is_sound());
}

#[test]
fn setting_up_knows_both_sides_of_its_limits() {
    let all = |keeper| [keeper; 32];
    let code = |desks, cells, keepers| {
        let plan = Plan {
            desks,
            cells,
            keepers,
        };
        Table::new(&plan).map_or_else(|refusal| refusal as u32, |_| 0)
    };
    assert_eq!(
        [0, 1, 8, 9].map(|desks| code(desks, 1, all(0))),
        [20, 0, 0, 20]
    );
    assert_eq!(
        [0, 1, 32, 33].map(|cells| code(1, cells, all(0))),
        [21, 0, 0, 21]
    );
    assert_eq!(
        [0, 4, 5, 256].map(|keeper| code(5, 32, all(keeper))),
        [0, 0, 22, 22]
    );
    assert_eq!((code(0, 0, all(9)), code(1, 0, all(9))), (20, 21));
    // Keepers past the cell count are ignored, and stored as 0.
    let mut late = Plan {
        desks: 2,
        cells: 2,
        keepers: [7; 32],
    };
    late.keepers[..2].copy_from_slice(&[1, 0]);
    let tray = Table::new(&late).expect("a good set-up").tray;
    assert_eq!(tray.places[..2], [Place { keeper: 1 }, Place { keeper: 0 }]);
    assert_eq!(tray.places[2..], [Place::UNUSED; 30]);
}

#[test]
fn a_record_starts_as_its_row_of_the_fresh_table() {
    let start = |desks, cells, desk| {
        let plan = Plan {
            desks,
            cells,
            ..Plan::new(2, &[1, 0])
        };
        Record::new(&plan, desk)
    };
    let fresh = table(2, &[1, 0]);
    assert_eq!(start(2, 2, 1), Ok(fresh.record(1)));
    assert_eq!(start(2, 2, 2), Err(Refusal::Desk));
    assert_eq!(start(9, 0, 9), Err(Refusal::SetupDesks));
    assert_eq!(start(2, 0, 9), Err(Refusal::SetupCells));
    assert_eq!(start(1, 1, 9), Err(Refusal::SetupKeeper));
}

#[test]
fn one_desk_reads_what_it_wrote() {
    let mut table = table(1, &[0]);
    assert_eq!(does(&mut table, 1, 0, 0, 0), (2, 0, 0));
    assert_eq!(does(&mut table, 2, 0, 0, 7), (0, 7, 0));
    assert_eq!(does(&mut table, 1, 0, 0, 99), (0, 7, 0));
    assert_eq!(table.rows[0].clock, clock(&[1]));
    assert_eq!(table.rows[0].cells[0].stamp, clock(&[1]));
    // A 0 that was written is a word.
    assert_eq!(does(&mut table, 2, 0, 0, 0), (0, 0, 0));
    assert_eq!(does(&mut table, 1, 0, 0, 0), (0, 0, 0));
    assert_eq!(does(&mut table, 3, 0, 0, 0), (13, 0, 0));
    assert_eq!(does(&mut table, 4, 0, 0, 0), (13, 0, 0));
}

#[test]
fn only_what_nobody_wrote_is_blank() {
    // Desk 0 keeps the latitude and desk 1 the longitude.
    let mut table = table(2, &[0, 1]);
    assert_eq!(fetch(&mut table, 1, 1, 0, 0), (2, 0, 0));
    assert_eq!(does(&mut table, 1, 1, 0, 0), (2, 0, 0));
    // Latitude 0, by its keeper: desk 1's copy is as old as it was, and the next one is not blank.
    assert_eq!(does(&mut table, 2, 0, 0, 0), (0, 0, 0));
    assert_eq!(does(&mut table, 1, 1, 0, 0), (2, 0, 0));
    assert_eq!(does(&mut table, 5, 1, 0, 0), (0, 0, 1));
    assert_eq!(fetch(&mut table, 1, 1, 0, 0), (0, 0, 0));
    assert_eq!(does(&mut table, 1, 1, 0, 0), (0, 0, 0));
    // Longitude 0, by the other desk: at its keeper it is no blank either.
    assert_eq!(does(&mut table, 1, 1, 1, 0), (2, 0, 0));
    assert_eq!(fetch(&mut table, 2, 0, 1, 0), (0, 0, 0));
    assert_eq!([0, 1].map(|desk| does(&mut table, 1, desk, 1, 0).0), [0; 2]);
}

#[test]
fn a_stamp_of_zeros_has_no_word_and_no_write_is_sent_with_one() {
    // Desk 0 keeps cell 0 and waits for cell 1.
    let given = table(2, &[0, 1]);
    let is_sound = |change: &dyn Fn(&mut Row)| {
        let mut table = given;
        change(&mut table.rows[0]);
        assert_eq!(
            does(&mut table, 1, 1, 1, 0).0,
            if table.is_sound() { 2 } else { 9 }
        );
        table.is_sound()
    };
    let stamps = [Clock::ZERO, clock(&[1]), clock(&[0, 1])];
    for (stamp, word, is_good) in [
        (stamps[0], 0, true),
        (stamps[0], 1, false),
        (stamps[0], u32::MAX, false),
        (stamps[1], 0, true),
        (stamps[1], 1, true),
        (stamps[2], 0, true),
        (stamps[2], 1, true),
    ] {
        let what = (stamp, word);
        let here = Cell {
            held: true,
            word,
            stamp,
        };
        // A kept cell, and a copy.
        assert_eq!(is_sound(&|row| row.cells[0] = here), is_good, "{what:?}");
        assert_eq!(is_sound(&|row| row.cells[1] = here), is_good, "{what:?}");
        for kind in [2, 3, 4] {
            let slot = Slot {
                kind,
                cell: 1,
                word,
                clock: stamp,
            };
            let is_good = if kind == 2 {
                stamp != Clock::ZERO
            } else {
                is_good
            };
            assert_eq!(is_sound(&|row| row.slot = slot), is_good, "{slot:?}");
        }
    }
}

#[test]
fn the_last_clock_number_is_reached_and_not_passed() {
    // Cell 0 is kept by desk 0, cell 1 by desk 1: both ways to write.
    for cell in [0, 1] {
        let mut table = table(2, &[0, 1]);
        table.rows[0].clock.n[0] = u32::MAX - 1;
        assert_eq!(does(&mut table, 2, 0, cell, 5).0, cell);
        table.rows[0].slot = Slot::EMPTY;
        table.rows[0].clock.n[0] = u32::MAX;
        let given = table;
        assert_eq!(does(&mut table, 2, 0, cell, 5), (16, 0, 0));
        assert_eq!(table, given);
    }
}

#[test]
fn asking_fills_the_slot_and_leaves_the_clock() {
    let mut table = table(2, &[1]);
    table.rows[0].clock = clock(&[4, 2]);
    let given = table;
    assert_eq!(does(&mut table, 1, 0, 0, 9), (1, 0, 0));
    let asked = Slot {
        kind: 1,
        ..Slot::EMPTY
    };
    assert_eq!(table.rows[0].slot, asked);
    let mut table = given;
    assert_eq!(does(&mut table, 2, 0, 0, 9), (1, 0, 0));
    let asked = Slot {
        kind: 2,
        cell: 0,
        word: 9,
        clock: clock(&[5, 2]),
    };
    assert_eq!(table.rows[0].slot, asked);
    assert_eq!(table.rows[0].clock, clock(&[4, 2]));
}

#[test]
fn a_taken_read_changes_nothing_in_the_keeper() {
    let mut table = table(2, &[1, 0]);
    does(&mut table, 2, 1, 0, 30);
    does(&mut table, 1, 1, 1, 0);
    does(&mut table, 1, 0, 0, 0);
    let keeper = table.rows[1];
    assert_eq!(does(&mut table, 3, 0, 0, 0), (0, 0, 0));
    assert_eq!(table.rows[1], keeper);
    let answered = Slot {
        kind: 3,
        cell: 0,
        word: 30,
        clock: clock(&[0, 1]),
    };
    assert_eq!(table.rows[0].slot, answered);
    // Once taken it cannot be taken again, and before that it cannot be brought.
    assert_eq!(does(&mut table, 3, 0, 0, 0), (13, 0, 0));
    assert_eq!(does(&mut table, 4, 1, 0, 0), (13, 0, 0));
}

#[test]
fn a_taken_write_drops_what_is_strictly_before_the_sent_clock() {
    // Desk 0 keeps cell 0 and has copies of 1 to 4; desk 1 asks to write cell 0.
    let mut table = table(2, &[0, 1, 1, 1, 1]);
    table.rows[0].clock = clock(&[7, 0]);
    let stamps = [[0, 2], [0, 3], [1, 0], [0, 4]];
    for (cell, stamp) in table.rows[0].cells[1..].iter_mut().zip(stamps) {
        *cell = Cell {
            held: true,
            word: 1,
            stamp: clock(&stamp),
        };
    }
    table.rows[1].clock = clock(&[0, 2]);
    assert_eq!(does(&mut table, 2, 1, 0, 50), (1, 0, 0));
    // Sent (0, 3): before it is only (0, 2); (0, 3) is equal, (1, 0) beside, (0, 4) after. The
    // merged clock (7, 3) has three of them before it.
    assert_eq!(does(&mut table, 3, 1, 0, 0), (0, 0, 1));
    assert_eq!(
        [1, 2, 3, 4].map(|cell: usize| table.rows[0].cells[cell].held),
        [false, true, true, true]
    );
    assert_eq!(table.rows[0].cells[1], Cell::NONE);
    assert_eq!(table.rows[0].clock, clock(&[7, 3]));
    let stored = Cell {
        held: true,
        word: 50,
        stamp: clock(&[7, 3]),
    };
    assert_eq!(table.rows[0].cells[0], stored);
    let answered = Slot {
        kind: 4,
        cell: 0,
        word: 50,
        clock: clock(&[7, 3]),
    };
    assert_eq!(table.rows[1].slot, answered);
    assert!(!table.rows[0].served);
}

#[test]
fn a_brought_answer_drops_other_copies_strictly_before_its_stamp() {
    for (asked, word, code) in [(1, 0, 0), (1, 6, 0), (2, 0, 0), (2, 6, 0)] {
        // Desk 0 keeps cell 4, has copies of 0 to 3 and waits for cell 0.
        let mut table = table(2, &[1, 1, 1, 1, 0]);
        let stamps = [[0, 1], [0, 2], [0, 3], [1, 0], [0, 1]];
        for (cell, stamp) in table.rows[0].cells.iter_mut().zip(stamps) {
            *cell = Cell {
                held: true,
                word: 1,
                stamp: clock(&stamp),
            };
        }
        table.rows[0].clock = clock(&[1, 0]);
        table.rows[0].slot = Slot {
            kind: asked + 2,
            cell: 0,
            word,
            clock: clock(&[0, 3]),
        };
        for served in [false, true] {
            let mut table = table;
            table.rows[0].served = served;
            // The old copy of the cell itself is not counted, and the kept cell stays.
            assert_eq!(does(&mut table, 4, 0, 0, 0), (code, word, 1));
            let row = &table.rows[0];
            assert_eq!(
                [1, 2, 3, 4].map(|cell: usize| row.cells[cell].held),
                [false, true, true, true]
            );
            let answer = Cell {
                held: true,
                word,
                stamp: clock(&[0, 3]),
            };
            assert_eq!(row.cells[0], if served { Cell::NONE } else { answer });
            assert_eq!(
                (row.clock, row.slot, row.served),
                (clock(&[1, 3]), Slot::EMPTY, false)
            );
        }
    }
}

#[test]
fn served_goes_on_for_a_write_while_waiting_and_off_with_the_next_request() {
    let mut table = table(2, &[0, 1]);
    // Desk 0 waits for cell 1, asked and then answered; a read of its own cell is no write.
    for takes in [0, 1] {
        assert_eq!(does(&mut table, 1, 0, 1, 0).0, 1);
        (0..takes).for_each(|_| assert_eq!(does(&mut table, 3, 0, 0, 0).0, 0));
        fetch(&mut table, 1, 1, 0, 0);
        assert!(!table.rows[0].served);
        fetch(&mut table, 2, 1, 0, 40);
        assert!(table.rows[0].served);
        (takes..1).for_each(|_| assert_eq!(does(&mut table, 3, 0, 0, 0).0, 0));
        does(&mut table, 4, 0, 0, 0);
        assert!(!table.rows[0].served && !table.rows[0].cells[1].held);
        does(&mut table, 5, 1, 0, 0);
    }
    // Without waiting nothing is marked, and the answer is held.
    fetch(&mut table, 2, 1, 0, 41);
    assert!(!table.rows[0].served);
    fetch(&mut table, 1, 0, 1, 0);
    assert!(table.rows[0].cells[1].held);
}

#[test]
fn dropping_gives_up_a_copy() {
    let mut table = table(2, &[1, 0]);
    fetch(&mut table, 1, 0, 0, 0);
    assert_eq!(does(&mut table, 5, 0, 0, 0), (0, 0, 1));
    assert_eq!(table.rows[0].cells[0], Cell::NONE);
    assert_eq!(does(&mut table, 5, 0, 0, 0), (0, 0, 0));
    assert_eq!(does(&mut table, 5, 0, 1, 0), (14, 0, 0));
}

#[test]
fn earlier_lines_come_first() {
    let mut given = table(2, &[0, 1]);
    given.rows[0].clock.n[0] = u32::MAX;
    let code = |table: &Table, kind, desk, cell| {
        let mut table = *table;
        does(&mut table, kind, desk, cell, 1).0
    };
    let mut unsound = given;
    unsound.tray.cells = 0;
    assert_eq!(code(&unsound, 6, 2, 2), 9);
    assert_eq!(
        [0, 6, u32::MAX].map(|kind| code(&given, kind, 2, 2)),
        [8; 3]
    );
    assert_eq!(
        [1, 2, 3, 4, 5].map(|kind| code(&given, kind, 2, 2)),
        [10; 5]
    );
    assert_eq!([1, 2, 5].map(|kind| code(&given, kind, 0, 2)), [11; 3]);
    assert_eq!([3, 4].map(|kind| code(&given, kind, 0, 2)), [13; 2]);
    assert_eq!(code(&given, 5, 0, 0), 14);
    assert_eq!(code(&given, 2, 0, 0), 16);
    let mut waiting = given;
    does(&mut waiting, 1, 0, 1, 0);
    assert_eq!([1, 2, 5].map(|kind| code(&waiting, kind, 0, 2)), [11; 3]);
    assert_eq!([1, 2, 5].map(|kind| code(&waiting, kind, 0, 0)), [12; 3]);
    assert_eq!([3, 4].map(|kind| code(&waiting, kind, 0, 0)), [0, 13]);
}

/// Desk 0 of two, keeping cell 0 and not cell 1.
fn record() -> Record {
    table(2, &[0, 1]).record(0)
}

#[test]
fn a_desks_part_acts_for_its_own_desk() {
    let mut part = record();
    assert_eq!(
        part.event(&event(2, 77, 0, 5)),
        (Reply::new(0, 5, 0), Message::ZERO)
    );
    let (reply, request) = part.event(&event(2, 1, 1, 6));
    assert_eq!(reply, Reply::new(1, 0, 0));
    let sent = Message {
        kind: 2,
        desks: 2,
        desk: 0,
        cell: 1,
        word: 6,
        clock: clock(&[2]),
    };
    assert_eq!(request, sent);
    let given = part;
    for (kind, cell, code) in [(3, 9, 8), (4, 0, 8), (1, 2, 11), (5, 0, 12)] {
        let refused = (Reply::new(code, 0, 0), Message::ZERO);
        assert_eq!(part.event(&event(kind, 0, cell, 0)), refused);
    }
    assert_eq!(part, given);
    part.row.slot.kind = 4;
    assert_eq!(part.event(&event(3, 0, 0, 0)).0.code, 9);
    let mut nobody = Record {
        desk: 2,
        ..record()
    };
    assert_eq!(nobody.event(&event(1, 0, 0, 0)).0.code, 9);
}

#[test]
fn a_request_fits_or_is_refused() {
    let good = Message {
        kind: 2,
        desks: 2,
        desk: 1,
        cell: 0,
        word: 9,
        clock: clock(&[0, 1]),
    };
    let mut part = record();
    let (reply, answer) = part.serve(&good);
    assert_eq!(reply, Reply::new(0, 0, 0));
    assert_eq!(answer, Message { kind: 4, ..good });
    // A read's word and clock are ignored, where the clock has no number past the count.
    for clock in [good.clock, Clock::ZERO] {
        let (reply, answer) = part.serve(&Message {
            kind: 1,
            word: 3,
            clock,
            ..good
        });
        assert_eq!(reply, Reply::new(0, 0, 0));
        assert_eq!(answer, Message { kind: 3, ..good });
    }
    let given = part;
    for unfit in [
        Message { kind: 0, ..good },
        Message { kind: 3, ..good },
        Message { kind: 4, ..good },
        Message { desks: 3, ..good },
        Message { desk: 0, ..good },
        Message { desk: 2, ..good },
        Message { cell: 1, ..good },
        Message { cell: 2, ..good },
        Message { cell: 255, ..good },
        Message {
            clock: clock(&[0, 1, 1]),
            ..good
        },
        Message {
            clock: Clock::ZERO,
            ..good
        },
        Message {
            word: 0,
            clock: Clock::ZERO,
            ..good
        },
    ] {
        assert_eq!(
            part.serve(&unfit),
            (Reply::new(15, 0, 0), Message::ZERO),
            "{unfit:?}"
        );
        assert_eq!(part, given);
    }
    part.desk = 9;
    assert_eq!(
        part.serve(&Message::ZERO),
        (Reply::new(9, 0, 0), Message::ZERO)
    );
}

#[test]
fn an_answer_fits_or_is_refused() {
    let good = Message {
        kind: 3,
        desks: 2,
        desk: 0,
        cell: 1,
        word: 9,
        clock: clock(&[0, 1]),
    };
    let mut part = record();
    assert_eq!(part.bring(&good), Reply::new(13, 0, 0));
    part.event(&event(1, 0, 1, 0));
    let given = part;
    for unfit in [
        Message { kind: 1, ..good },
        Message { kind: 4, ..good },
        Message { desks: 3, ..good },
        Message { desk: 1, ..good },
        Message { cell: 0, ..good },
        Message {
            clock: clock(&[0, 1, 1]),
            ..good
        },
        Message {
            clock: Clock::ZERO,
            ..good
        },
    ] {
        assert_eq!(part.bring(&unfit), Reply::new(15, 0, 0), "{unfit:?}");
        assert_eq!(part, given);
    }
    assert_eq!(part.bring(&good), Reply::new(0, 9, 0));
    assert_eq!(part.row.clock, good.clock);
    part.row.served = true;
    assert_eq!(part.bring(&good), Reply::new(9, 0, 0));
}

#[test]
fn an_answer_is_blank_by_its_stamp() {
    for (asked, word, stamp, code) in [
        (1, 0, clock(&[]), 2),
        (1, 0, clock(&[0, 1]), 0),
        (1, 9, clock(&[]), 15),
        (2, 0, clock(&[]), 0),
        (2, 0, clock(&[0, 1]), 0),
        (2, 9, clock(&[]), 15),
    ] {
        let mut part = record();
        assert_eq!(part.event(&event(asked, 0, 1, 7)).0.code, 1);
        let answer = Message {
            kind: asked as u8 + 2,
            desks: 2,
            desk: 0,
            cell: 1,
            word,
            clock: stamp,
        };
        assert_eq!(part.bring(&answer), Reply::new(code, 0, 0), "{answer:?}");
        assert_eq!(part.row.cells[1].held, code != 15, "{answer:?}");
    }
}

#[test]
fn frames_carry_what_does_not_fit() {
    for kind in [2, 3, 4] {
        let message = Message {
            kind,
            desks: 2,
            word: 9,
            ..Message::ZERO
        };
        let mut out = [0; 19];
        assert_eq!(frame::write(&message, &mut out), Ok(19));
        assert_eq!(frame::read(&out), Ok((message, 19)));
    }
}

#[test]
fn frames_are_these_bytes() {
    let read = Message {
        kind: 1,
        desks: 3,
        ..Message::ZERO
    };
    let write = Message {
        kind: 2,
        desks: 3,
        desk: 2,
        cell: 1,
        word: 500,
        clock: clock(&[0, 0, 2]),
    };
    let mut out = [0xEE; 30];
    assert_eq!(frame::write(&read, &mut out), Ok(7));
    assert_eq!(out[..8], [0, 5, 1, 1, 3, 0, 0, 0xEE]);
    assert_eq!(frame::read(&out), Ok((read, 7)));
    assert_eq!(frame::read(&out[..6]), Err(Refusal::FrameCut));
    assert_eq!(frame::write(&write, &mut out), Ok(23));
    let mut bytes = [0; 24];
    bytes[..7].copy_from_slice(&[0, 0x15, 1, 2, 3, 2, 1]);
    bytes[9..11].copy_from_slice(&[0x01, 0xF4]);
    bytes[22..].copy_from_slice(&[2, 0xEE]);
    assert_eq!(out[..24], bytes);
    assert_eq!(frame::read(&out), Ok((write, 23)));
    // 43 bytes are room enough for any.
    let longest = Message {
        kind: 4,
        desks: 8,
        ..Message::ZERO
    };
    assert_eq!(frame::write(&longest, &mut [0; 43]), Ok(43));
    assert_eq!(
        frame::write(&longest, &mut [0; 42]),
        Err(Refusal::FrameRoom)
    );
}

#[test]
fn frames_are_refused_in_order() {
    let code = |bytes: &[u8]| frame::read(bytes).map_err(|refusal| refusal as u32).err();
    assert_eq!(
        [&[][..], &[0], &[0, 1], &[0, 5, 1, 1, 3, 0]].map(code),
        [Some(30); 4]
    );
    assert_eq!([&[0, 0][..], &[0, 4, 9, 9, 9, 9]].map(code), [Some(36); 2]);
    // Each mends one fault of the one before.
    assert_eq!(code(&[0, 6, 2, 0, 1, 8, 32, 0]), Some(31));
    assert_eq!(code(&[0, 6, 1, 0, 1, 8, 32, 0]), Some(32));
    assert_eq!(code(&[0, 6, 1, 5, 1, 8, 32, 0]), Some(32));
    assert_eq!(code(&[0, 6, 1, 1, 1, 8, 32, 0]), Some(33));
    assert_eq!(code(&[0, 6, 1, 1, 9, 8, 32, 0]), Some(33));
    assert_eq!(code(&[0, 6, 1, 1, 8, 8, 32, 0]), Some(34));
    assert_eq!(code(&[0, 6, 1, 1, 8, 7, 32, 0]), Some(35));
    assert_eq!(code(&[0, 6, 1, 1, 8, 7, 31, 0]), Some(36));
    assert_eq!(code(&[0, 5, 1, 1, 8, 7, 31, 0]), None);
    assert_eq!(code(&[0, 5, 1, 2, 8, 7, 31, 0]), Some(36));
}

#[test]
fn a_script_is_answered_line_by_line() {
    let run = |text: &str| String::from_utf8(script::run(text.as_bytes())).expect("text");
    assert_eq!(run(""), "bad line 1\n");
    assert_eq!(run("8 1\n7\n1 7 0 0\n"), "2 0 0\n");
    assert_eq!(run("9 1\n8\n1 7 0 0\n"), "20\n");
    assert_eq!(run("9 1\n"), "bad line 2\n");
    assert_eq!(run("1 33\nx\n"), "21\n");
    assert_eq!(run("9 0\n"), "20\n");
    assert_eq!(run("1 0"), "bad line 1\n");
    assert_eq!(run("2 2\n0 2\nx\n"), "22\n");
    assert_eq!(
        run("1 1\n0\n2 0 0 4294967295\n1 0 0 0\n"),
        "0 4294967295 0\n0 4294967295 0\n"
    );
    for malformed in [
        "",
        "1 0 0",
        "1 0 0 0 ",
        " 1 0 0 0",
        "1  0 0 0",
        "1 0 0 0 0",
        "01 0 0 0",
        "1 0 0 00",
        "+1 0 0 0",
        "1 -0 0 0",
        "1\t0 0 0",
        "1 0 0 0\r",
        "1 0 0 4294967296",
        "1 0 0 99999999999",
        "1 0 0 \u{0}",
        "1 0 0 x",
    ] {
        let script = format!("1 1\n0\n1 0 0 0\n{malformed}\n1 0 0 0\n");
        assert_eq!(run(&script), "2 0 0\nbad line 4\n", "{malformed:?}");
    }
    assert_eq!(run("1 1\n0\n1 0 0 0"), "bad line 3\n");
}

#[test]
fn a_script_of_65536_bytes_is_not_too_long() {
    let mut script = b"1 1\n0\n".to_vec();
    while script.len() < 65_536 - 10 {
        script.extend_from_slice(b"1 0 0 0\n");
    }
    let word = "9".repeat(65_536 - script.len() - 7);
    script.extend_from_slice(format!("2 0 0 {word}\n").as_bytes());
    assert_eq!(script.len(), 65_536);
    let end = format!("2 0 0\n0 {word} 0\n");
    assert!(script::run(&script).ends_with(end.as_bytes()));
    script.push(b'\n');
    assert_eq!(script::run(&script), b"too long\n");
}
