//! The proved library held against the twin, which was written from the requirements alone: on the
//! same input every field of reply, message, record, table and output is the same. All inputs come
//! from seeds, and each test says how much of each kind it saw.

use against::{answered, Same, Tally};
use cwmorlais::sys;
use twin::data::slot;
use twin::gen::{self, lent, Mood, Poke, Rng, BREAKS};
use twin::{frame, Event, Message, Plan, Record, Refusal, Reply, Table};

/// One event on the same table by both; what the twin made of it.
fn table_event(tally: &mut Tally, given: &Table, event: &Event, seed: u64) -> Table {
    let (mut ours, mut twins) = (given.same(), *given);
    let reply: Reply = sys::table_event(&mut ours, event.same()).same();
    assert_eq!(reply, twins.event(event), "seed {seed}: {event:?}");
    assert!(
        ours == twins.same(),
        "seed {seed}: another table after {event:?}"
    );
    tally.add(reply.code);
    twins
}

/// An event, a serve and a bring of the same record by both.
fn parts(tallies: &mut [Tally; 3], given: &Record, event: &Event, message: &Message, seed: u64) {
    type Step<'a, R, A> = &'a dyn Fn(&mut R) -> A;
    let mut hold = |which: usize,
                    ours: Step<sys::Record, sys::Answer>,
                    twins: Step<Record, (Reply, Message)>| {
        let (mut our_record, mut twins_record) = (given.same(), *given);
        let answer = answered(ours(&mut our_record));
        assert_eq!(
            answer,
            twins(&mut twins_record),
            "seed {seed}, part {which}"
        );
        let same = our_record == twins_record.same();
        assert!(same, "seed {seed}: another record by part {which}");
        tallies[which].add(answer.0.code);
    };
    let (our_event, our_message) = (event.same(), message.same());
    hold(0, &|r| sys::desk_event(r, our_event), &|r| r.event(event));
    hold(1, &|r| sys::desk_serve(r, &our_message), &|r| {
        r.serve(message)
    });
    hold(2, &|r| sys::desk_bring(r, &our_message), &|r| {
        (r.bring(message), Message::ZERO)
    });
}

fn three() -> [Tally; 3] {
    [Tally::default(), Tally::default(), Tally::default()]
}

#[test]
fn runs_of_the_table() {
    let mut tally = Tally::default();
    for seed in 0..20_000 {
        let mut rng = Rng::new(seed);
        // A fresh table, or any sound one.
        let mut table = if rng.one_in(2) {
            Table::new(&gen::good_setup(&mut rng, 1)).expect("a good set-up")
        } else {
            gen::table(&mut rng)
        };
        let mood = Mood::new(&mut rng);
        for _ in 0..40 {
            let event = mood.event_at(&mut rng, &table);
            table = table_event(&mut tally, &table, &event, seed);
        }
    }
    tally.expect("runs", &[0, 1, 2, 8, 10, 11, 12, 13, 14, 16], 500);
}

/// The library's own table goes on and on, and is never set right by the twin's.
#[test]
fn one_long_run_of_each_shape() {
    let mut tally = Tally::default();
    for desks in 1..=8 {
        for cells in 1..=32 {
            let mut rng = Rng::new(u64::from(100 * desks + cells));
            let plan = Plan {
                desks,
                cells,
                keepers: std::array::from_fn(|_| rng.below(desks)),
            };
            let mut ours = sys::Table::default();
            assert_eq!(sys::set_up(&mut ours, plan.same()), 0);
            let mut twins = Table::new(&plan).expect("a good set-up");
            let mood = Mood::new(&mut rng);
            for _ in 0..300 {
                let event = mood.event_at(&mut rng, &twins);
                let reply: Reply = sys::table_event(&mut ours, event.same()).same();
                assert_eq!(reply, twins.event(&event), "{desks} x {cells}: {event:?}");
                tally.add(reply.code);
            }
            assert!(ours == twins.same(), "{desks} x {cells}: another table");
        }
    }
    tally.expect("long runs", &[0, 1, 2, 8, 10, 11, 12, 13, 14], 100);
}

#[test]
fn tables_that_are_not_sound() {
    let mut tally = Tally::default();
    let mut counts = vec![0; BREAKS.len()];
    for seed in 0..3_000 {
        for (&(name, broken), count) in BREAKS.iter().zip(&mut counts) {
            let mut rng = Rng::new(seed);
            let mut table = gen::table(&mut rng);
            if broken(&mut rng, &mut table) {
                let event = gen::wild_event(&mut rng, &table.tray);
                let before = tally.of(9);
                table_event(&mut tally, &table, &event, seed);
                assert_eq!(tally.of(9), before + 1, "seed {seed}: {name}");
                *count += 1;
            }
        }
    }
    for ((name, _), count) in BREAKS.iter().zip(counts) {
        assert!(count >= 100, "{name}: only {count} times");
    }
    tally.expect("broken tables", &[9], 50_000);
}

/// Every field of a table, one after the other, with values that are right and wrong there.
#[test]
fn tables_with_every_field_changed() {
    let mut tally = Tally::default();
    for seed in 0..36 {
        let mut rng = Rng::new(seed);
        let given = gen::table(&mut rng);
        for field in 0..Table::FIELDS {
            for value in [0, 1, 5, 1 + rng.below(40), rng.edgy()] {
                let mut table = given;
                table.poke(field, value);
                let event = gen::wild_event(&mut rng, &given.tray);
                table_event(&mut tally, &table, &event, seed);
            }
        }
    }
    tally.expect("fields", &[0, 1, 2, 8, 9, 10, 11, 12, 13, 14, 16], 100);
}

/// Up to three fields changed at once.
#[test]
fn scrambled_tables() {
    let mut tally = Tally::default();
    for seed in 0..100_000 {
        let mut rng = Rng::new(seed);
        let mut table = gen::table(&mut rng);
        for _ in 0..1 + rng.below(3) {
            gen::scramble(&mut rng, &mut table);
        }
        let event = gen::wild_event(&mut rng, &table.tray);
        table_event(&mut tally, &table, &event, seed);
    }
    tally.expect("scrambled", &[0, 1, 2, 8, 9, 10, 11, 12, 13, 14, 16], 10);
}

#[test]
fn records_sound_or_broken() {
    let mut tallies = three();
    for seed in 0..400_000 {
        let (given, event, message) = gen::given(seed);
        parts(&mut tallies, &given, &event, &message, seed);
    }
    expect_parts("records", &tallies, 1_000);
}

#[test]
fn records_with_every_field_changed() {
    let mut tallies = three();
    for seed in 0..800 {
        let mut rng = Rng::new(seed);
        let given = gen::record(&mut rng);
        for field in 0..Record::FIELDS {
            let value = match rng.below(3) {
                0 => rng.below(6),
                1 => rng.below(40),
                _ => rng.edgy(),
            };
            let mut record = given;
            record.poke(field, value);
            if record == given {
                continue;
            }
            let event = gen::wild_event(&mut rng, &given.tray);
            let message = gen::message_for(&mut rng, &given);
            parts(&mut tallies, &record, &event, &message, seed);
        }
        for desk in (0..=9).chain([16, 127, 128, 255]) {
            let event = gen::wild_event(&mut rng, &given.tray);
            let message = gen::message_for(&mut rng, &given);
            let record = Record { desk, ..given };
            parts(&mut tallies, &record, &event, &message, seed);
        }
    }
    expect_parts("record fields", &tallies, 50);
}

fn expect_parts(what: &str, [events, serves, brings]: &[Tally; 3], least: u64) {
    events.expect(
        &format!("{what}, event"),
        &[0, 1, 2, 8, 9, 11, 12, 14, 16],
        least,
    );
    serves.expect(&format!("{what}, serve"), &[0, 9, 15], least);
    brings.expect(&format!("{what}, bring"), &[0, 2, 9, 13, 15], least);
}

/// A desk's part brings every message to every sound record as the table would: the twin's tests
/// hold its own two against each other, and this the library's two.
#[test]
fn take_and_bring_are_serve_and_bring() {
    let mut counts = [0; 2];
    for seed in 0..60_000 {
        let mut rng = Rng::new(seed);
        let given: Table = gen::table(&mut rng);
        let desk = rng.below(given.tray.desks.into());
        let slot = given.rows[desk as usize].slot;
        if slot.kind == slot::EMPTY {
            continue;
        }
        let message = sys::Message {
            kind: slot.kind,
            desks: given.tray.desks,
            desk: desk as u8,
            cell: slot.cell,
            word: slot.word,
            clock: slot.clock.same(),
        };
        let is_take = slot.is_asked();
        let actor = if is_take {
            given.tray.places[usize::from(slot.cell)].keeper
        } else {
            desk as u8
        };
        let mut record: sys::Record = lent(&given, actor).same();
        let mut table: sys::Table = given.same();
        let event = sys::Event {
            kind: if is_take { 3 } else { 4 },
            desk,
            ..sys::Event::default()
        };
        let reply = sys::table_event(&mut table, event);
        let answer = if is_take {
            sys::desk_serve(&mut record, &message)
        } else {
            sys::desk_bring(&mut record, &message)
        };
        assert_eq!(reply, answer.reply, "seed {seed}");
        let after: Table = table.same();
        assert!(record == lent(&after, actor).same(), "seed {seed}");
        if is_take {
            let now = table.seats[desk as usize].slot;
            let sent = answer.message;
            let slot = (sent.kind, sent.cell, sent.word, sent.clock);
            assert_eq!(
                slot,
                (now.kind, now.cell, now.word, now.clock),
                "seed {seed}"
            );
        }
        counts[usize::from(is_take)] += 1;
    }
    println!(
        "table against parts: {} brings, {} takes",
        counts[0], counts[1]
    );
    assert!(counts.iter().all(|&count| count > 5_000), "{counts:?}");
}

fn code(refusal: Refusal) -> u32 {
    refusal as u32
}

fn frame_read(tally: &mut Tally, bytes: &[u8], seed: u64) {
    let reading = sys::frame_read(bytes);
    let expected = match frame::read(bytes) {
        Ok((message, used)) => sys::Reading {
            code: 0,
            message: message.same(),
            used,
        },
        Err(refusal) => sys::Reading {
            code: code(refusal),
            ..sys::Reading::default()
        },
    };
    assert_eq!(reading, expected, "seed {seed}: {bytes:02x?}");
    tally.add(reading.code);
}

/// Into so much room, before which and past which nothing may change.
fn frame_write(tally: &mut Tally, message: &Message, room: usize, seed: u64) {
    let filled: [u8; 64] = std::array::from_fn(|i| (i as u8) ^ seed as u8);
    let (mut ours, mut twins) = (filled, filled);
    let written = sys::frame_write(&message.same(), &mut ours[8..][..room]);
    let result = frame::write(message, &mut twins[8..][..room]);
    let expected = sys::Written {
        code: result.err().map_or(0, code),
        used: result.unwrap_or(0),
    };
    assert_eq!(written, expected, "seed {seed}: {message:?}, room {room}");
    assert_eq!(ours, twins, "seed {seed}: {message:?}, room {room}");
    tally.add(written.code);
}

#[test]
fn frames_read() {
    let mut tally = Tally::default();
    for seed in 0..400_000 {
        let mut rng = Rng::new(seed);
        frame_read(&mut tally, &gen::damaged_frame(&mut rng), seed);
        let mut whole = gen::whole_frame(&mut rng);
        let used = whole.len();
        // Bytes after the frame.
        whole.extend((0..rng.below(5)).map(|_| rng.bits() as u8));
        frame_read(&mut tally, &whole, seed);
        if seed % 8 == 0 {
            // Every truncation, and every byte changed.
            for kept in 0..used {
                frame_read(&mut tally, &whole[..kept], seed);
                let mut changed = whole.clone();
                changed[kept] = rng.edgy() as u8;
                frame_read(&mut tally, &changed, seed);
            }
        }
    }
    // A length that goes up to the end of the longest input there can be.
    for length in [
        0, 4, 5, 6, 12, 13, 17, 41, 42, 0x100, 0x7FFF, 0xFFFE, 0xFFFF_u32,
    ] {
        for count in [0, 1, 2, length as usize + 1, length as usize + 2, 70_000] {
            let mut bytes = vec![1; count];
            for (to, from) in bytes.iter_mut().zip((length as u16).to_be_bytes()) {
                *to = from;
            }
            frame_read(&mut tally, &bytes, u64::from(length));
        }
    }
    tally.expect("frames read", &[0, 30, 31, 32, 33, 34, 35, 36], 5_000);
}

#[test]
fn frames_written() {
    let mut tally = Tally::default();
    for seed in 0..400_000 {
        let mut rng = Rng::new(seed);
        let message = gen::any_message(&mut rng);
        frame_write(&mut tally, &message, 43, seed);
        frame_write(&mut tally, &message, rng.index(50), seed);
        if seed % 16 == 0 {
            // Every room, from none to more than enough.
            let message = gen::message(&mut rng);
            for room in 0..=45 {
                frame_write(&mut tally, &message, room, seed);
            }
        }
    }
    tally.expect("frames written", &[0, 32, 33, 34, 35, 37, 38], 5_000);
}

/// Something in the first and the last of these, which a fresh table or record does not have.
fn mark(cells: &mut [sys::Cell], seats: &mut [sys::Seat]) {
    let last = cells.len() - 1;
    for c in [0, last] {
        cells[c].held = true;
        (cells[c].word, cells[c].stamp.n[7]) = (27, 1);
    }
    for seat in seats {
        (seat.clock.n[7], seat.slot.kind, seat.slot.cell) = (1, 2, 3);
        (seat.slot.word, seat.slot.clock.n[0], seat.served) = (500, 1, true);
    }
}

#[test]
fn set_up_and_start() {
    let mut tallies = [Tally::default(), Tally::default()];
    // What is lent has what the call before left there, fresh or zero, and a mark of its own.
    let (mut table, mut record) = (sys::Table::default(), sys::Record::default());
    let mut hold = |plan: &Plan, desk| {
        let what = (plan, desk);
        mark(&mut table.cells, &mut table.seats);
        mark(&mut record.row, std::slice::from_mut(&mut record.seat));
        (table.tray.counts.desks, record.desk) = (7, 5);
        let ours = sys::set_up(&mut table, plan.same());
        let (number, twins) = match Table::new(plan) {
            Ok(table) => (0, table),
            Err(refusal) => (code(refusal), Table::default()),
        };
        assert_eq!(ours, number, "{what:?}");
        assert!(table == twins.same(), "{what:?}: another table");
        tallies[0].add(number);
        let ours = sys::start(&mut record, plan.same(), desk);
        let (number, twins) = match Record::new(plan, desk) {
            Ok(record) => (0, record),
            Err(refusal) => (code(refusal), Record::default()),
        };
        assert_eq!(ours, number, "{what:?}");
        assert!(record == twins.same(), "{what:?}: another record");
        tallies[1].add(number);
    };
    for seed in 0..200_000 {
        let mut rng = Rng::new(seed);
        let plan = gen::setup(&mut rng);
        let desk = match rng.below(4) {
            0 => plan.desks.wrapping_add(rng.below(2)),
            1 => rng.edgy(),
            _ => rng.below(8),
        };
        hold(&plan, desk);
    }
    // Both sides of every edge, and numbers that a narrower type would mistake.
    let edges = [
        0,
        1,
        2,
        7,
        8,
        9,
        31,
        32,
        33,
        255,
        256,
        257,
        264,
        1 << 16,
        1 << 31,
        u32::MAX,
    ];
    for desks in edges {
        for cells in edges {
            for keeper in edges {
                for place in [0, 30, 31] {
                    let mut plan = Plan {
                        desks,
                        cells,
                        keepers: [0; 32],
                    };
                    plan.keepers[place] = keeper;
                    hold(&plan, keeper);
                }
            }
        }
    }
    let [set_up, start] = &tallies;
    set_up.expect("set-up", &[0, 20, 21, 22], 1_000);
    start.expect("start", &[0, 10, 20, 21, 22], 1_000);
}
