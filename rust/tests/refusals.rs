//! Soundness and refusals, held against the requirements told line by line; and the table held
//! against the ghost and against the desks' parts.

use twin::data::kind;
use twin::gen::{self, lent, Mood, Poke, Rng, BREAKS};
use twin::ghost::Ghost;
use twin::{Cell, Clock, Event, Message, Place, Plan, Record, Reply, Row, Slot, Table};

/// A sound table, clause by clause.
fn is_sound(table: &Table) -> bool {
    let (desks, cells) = (table.tray.desks as usize, table.tray.cells as usize);
    let counts_in_range = (1..=8).contains(&desks) && (1..=32).contains(&cells);
    if !counts_in_range {
        return false;
    }
    let no_numbers_past = |clock: &Clock| clock.n[desks..] == [0; 8][desks..];
    let keeper = |cell: usize| table.tray.places[cell].keeper as usize;
    let keepers_are_desks = (0..cells).all(|cell| keeper(cell) < desks);
    keepers_are_desks
        && (cells..32).all(|cell| table.tray.places[cell] == Place::default())
        && (0..cells).all(|cell| table.rows[keeper(cell)].cells[cell].held)
        && (desks..8).all(|desk| table.rows[desk] == Row::default())
        && (0..desks).all(|desk| {
            let row = &table.rows[desk];
            no_numbers_past(&row.clock)
                && no_numbers_past(&row.slot.clock)
                && row.cells.iter().all(|cell| no_numbers_past(&cell.stamp))
                && row
                    .cells
                    .iter()
                    .all(|cell| cell.held || *cell == Cell::default())
                && row
                    .cells
                    .iter()
                    .all(|cell| !is_blank_with_a_word(cell.word, &cell.stamp))
                && (cells..32).all(|cell| row.cells[cell] == Cell::default())
                && (row.slot.kind != 0 || !row.served)
                && has_sound_slot(table, desk)
        })
}

fn is_blank_with_a_word(word: u32, stamp: &Clock) -> bool {
    stamp.n == [0; 8] && word != 0
}

fn has_sound_slot(table: &Table, desk: usize) -> bool {
    let Slot {
        kind,
        cell,
        word,
        clock,
    } = table.rows[desk].slot;
    let names_a_cell =
        cell < table.tray.cells && table.tray.places[cell as usize].keeper as usize != desk;
    match kind {
        0 => cell == 0 && word == 0 && clock == Clock::ZERO,
        1 => names_a_cell && word == 0 && clock == Clock::ZERO,
        2 => names_a_cell && clock != Clock::ZERO,
        3 | 4 => names_a_cell && !is_blank_with_a_word(word, &clock),
        _ => false,
    }
}

/// A sound record: its row in a table where the other keepers hold their cells.
fn is_sound_record(record: &Record) -> bool {
    let mut table = Table {
        tray: record.tray,
        ..Table::default()
    };
    for cell in 0..32.min(record.tray.cells as usize) {
        if let Some(row) = table.rows.get_mut(record.tray.places[cell].keeper as usize) {
            row.cells[cell].held = true;
        }
    }
    let Some(row) = table.rows.get_mut(record.desk as usize) else {
        return false;
    };
    *row = record.row;
    record.desk < record.tray.desks && record.row.slot.kind <= 2 && is_sound(&table)
}

/// The first line of the list of refusals that applies to a table, or 0.
fn refusal(table: &Table, event: &Event) -> u32 {
    if !is_sound(table) {
        return 9;
    }
    let on_a_cell = matches!(event.kind, 1 | 2 | 5);
    let row = table.rows.get(event.desk as usize);
    let slot = row.map_or(0, |row| row.slot.kind);
    let place = table.tray.places.get(event.cell as usize);
    let own = row.and_then(|row| row.clock.n.get(event.desk as usize));
    let lines = [
        (8, !(1..=5).contains(&event.kind)),
        (10, event.desk >= table.tray.desks.into()),
        (11, on_a_cell && event.cell >= table.tray.cells.into()),
        (12, on_a_cell && slot != 0),
        (
            13,
            event.kind == 3 && slot != 1 && slot != 2 || event.kind == 4 && slot != 3 && slot != 4,
        ),
        (
            14,
            event.kind == 5 && place.is_some_and(|p| u32::from(p.keeper) == event.desk),
        ),
        (16, event.kind == 2 && own == Some(&u32::MAX)),
    ];
    lines
        .iter()
        .find(|(_, applies)| *applies)
        .map_or(0, |&(number, _)| number)
}

/// The same for a desk's part: its events, whatever desk they name.
fn part_refusal(record: &Record, event: &Event) -> u32 {
    if !is_sound_record(record) {
        return 9;
    }
    let place = record.tray.places.get(event.cell as usize);
    let kept = place.is_some_and(|place| place.keeper == record.desk);
    let lines = [
        (8, ![1, 2, 5].contains(&event.kind)),
        (11, event.cell >= record.tray.cells.into()),
        (12, record.row.slot.kind != 0),
        (14, event.kind == 5 && kept),
        (
            16,
            event.kind == 2 && record.row.clock.n[record.desk as usize] == u32::MAX,
        ),
    ];
    lines
        .iter()
        .find(|(_, applies)| *applies)
        .map_or(0, |&(number, _)| number)
}

fn fits(record: &Record, message: &Message) -> bool {
    let past = (record.tray.desks as usize).min(8);
    message.desks == record.tray.desks && message.clock.n[past..].iter().all(|&n| n == 0)
}

/// What it says was written has a clock that says so. A read asked says nothing of the kind.
fn is_stamped(message: &Message) -> bool {
    match message.kind {
        2 => message.clock != Clock::ZERO,
        3 | 4 => !is_blank_with_a_word(message.word, &message.clock),
        _ => true,
    }
}

fn serve_refusal(record: &Record, message: &Message) -> u32 {
    if !is_sound_record(record) {
        return 9;
    }
    let is_request = message.kind == 1 || message.kind == 2;
    let by_another = message.desk < record.tray.desks && message.desk != record.desk;
    let kept_here = message.cell < record.tray.cells
        && record.tray.places[message.cell as usize].keeper == record.desk;
    if fits(record, message) && is_request && by_another && kept_here && is_stamped(message) {
        0
    } else {
        15
    }
}

fn bring_refusal(record: &Record, message: &Message) -> u32 {
    if !is_sound_record(record) {
        return 9;
    }
    let asked = &record.row.slot;
    if asked.kind == 0 {
        return 13;
    }
    let as_asked = message.desk == record.desk
        && message.cell == asked.cell
        && (message.kind, asked.kind) != (0, 0)
        && ((message.kind == 3 && asked.kind == 1) || (message.kind == 4 && asked.kind == 2));
    if fits(record, message) && as_asked && is_stamped(message) {
        0
    } else {
        15
    }
}

/// How often each number was given.
struct Tally([u64; 17]);

impl Tally {
    fn new() -> Tally {
        Tally([0; 17])
    }

    /// Codes 0 to 2 count as accepted.
    fn add(&mut self, code: u32) {
        self.0[if code <= 2 { 0 } else { code as usize }] += 1;
    }

    fn expect(&self, what: &str, numbers: &[usize]) {
        println!(
            "{what}: {} in all, by number {:?}",
            self.0.iter().sum::<u64>(),
            self.0
        );
        for &number in numbers {
            assert!(
                self.0[number] >= 100,
                "{what}: {number} only {} times",
                self.0[number]
            );
        }
    }
}

/// A sound table, or one with a field or two changed.
fn any_table(rng: &mut Rng) -> Table {
    let mut table = gen::table(rng);
    for _ in 0..rng.below(6).saturating_sub(3) {
        gen::scramble(rng, &mut table);
    }
    table
}

#[test]
fn every_event_is_refused_by_the_first_line_that_applies() {
    let mut tally = Tally::new();
    for seed in 0..100_000 {
        let mut rng = Rng::new(seed);
        let given = any_table(&mut rng);
        for _ in 0..4 {
            let event = gen::wild_event(&mut rng, &given.tray);
            let mut table = given;
            let reply = table.event(&event);
            let number = refusal(&given, &event);
            tally.add(reply.code);
            if number == 0 {
                assert!(reply.code <= 2, "seed {seed}: {reply:?} to {event:?}");
                assert!(is_sound(&table), "seed {seed}: not sound after {event:?}");
            } else {
                assert_eq!(
                    (reply.code, reply.value, reply.count),
                    (number, 0, 0),
                    "seed {seed}"
                );
                assert!(table == given, "seed {seed}: a refusal changed the table");
            }
        }
    }
    tally.expect("table events", &[0, 8, 9, 10, 11, 12, 13, 14, 16]);
}

#[test]
fn every_desks_part_refuses_by_the_first_line_that_applies() {
    let (mut events, mut serves, mut brings) = (Tally::new(), Tally::new(), Tally::new());
    // What is refused for its clock of zeros alone: served, and brought.
    let mut unstamped = [0; 2];
    for seed in 0..150_000 {
        let (given, event, message) = gen::given(seed);
        let with_a_clock = Message {
            clock: given.row.clock,
            ..message
        };
        if !is_stamped(&message) && is_stamped(&with_a_clock) {
            for (refusal, count) in [serve_refusal, bring_refusal].iter().zip(&mut unstamped) {
                let only_that = (refusal(&given, &message), refusal(&given, &with_a_clock));
                *count += i32::from(only_that == (15, 0));
            }
        }
        // What is refused, and the code that comes with a message.
        let hold = |tally: &mut Tally, number, sends, step: &dyn Fn(&mut Record) -> _| {
            let mut record = given;
            let (reply, sent): (Reply, Message) = step(&mut record);
            tally.add(reply.code);
            check_part(seed, number, reply.code, &given, &record);
            let is_sent = sends == Some(reply.code);
            assert_eq!(sent != Message::ZERO, is_sent, "seed {seed}");
        };
        let number = part_refusal(&given, &event);
        hold(&mut events, number, Some(1), &|record| record.event(&event));
        let number = serve_refusal(&given, &message);
        hold(&mut serves, number, Some(0), &|record| {
            record.serve(&message)
        });
        let number = bring_refusal(&given, &message);
        hold(&mut brings, number, None, &|record| {
            (record.bring(&message), Message::ZERO)
        });
    }
    events.expect("a part's events", &[0, 8, 9, 11, 12, 14, 16]);
    serves.expect("serve", &[0, 9, 15]);
    brings.expect("bring", &[0, 9, 13, 15]);
    println!("refused for a clock of zeros alone: {unstamped:?}");
    assert!(unstamped.iter().all(|&count| count >= 100), "{unstamped:?}");
}

fn check_part(seed: u64, number: u32, code: u32, given: &Record, after: &Record) {
    if number == 0 {
        assert!(code <= 2 && is_sound_record(after), "seed {seed}: {code}");
    } else {
        assert_eq!(code, number, "seed {seed}");
        assert!(after == given, "seed {seed}: a refusal changed the record");
    }
}

#[test]
fn every_break_is_seen_and_refused() {
    let mut counts = vec![0; BREAKS.len()];
    for seed in 0..3_000 {
        for (&(name, broken), count) in BREAKS.iter().zip(&mut counts) {
            let mut rng = Rng::new(seed);
            let mut table = gen::table(&mut rng);
            assert!(table.is_sound() && is_sound(&table), "seed {seed}");
            if broken(&mut rng, &mut table) {
                assert!(
                    !table.is_sound() && !is_sound(&table),
                    "seed {seed}: {name}"
                );
                let given = table;
                let event = gen::wild_event(&mut rng, &given.tray);
                assert_eq!(table.event(&event).code, 9, "seed {seed}: {name}");
                assert!(table == given, "seed {seed}: {name}");
                *count += 1;
            }
        }
        let mut rng = Rng::new(seed);
        let mut record = gen::record(&mut rng);
        assert!(record.is_sound() && is_sound_record(&record), "seed {seed}");
        let name = gen::break_record(&mut rng, &mut record);
        assert!(
            !record.is_sound() && !is_sound_record(&record),
            "seed {seed}: {name}"
        );
    }
    for ((name, _), &count) in BREAKS.iter().zip(&counts) {
        assert!(count >= 100, "{name}: only {count} times");
    }
    println!(
        "{} ways to break a table, {} times",
        BREAKS.len(),
        counts.iter().sum::<i32>()
    );
}

#[test]
fn every_single_field_matters_as_the_list_says() {
    let mut tally = [0; 2];
    for seed in 0..30 {
        let mut rng = Rng::new(seed);
        let given = gen::table(&mut rng);
        let desk = rng.below(8) as u8;
        for field in 0..Table::FIELDS {
            for value in [0, 1, 5, 1 + rng.below(40), rng.edgy()] {
                let mut table = given;
                table.poke(field, value);
                let sound = is_sound(&table);
                assert_eq!(
                    table.is_sound(),
                    sound,
                    "seed {seed}: field {field} is {value}"
                );
                let record = table.record(desk);
                let sound_record = is_sound_record(&record);
                assert_eq!(
                    record.is_sound(),
                    sound_record,
                    "seed {seed}: field {field}"
                );
                tally[usize::from(sound)] += 1;
            }
        }
    }
    println!("fields changed: {} not sound, {} sound", tally[0], tally[1]);
    assert!(tally[0] > 100_000 && tally[1] > 100_000, "{tally:?}");
}

#[test]
fn from_any_sound_table_the_ghost_does_the_same() {
    let mut counts = [0; 6];
    for seed in 0..60_000 {
        let mut rng = Rng::new(seed);
        let mut table = gen::table(&mut rng);
        let mut ghost = Ghost::amid(&table);
        assert!(ghost.agrees(&table), "seed {seed}");
        let mood = Mood::new(&mut rng);
        for _ in 0..6 {
            let event = mood.event_at(&mut rng, &table);
            let reply = table.event(&event);
            assert_eq!(reply, ghost.event(&event), "seed {seed}: {event:?}");
            assert!(ghost.agrees(&table), "seed {seed}: after {event:?}");
            counts[if reply.code <= 2 {
                event.kind as usize
            } else {
                0
            }] += 1;
        }
    }
    println!("events from any sound table, refused and by kind: {counts:?}");
    assert!(counts.iter().all(|&count| count > 1_000), "{counts:?}");
}

/// Takes a desk's request to its keeper's part, and back to the desk, as records.
#[test]
fn the_tables_take_and_bring_are_the_desks_serve_and_bring() {
    let mut counts = [0; 6];
    for seed in 0..60_000 {
        let mut rng = Rng::new(seed);
        let mut table = gen::table(&mut rng);
        let mood = Mood::new(&mut rng);
        for _ in 0..4 {
            let event = mood.event_at(&mut rng, &table);
            let before = table;
            let reply = table.event(&event);
            if reply.code > 2 {
                continue;
            }
            counts[event.kind as usize] += 1;
            let desk = event.desk as u8;
            let slot = before.rows[desk as usize].slot;
            let message = Message {
                kind: slot.kind,
                desks: before.tray.desks,
                desk,
                cell: slot.cell,
                word: slot.word,
                clock: slot.clock,
            };
            let (actor, replied) = match event.kind {
                kind::TAKE => {
                    let place = &before.tray.places[slot.cell as usize];
                    let mut keeper = lent(&before, place.keeper);
                    let (replied, answer) = keeper.serve(&message);
                    let now = table.rows[desk as usize].slot;
                    let sent = (answer.kind, answer.cell, answer.word, answer.clock);
                    assert_eq!(
                        sent,
                        (now.kind, now.cell, now.word, now.clock),
                        "seed {seed}"
                    );
                    assert_eq!((answer.desks, answer.desk), (message.desks, desk));
                    (keeper, replied)
                }
                kind::BRING => {
                    let mut asker = lent(&before, desk);
                    let replied = asker.bring(&message);
                    (asker, replied)
                }
                _ => {
                    let mut own = lent(&before, desk);
                    let other = rng.bits() as u32;
                    let (replied, request) = own.event(&Event {
                        desk: other,
                        ..event
                    });
                    let now = table.rows[desk as usize].slot;
                    let sent = (request.kind, request.cell, request.word, request.clock);
                    assert_eq!(
                        sent,
                        (now.kind, now.cell, now.word, now.clock),
                        "seed {seed}"
                    );
                    (own, replied)
                }
            };
            assert_eq!(reply, replied, "seed {seed}: {event:?}");
            assert_eq!(actor, lent(&table, actor.desk), "seed {seed}: {event:?}");
            // Nobody else is touched, but for the asker's slot.
            for other in (0..8).filter(|&other| other != actor.desk as usize) {
                let mut row = before.rows[other];
                if event.kind == kind::TAKE && other == desk as usize {
                    row.slot = table.rows[other].slot;
                }
                assert!(
                    row == table.rows[other],
                    "seed {seed}: {event:?} touched desk {other}"
                );
            }
            assert_eq!(before.tray, table.tray, "seed {seed}");
        }
    }
    println!("events by kind, table against parts: {:?}", &counts[1..]);
    assert!(counts[1..].iter().all(|&count| count > 1_000), "{counts:?}");
}

#[test]
fn set_up_refuses_in_order() {
    let mut tally = [0; 4];
    for seed in 0..40_000 {
        let mut rng = Rng::new(seed);
        let plan = gen::setup(&mut rng);
        let Plan {
            desks,
            cells,
            keepers,
        } = plan;
        let number = if !(1..=8).contains(&desks) {
            20
        } else if !(1..=32).contains(&cells) {
            21
        } else if keepers[..cells as usize]
            .iter()
            .any(|&keeper| keeper >= desks)
        {
            22
        } else {
            0
        };
        match Table::new(&plan) {
            Ok(table) => {
                assert_eq!(number, 0, "seed {seed}");
                assert!(is_sound(&table), "seed {seed}");
                for desk in 0..desks {
                    let record = Record::new(&plan, desk);
                    assert_eq!(record, Ok(table.record(desk as u8)), "seed {seed}");
                }
                let no_desk = Record::new(&plan, desks);
                assert_eq!(
                    no_desk.map_err(|refusal| refusal as u32),
                    Err(10),
                    "seed {seed}"
                );
            }
            Err(refusal) => {
                assert_eq!(refusal as u32, number, "seed {seed}");
                let record = Record::new(&plan, u32::MAX);
                assert_eq!(record, Err(refusal), "seed {seed}");
            }
        }
        tally[if number == 0 { 0 } else { number as usize - 19 }] += 1;
    }
    println!("set-ups: {tally:?}");
    assert!(tally.iter().all(|&count| count > 300), "{tally:?}");
}
