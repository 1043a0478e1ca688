//! The safe module, which no proof is about: desks that have nothing but each other's frames,
//! and the typed table, do and tell what the twin's table does.

use against::{Same, Tally};
use cwmorlais::{
    sys, Brought, Desk, Done, Frame, Plan, Read, Received, Refusal, Served, Told, Write,
};
use twin::data::{kind, slot};
use twin::gen::{self, good_setup, Mood, Rng};
use twin::{Event, Record, Reply, Table};

/// What a typed result says, as the requirements' three numbers; and the frame to send.
struct Said {
    reply: (u32, u32, u32),
    send: Option<Frame>,
}

fn said(code: u32, value: u32, count: u32, send: Option<Frame>) -> Said {
    Said {
        reply: (code, value, count),
        send,
    }
}

fn refused(refusal: Refusal) -> Said {
    said(refusal.number(), 0, 0, None)
}

fn act(desk: &mut Desk, event: &Event) -> Result<Said, Refusal> {
    Ok(match event.kind {
        kind::READ => match desk.read(event.cell)? {
            Read::Shown(word) => said(0, word, 0, None),
            Read::Blank => said(2, 0, 0, None),
            Read::Asked(frame) => said(1, 0, 0, Some(frame)),
        },
        kind::WRITE => match desk.write(event.cell, event.word)? {
            Write::Stored => said(0, event.word, 0, None),
            Write::Asked(frame) => said(1, 0, 0, Some(frame)),
        },
        _ => said(0, 0, desk.drop_copy(event.cell)?.into(), None),
    })
}

fn served(Served { answer, dropped }: Served) -> Said {
    said(0, 0, dropped, Some(answer))
}

fn brought(Brought { told, dropped }: Brought) -> Said {
    match told {
        Told::Shown(word) | Told::Stored(word) => said(0, word, dropped, None),
        Told::Blank => said(2, 0, dropped, None),
    }
}

#[test]
fn desks_and_their_frames_do_what_the_table_does() {
    let (mut counts, mut refusals) = ([0; 6], 0);
    for seed in 0..8_000 {
        let mut rng = Rng::new(seed);
        let plan = good_setup(&mut rng, 1);
        let desks = plan.desks;
        let mut table = Table::new(&plan).expect("a good set-up");
        let start = |desk| Desk::start(&plan.same(), desk).expect("a good set-up");
        let mut desk: Vec<Desk> = (0..desks).map(start).collect();
        let mut under_way: Vec<Option<Frame>> = vec![None; desks as usize];
        let mood = Mood::new(&mut rng);
        for _ in 0..60 {
            let event = mood.event_at(&mut rng, &table);
            if event.desk >= desks || !(1..=5).contains(&event.kind) {
                continue; // no such desk, no such method
            }
            let before = table;
            let asker = event.desk as usize;
            let slot = before.rows[asker].slot;
            let frame = under_way[asker];
            let way = rng.below(2);
            let done = match (event.kind, frame) {
                (kind::TAKE, Some(request)) if slot.is_asked() => {
                    let keeper = &mut desk[request.to() as usize];
                    match way {
                        0 => keeper.serve(request.as_bytes()).map(served),
                        _ => keeper.receive(request.as_bytes()).map(|done| match done {
                            Received::Served(done) => served(done),
                            Received::Brought(done) => panic!("{done:?}"),
                        }),
                    }
                }
                (kind::BRING, Some(answer)) if slot.is_answered() => {
                    assert_eq!(answer.to(), event.desk, "seed {seed}");
                    let asker = &mut desk[asker];
                    match way {
                        0 => asker.bring(answer.as_bytes()).map(brought),
                        _ => asker.receive(answer.as_bytes()).map(|done| match done {
                            Received::Brought(done) => brought(done),
                            Received::Served(done) => panic!("{done:?}"),
                        }),
                    }
                }
                (kind::TAKE | kind::BRING, _) => Err(Refusal::Nothing),
                _ => act(&mut desk[asker], &event),
            };
            let Said { reply, send } = done.unwrap_or_else(refused);
            let Reply { code, value, count } = table.event(&event);
            assert_eq!(reply, (code, value, count), "seed {seed}: {event:?}");
            if code > 2 {
                refusals += 1;
                continue;
            }
            counts[event.kind as usize] += 1;
            if matches!(event.kind, kind::TAKE | kind::BRING) || send.is_some() {
                under_way[asker] = send;
            }
            for (desk, number) in desk.iter().zip(0..) {
                let record: Record = desk.record().same();
                let mut expected = table.record(number);
                let slot = &mut expected.row.slot;
                assert_eq!(desk.waits(), slot.kind != slot::EMPTY);
                assert_eq!(desk.number(), u32::from(number));
                if slot.is_answered() {
                    *slot = record.row.slot; // still asked there
                }
                assert!(
                    record == expected,
                    "seed {seed}: desk {number} after {event:?}"
                );
            }
        }
    }
    println!("by kind {:?}, refused {refusals}", &counts[1..]);
    assert!(counts[1..].iter().all(|&count| count > 5_000) && refusals > 5_000);
}

/// Whatever bytes arrive, a desk is as it was unless it accepts them.
#[test]
fn desks_that_get_any_bytes() {
    let mut tally = Tally::default();
    for seed in 0..100_000 {
        let mut rng = Rng::new(seed);
        let plan = good_setup(&mut rng, 2);
        let number = rng.below(plan.desks);
        let mut desk = Desk::start(&plan.same(), number).expect("a good set-up");
        // Half of them wait.
        let _ = desk.read(rng.below(plan.cells));
        let given: Record = desk.record().same();
        let bytes = if rng.one_in(2) {
            gen::damaged_frame(&mut rng)
        } else {
            let mut bytes = vec![0; 43];
            let message = gen::message_for(&mut rng, &given);
            match twin::frame::write(&message, &mut bytes) {
                Ok(used) => bytes.truncate(used),
                Err(_) => continue,
            }
            bytes
        };
        let mut twins = given;
        let read = || twin::frame::read(&bytes);
        let is_serve = rng.one_in(2);
        let (code, expected) = if is_serve {
            let code = desk.serve(&bytes).map_or_else(Refusal::number, |_| 0);
            (code, read().map(|(message, _)| twins.serve(&message).0))
        } else {
            let done = desk.bring(&bytes);
            let code = done.map_or_else(Refusal::number, |done| brought(done).reply.0);
            (code, read().map(|(message, _)| twins.bring(&message)))
        };
        let expected = expected.map_or_else(|refusal| refusal as u32, |reply| reply.code);
        assert_eq!(code, expected, "seed {seed}: {bytes:02x?}");
        assert!(*desk.record() == twins.same(), "seed {seed}");
        tally.add(code);
    }
    let codes = [0, 2, 13, 15, 30, 31, 32, 33, 34, 35, 36];
    tally.expect("bytes", &codes, 50);
}

#[test]
fn the_typed_table_says_what_the_twins_table_says() {
    let mut tally = Tally::default();
    for seed in 0..8_000 {
        let mut rng = Rng::new(seed);
        let plan = good_setup(&mut rng, 1);
        let mut twins = Table::new(&plan).expect("a good set-up");
        let ours = cwmorlais::Table::set_up(&plan.same());
        let mut ours = ours.expect("a good set-up");
        let mood = Mood::new(&mut rng);
        for _ in 0..30 {
            let event = mood.event_at(&mut rng, &twins);
            let Event {
                kind,
                desk,
                cell,
                word,
            } = event;
            let typed = match kind {
                kind::READ => cwmorlais::Event::Read { desk, cell },
                kind::WRITE => cwmorlais::Event::Write { desk, cell, word },
                kind::TAKE => cwmorlais::Event::Take { desk },
                kind::BRING => cwmorlais::Event::Bring { desk },
                kind::DROP => cwmorlais::Event::Drop { desk, cell },
                _ => continue, // has no type
            };
            let reply = match ours.event(typed) {
                Ok(Done::Done { value, dropped }) => Reply::new(0, value, dropped),
                Ok(Done::Asked) => Reply::new(1, 0, 0),
                Ok(Done::Blank { dropped }) => Reply::new(2, 0, dropped),
                Err(refusal) => Reply::new(refusal.number(), 0, 0),
            };
            assert_eq!(reply, twins.event(&event), "seed {seed}: {event:?}");
            tally.add(reply.code);
        }
        assert!(*ours.table() == twins.same(), "seed {seed}");
    }
    tally.expect("typed events", &[0, 1, 2, 10, 11, 12, 13, 14], 500);
}

/// Any keepers make a plan, and set-up says what is wrong with it.
#[test]
fn plans_of_any_keepers() {
    let code = |desks, keepers: &[u32]| {
        let plan = Plan::new(desks, keepers);
        assert_eq!((plan.desks, plan.cells as usize), (desks, keepers.len()));
        let kept = keepers.len().min(32);
        assert_eq!(plan.keepers[..kept], keepers[..kept]);
        assert_eq!(plan.keepers[kept..], [0; 32][kept..]);
        let set_up = cwmorlais::Table::set_up(&plan).map_or_else(Refusal::number, |_| 0);
        let start = Desk::start(&plan, 0).map_or_else(Refusal::number, |_| 0);
        assert_eq!(set_up, start, "{plan:?}");
        set_up
    };
    let counts = [0, 1, 31, 32, 33, 256, 288];
    assert_eq!(
        counts.map(|count| code(2, &vec![1; count])),
        [21, 0, 0, 0, 21, 21, 21]
    );
    assert_eq!(counts.map(|count| code(9, &vec![9; count])), [20; 7]);
    assert_eq!([code(2, &[1, 2]), code(2, &[2; 33])], [22, 21]);
    let plan = Plan::new(2, &[1]);
    assert_eq!(Desk::start(&plan, 2), Err(Refusal::Desk));
}

#[test]
fn every_refusal_has_its_number_and_says_it() {
    let numbers: Vec<u32> = (8..=16).chain(20..=22).chain(30..=38).collect();
    assert_eq!(Refusal::ALL.map(Refusal::number).to_vec(), numbers);
    for number in 0..100 {
        let refusal = Refusal::of(number);
        assert_eq!(refusal.is_some(), numbers.contains(&number));
        if let Some(refusal) = refusal {
            assert_eq!(refusal.number(), number);
            let text = refusal.to_string();
            assert!(text.ends_with(&format!("(refusal {number})")), "{text}");
        }
    }
    let error: Box<dyn std::error::Error> = Box::new(Refusal::Waits);
    assert_eq!(
        error.to_string(),
        "the desk waits for an answer (refusal 12)"
    );
    // The hidden way to a record that no desk has: the functions refuse it.
    let mut record = sys::Record::default();
    let reply = sys::desk_event(&mut record, sys::Event::default()).reply;
    assert_eq!(Refusal::of(reply.code), Some(Refusal::Unsound));
}
