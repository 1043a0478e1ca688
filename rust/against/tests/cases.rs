//! The stored cases from outside, through the library itself: frames, and scripts by its table and
//! by its desks.
//!
//! What a script program says by itself has nothing for the library: `too long`, and `bad line` 1
//! and 2. Of a script with a later bad line, the events before it are played.

use against::{Proved, ProvedTable, Same, Tally};
use cwmorlais::sys;
use twin::cases::{self, Script};
use twin::data::{kind, slot};
use twin::eight::{Engine, Part};
use twin::{frame, Event, Message, Plan, Record, Reply};

/// What a script asks of the library, and what it must be told.
struct Play {
    plan: Plan,
    /// 0, or why the set-up is refused.
    code: u32,
    told: Vec<(Event, Reply)>,
}

/// Its answer tells how much of a script is well formed. None where that is too little.
fn play(script: &Script) -> Option<Play> {
    let name = &script.name;
    let answer = std::str::from_utf8(&script.output).expect("an answer is text");
    let mut replies: Vec<&str> = answer.lines().collect();
    let mut lines = script.input.split(|&byte| byte == b'\n');
    let mut next = || -> Vec<u32> { numbers(lines.next().expect("a line")) };
    let mut code = 0;
    match replies.last().copied() {
        Some("too long" | "bad line 1" | "bad line 2") => return None,
        Some(bad) if bad.starts_with("bad line ") => {
            replies.pop();
            assert_eq!(bad, format!("bad line {}", 3 + replies.len()), "{name}");
        }
        Some(number) if !number.contains(' ') => {
            assert_eq!(replies.len(), 1, "{name}");
            code = numbers(number.as_bytes())[0];
            replies.pop();
        }
        _ => {
            let ends = script.input.iter().filter(|&&byte| byte == b'\n').count();
            assert_eq!(ends, 2 + replies.len(), "{name}");
        }
    }
    let counts = next();
    let (desks, cells) = (counts[0], counts[1]);
    let mut plan = Plan {
        desks,
        cells,
        ..Plan::default()
    };
    if (1..=32).contains(&cells) {
        plan.keepers[..cells as usize].copy_from_slice(&next());
    }
    let told = replies.iter().map(|reply| {
        let (event, reply) = (next(), numbers(reply.as_bytes()));
        let event = Event {
            kind: event[0],
            desk: event[1],
            cell: event[2],
            word: event[3],
        };
        (event, Reply::new(reply[0], reply[1], reply[2]))
    });
    let told = told.collect();
    Some(Play { plan, code, told })
}

fn numbers(line: &[u8]) -> Vec<u32> {
    let line = std::str::from_utf8(line).expect("a good line is text");
    let fields = line.split(' ').map(|field| field.parse());
    fields.collect::<Result<_, _>>().expect("numbers")
}

/// All scripts that have something for the library, by name; says how many have nothing.
fn plays() -> Vec<(String, Play)> {
    let scripts = cases::scripts();
    let plays = scripts
        .iter()
        .filter_map(|script| Some((script.name.clone(), play(script)?)));
    let plays: Vec<_> = plays.collect();
    println!("{} of {} scripts", plays.len(), scripts.len());
    assert!(plays.len() >= 100, "only {} scripts", plays.len());
    plays
}

#[test]
fn every_script_by_the_table() {
    let mut tally = Tally::default();
    for (name, play) in plays() {
        tally.add(play.code);
        let mut table = match ProvedTable::set_up(&play.plan) {
            Ok(table) => table,
            Err(code) => {
                assert_eq!(code, play.code, "{name}");
                continue;
            }
        };
        assert_eq!(play.code, 0, "{name}: it was set up");
        for (place, (event, reply)) in play.told.iter().enumerate() {
            assert_eq!(table.event(event), *reply, "{name}: line {}", place + 3);
            tally.add(reply.code);
        }
    }
    let codes = [0, 1, 2, 8, 10, 11, 12, 13, 14, 20, 21, 22];
    tally.expect("scripts by the table", &codes, 2);
}

/// The desks of a tray, with nothing but frames between them.
struct Desks {
    plan: Plan,
    records: Vec<Record>,
    /// What each desk has asked, and then its answer.
    under_way: Vec<Option<Vec<u8>>>,
}

impl Desks {
    fn start(plan: &Plan) -> Result<Desks, u32> {
        // Desk 0 is there in every tray, and tells what is wrong with a plan that is none.
        let records = (0..plan.desks.clamp(1, 8)).map(|desk| Proved::start(plan, desk));
        let records: Vec<Record> = records.collect::<Result<_, _>>()?;
        Ok(Desks {
            plan: *plan,
            under_way: vec![None; records.len()],
            records,
        })
    }

    /// None where no desk is asked: it is not there, or nothing has come to be taken or brought.
    fn event(&mut self, event: &Event) -> Option<Reply> {
        let desk = event.desk as usize;
        let frame = self.under_way.get(desk)?.as_ref();
        let message = frame.map(|frame| Proved::read(frame).expect("a desk's own frame").0);
        let is_request = message.is_some_and(|message| message.kind <= slot::WRITE_ASKED);
        let (reply, sent) = match (event.kind, message) {
            (kind::TAKE, Some(request)) if is_request => {
                let keeper = self.plan.keepers[usize::from(request.cell)];
                Proved::serve(&mut self.records[keeper as usize], &request)
            }
            (kind::BRING, Some(answer)) if !is_request => {
                self.under_way[desk] = None;
                let reply = Proved::bring(&mut self.records[desk], &answer);
                (reply, Message::ZERO)
            }
            (kind::TAKE | kind::BRING, _) => return None,
            _ => Proved::event(&mut self.records[desk], event),
        };
        if sent != Message::ZERO {
            let mut bytes = vec![0; frame::LONGEST];
            let used = Proved::write(&sent, &mut bytes).expect("a desk's own message");
            bytes.truncate(used);
            self.under_way[desk] = Some(bytes);
        }
        Some(reply)
    }
}

#[test]
fn every_script_by_the_desks() {
    let (mut tally, mut not_asked) = (Tally::default(), Tally::default());
    for (name, play) in plays() {
        tally.add(play.code);
        let mut desks = match Desks::start(&play.plan) {
            Ok(desks) => desks,
            Err(code) => {
                assert_eq!(code, play.code, "{name}");
                continue;
            }
        };
        assert_eq!(play.code, 0, "{name}: they were started");
        for (place, (event, reply)) in play.told.iter().enumerate() {
            match desks.event(event) {
                Some(given) => {
                    assert_eq!(given, *reply, "{name}: line {}", place + 3);
                    tally.add(reply.code);
                }
                None => not_asked.add(reply.code),
            }
        }
    }
    let codes = [0, 1, 2, 8, 11, 12, 14, 20, 21, 22];
    tally.expect("scripts by the desks", &codes, 2);
    not_asked.expect("and no desk is asked", &[8, 10, 13], 2);
}

#[test]
fn every_frame_vector() {
    let (reads, writes) = cases::hold_frames(
        |bytes| {
            let sys::Reading {
                code,
                message,
                used,
            } = sys::frame_read(bytes);
            (code, message.same(), used)
        },
        |message, out| {
            let sys::Written { code, used } = sys::frame_write(&message.same(), out);
            (code, used)
        },
    );
    let (mut read, mut written) = (Tally::default(), Tally::default());
    reads.into_iter().for_each(|code| read.add(code));
    writes.into_iter().for_each(|code| written.add(code));
    read.expect("frames read", &[0, 30, 31, 32, 33, 34, 35, 36], 5);
    written.expect("frames written", &[0, 32, 33, 34, 35, 37, 38], 5);
}
