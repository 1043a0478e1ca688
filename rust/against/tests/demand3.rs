//! Demand 3 on what the proved table replies. No two writes of a run have the same word, so that the
//! replies alone tell which write each read came from, or by code 2 that it came from none; no
//! engine is asked. One of the words is 0.

use std::collections::HashMap;

use against::ProvedTable;
use twin::data::{code, kind};
use twin::eight::Engine;
use twin::gen::{good_setup, Mood, Rng};
use twin::ghost::{Ghost, Shortcut};
use twin::history::{Broken, Causal, Does, Operation};
use twin::{Event, Plan, Reply, Table};

/// The finished reads and taken writes of a run, from its events and replies.
#[derive(Default)]
struct Witness {
    history: Vec<Operation>,
    /// What each desk has asked and not been answered: the cell, and the word of a write.
    asked: [Option<(u8, Option<u32>)>; 8],
    /// Where in the history each word was written.
    writes: HashMap<u32, usize>,
}

impl Witness {
    fn sees(&mut self, event: &Event, reply: &Reply) {
        if reply.code > code::BLANK {
            return;
        }
        let (desk, cell) = (event.desk as u8, event.cell as u8);
        let word = (event.kind == kind::WRITE).then_some(event.word);
        let asked = self.asked[usize::from(desk)];
        match (event.kind, reply.code, asked) {
            (kind::READ | kind::WRITE, code::ASKED, None) => {
                self.asked[usize::from(desk)] = Some((cell, word));
            }
            (kind::READ, _, None) => self.read(desk, cell, reply),
            (kind::WRITE, code::DONE, None) => self.write(desk, cell, event.word),
            (kind::TAKE, code::DONE, Some((cell, Some(word)))) => self.write(desk, cell, word),
            (kind::TAKE, code::DONE, Some((_, None))) | (kind::DROP, code::DONE, None) => {}
            (kind::BRING, code::DONE | code::BLANK, Some((cell, None))) => {
                self.asked[usize::from(desk)] = None;
                self.read(desk, cell, reply);
            }
            (kind::BRING, code::DONE, Some((_, Some(word)))) if word == reply.value => {
                self.asked[usize::from(desk)] = None;
            }
            _ => panic!("{reply:?} to {event:?} where {asked:?} is asked"),
        }
    }

    fn write(&mut self, desk: u8, cell: u8, word: u32) {
        self.writes.insert(word, self.history.len());
        self.add(desk, cell, word, Does::Write);
    }

    /// A word that nobody wrote has a source that is not there, and that is noticed; so is a blank
    /// that has a word.
    fn read(&mut self, desk: u8, cell: u8, reply: &Reply) {
        let written = || self.writes.get(&reply.value).copied();
        let from = match reply.code {
            code::BLANK => None,
            _ => Some(written().unwrap_or(usize::MAX)),
        };
        self.add(desk, cell, reply.value, Does::Read(from));
    }

    fn add(&mut self, desk: u8, cell: u8, word: u32, does: Does) {
        self.history.push(Operation {
            desk,
            cell,
            word,
            does,
        });
    }

    /// Whether every desk has its line-up.
    fn holds(&self) -> Result<(), Broken> {
        let causal = Causal::of(&self.history)?;
        (0..8).try_for_each(|desk| causal.line_up(desk).map(|_| ()))
    }
}

/// A run's set-up and events, where the twin's table tells who waits.
fn events(seed: u64) -> (Plan, Vec<Event>) {
    let mut rng = Rng::new(seed);
    let mut plan = good_setup(&mut rng, 2);
    plan.cells = 2 + rng.below(5);
    let mut table = Table::new(&plan).expect("a good set-up");
    let mood = Mood::new(&mut rng);
    // Words count up from shortly before the last number there is, and go on from 0.
    let mut word = 0_u32.wrapping_sub(rng.below(40));
    let events = (0..300).map(|_| {
        let event = Event {
            word,
            ..mood.event_at(&mut rng, &table)
        };
        word = word.wrapping_add(u32::from(event.kind == kind::WRITE));
        table.event(&event);
        event
    });
    let events = events.collect();
    (plan, events)
}

#[test]
fn every_run_of_the_proved_table_has_its_line_ups() {
    let (mut operations, mut shown, mut zeros, mut blank) = (0, 0, 0, 0);
    let runs = 2_000;
    for seed in 0..runs {
        let (plan, events) = events(seed);
        let mut ours = ProvedTable::set_up(&plan).expect("a good set-up");
        let mut witness = Witness::default();
        for event in &events {
            witness.sees(event, &ours.event(event));
        }
        let held = witness.holds();
        assert_eq!(held, Ok(()), "seed {seed}");
        operations += witness.history.len();
        for done in &witness.history {
            match done.does {
                Does::Write => {}
                Does::Read(None) => blank += 1,
                Does::Read(Some(_)) if done.word == 0 => zeros += 1,
                Does::Read(Some(_)) => shown += 1,
            }
        }
    }
    println!(
        "{runs} runs, {operations} operations, {shown} words shown, {zeros} times 0, {blank} blanks"
    );
    assert!(operations > 100_000 && shown > 20_000 && zeros > 1_000 && blank > 5_000);
}

/// The same events and the same witness, where the rules are cut short: it is noticed.
#[test]
fn the_witness_is_not_blind() {
    for (shortcut, least) in [
        (None, 0),
        (Some(Shortcut::KeepServed), 3),
        (Some(Shortcut::DropNothing), 3),
        (Some(Shortcut::LeaveOld), 3),
    ] {
        let mut broken = 0;
        for seed in 0..600 {
            let (plan, events) = events(seed);
            let table = Table::new(&plan).expect("a good set-up");
            let mut ghost = Ghost::new(&table.tray, shortcut);
            let mut witness = Witness::default();
            for event in &events {
                witness.sees(event, &ghost.event(event));
            }
            // What the witness gathers is what the ghosts know.
            assert_eq!(witness.history, ghost.history(), "seed {seed}");
            broken += usize::from(witness.holds().is_err());
        }
        println!("{shortcut:?}: {broken} of 600 runs noticed");
        assert!(
            broken >= least && (shortcut.is_some() || broken == 0),
            "{shortcut:?}"
        );
    }
}

/// A 0 that was written, told as blank: it is noticed where the desk knows better.
#[test]
fn a_written_0_is_not_taken_for_blank() {
    let mut broken = 0;
    for seed in 0..600 {
        let (plan, events) = events(seed);
        let mut table = Table::new(&plan).expect("a good set-up");
        let mut witness = Witness::default();
        for event in &events {
            let asked = witness.asked.get(event.desk as usize).copied().flatten();
            let is_read = match event.kind {
                kind::READ => true,
                kind::BRING => matches!(asked, Some((_, None))),
                _ => false,
            };
            let mut reply = table.event(event);
            if is_read && (reply.code, reply.value) == (code::DONE, 0) {
                reply.code = code::BLANK;
            }
            witness.sees(event, &reply);
        }
        broken += usize::from(witness.holds().is_err());
    }
    println!("a written 0 as blank: {broken} of 600 runs noticed");
    assert!(broken >= 100, "only {broken}");
}
