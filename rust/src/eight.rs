//! Eight desks as eight records in eight threads, with nothing but frames between them.
//!
//! [`run`] lets them work; [`check`] holds what they did against a table, against demand 3 and
//! against the curator's wish that no coordinate stands beside an older datum.

use std::collections::VecDeque;
use std::mem::take;
use std::ops::AddAssign;
use std::sync::mpsc::{channel, Receiver, RecvError, Sender};
use std::thread;

use crate::data::{code, kind, slot};
use crate::gen::Rng;
use crate::ghost::Ghost;
use crate::history::{Broken, Causal, Does, History};
use crate::{frame, Event, Message, Plan, Record, Refusal, Reply, Table, DESKS};

/// A desk's part and the frames, by whoever makes them. What is not said is done by the twin.
pub trait Part {
    /// A fresh record, or the number of a refusal.
    fn start(plan: &Plan, desk: u32) -> Result<Record, u32> {
        Record::new(plan, desk).map_err(number)
    }

    /// Reads, writes or drops; code 1 comes with the request to send.
    fn event(record: &mut Record, event: &Event) -> (Reply, Message) {
        record.event(event)
    }

    /// Answers a request.
    fn serve(record: &mut Record, request: &Message) -> (Reply, Message) {
        record.serve(request)
    }

    /// Receives an answer.
    fn bring(record: &mut Record, answer: &Message) -> Reply {
        record.bring(answer)
    }

    /// A message and the bytes its frame used, or the number of a refusal.
    fn read(bytes: &[u8]) -> Result<(Message, usize), u32> {
        frame::read(bytes).map_err(number)
    }

    /// The bytes a frame used, or the number of a refusal.
    fn write(message: &Message, out: &mut [u8]) -> Result<usize, u32> {
        frame::write(message, out).map_err(number)
    }
}

/// The part as this library makes it.
pub struct Twin;

impl Part for Twin {}

/// The table of all desks, by whoever makes it.
pub trait Engine: Sized {
    /// A fresh table, or the number of a refusal.
    fn set_up(plan: &Plan) -> Result<Self, u32>;
    /// Does one event.
    fn event(&mut self, event: &Event) -> Reply;
    /// What it holds now, as the twin has it.
    fn table(&self) -> Table;
}

impl Engine for Table {
    fn set_up(plan: &Plan) -> Result<Table, u32> {
        Table::new(plan).map_err(number)
    }

    fn event(&mut self, event: &Event) -> Reply {
        self.event(event)
    }

    fn table(&self) -> Table {
        *self
    }
}

fn number(refusal: Refusal) -> u32 {
    refusal as u32
}

/// Something that took effect at one desk.
#[derive(Clone, Debug, PartialEq)]
pub struct Step {
    /// The event, as the table would have it.
    pub event: Event,
    /// What the desk was told.
    pub reply: Reply,
    /// The record it was done on, afterwards: the keeper's, for a take.
    pub after: Record,
}

/// What eight desks did.
#[derive(Debug, PartialEq)]
pub struct Run {
    /// What set-up was told.
    pub plan: Plan,
    /// All steps, each after its desk's earlier ones and after the sending of what it received.
    pub steps: Vec<Step>,
    /// Frames sent.
    pub frames: usize,
}

/// Cells come in pairs: a datum, and the coordinate that was measured by it.
const PAIRS: u32 = 6;
const CELL_COUNT: u32 = 2 * PAIRS;

fn datum_of(pair: u32) -> u32 {
    2 * pair
}

fn coordinate_of(pair: u32) -> u32 {
    2 * pair + 1
}

/// All that goes from desk to desk.
type Frame = Vec<u8>;

/// Lets eight desks do so many events each, in rounds: all eight work at the same time, each in its
/// thread, and what they send arrives with a later round. So the seed alone decides what meets
/// what, and the threads' speed nothing.
///
/// # Panics
/// If a frame cannot be written or read back, or a message is refused.
#[must_use]
pub fn run<P: Part>(seed: u64, turns: usize) -> Run {
    let mut rng = Rng::new(seed);
    let plan = Plan {
        desks: DESKS as u32,
        cells: CELL_COUNT,
        keepers: std::array::from_fn(|_| rng.below(DESKS as u32)),
    };
    let mut run = Run {
        plan,
        steps: Vec::new(),
        frames: 0,
    };
    // All are waited for before any is asked how it went.
    let results: Vec<thread::Result<()>> = thread::scope(|scope| {
        let (threads, desks): (Vec<_>, Vec<_>) = (0..DESKS as u32)
            .map(|desk| {
                let worker = Worker {
                    record: P::start(&plan, desk).expect("a good set-up"),
                    rng: Rng::new(rng.bits()),
                    turns,
                    arrived: Vec::new(),
                    wants: VecDeque::new(),
                    words: 0,
                    round: Round::default(),
                };
                let (to_desk, inbox) = channel();
                let (outbox, from_desk) = channel();
                let thread = scope.spawn(move || worker.work::<P>(&inbox, &outbox));
                (thread, (to_desk, from_desk))
            })
            .unzip();
        run.lead(&desks, &mut rng);
        drop(desks);
        threads.into_iter().map(|thread| thread.join()).collect()
    });
    for result in results {
        result.expect("no desk gives up");
    }
    run
}

/// A desk's thread as it is seen from outside: where frames go in, and where they come out.
type Desk = (Sender<Vec<Frame>>, Receiver<Round>);

impl Run {
    /// Round after round, until every desk is done or one has given up.
    fn lead(&mut self, desks: &[Desk], rng: &mut Rng) {
        // Each with the rounds that it still takes, and the desk that it is for.
        let mut under_way: Vec<(u32, u8, Frame)> = Vec::new();
        loop {
            let mut arriving: [Vec<Frame>; DESKS] = Default::default();
            for (rounds, to, frame) in take(&mut under_way) {
                match rounds {
                    0 => arriving[usize::from(to)].push(frame),
                    _ => under_way.push((rounds - 1, to, frame)),
                }
            }
            // All have begun before any is waited for.
            for ((to_desk, _), frames) in desks.iter().zip(arriving) {
                let _ = to_desk.send(frames);
            }
            let rounds = desks.iter().map(|(_, from_desk)| from_desk.recv());
            let Ok(rounds) = rounds.collect::<Result<Vec<Round>, RecvError>>() else {
                return;
            };
            // Where nobody waits any more, nothing is under way.
            let all_done = rounds.iter().all(|round| round.is_done);
            for round in rounds {
                self.steps.extend(round.steps);
                self.frames += round.sent.len();
                for (to, frame) in round.sent {
                    // Most arrive with the next round, and some late, when much has happened.
                    let rounds = if rng.one_in(4) { rng.below(20) } else { 0 };
                    under_way.push((rounds, to, frame));
                }
            }
            if all_done {
                return;
            }
        }
    }
}

/// What a desk did in a round.
#[derive(Default)]
struct Round {
    steps: Vec<Step>,
    /// Frames, and the desk that each is for.
    sent: Vec<(u8, Frame)>,
    /// Whether it has nothing more to do, and does not wait.
    is_done: bool,
}

/// One desk at work.
struct Worker {
    record: Record,
    rng: Rng,
    /// Events that its program may still do.
    turns: usize,
    /// Frames that it has not looked at yet.
    arrived: Vec<Frame>,
    /// What its program wants to do next.
    wants: VecDeque<Event>,
    /// Words written so far, so that no two writes of the run have the same; desk 0's first is 0.
    words: u32,
    /// This round so far.
    round: Round,
}

impl Worker {
    fn work<P: Part>(mut self, inbox: &Receiver<Vec<Frame>>, outbox: &Sender<Round>) {
        for frames in inbox {
            self.arrived.extend(frames);
            for _ in 0..self.rng.below(8) {
                self.go_on::<P>();
            }
            self.round.is_done = self.turns == 0 && !self.waits();
            // Nobody listens any more where another desk has given up.
            let _ = outbox.send(take(&mut self.round));
        }
    }

    fn waits(&self) -> bool {
        self.record.row.slot.kind != slot::EMPTY
    }

    fn go_on<P: Part>(&mut self) {
        if !self.arrived.is_empty() && self.rng.one_in(2) {
            // Any of them, so that frames overtake each other.
            let chosen = self.rng.index(self.arrived.len());
            let bytes = self.arrived.swap_remove(chosen);
            self.receive::<P>(&bytes);
        } else if self.turns > 0 && (!self.waits() || self.rng.one_in(16)) {
            // Trying again while it waits is refused, and changes nothing.
            self.turns -= 1;
            self.act::<P>();
        }
    }

    fn act<P: Part>(&mut self) {
        if self.wants.is_empty() {
            self.want_more();
        }
        let event = self.wants[0];
        let (reply, request) = P::event(&mut self.record, &event);
        self.note(event, reply);
        if reply.code != Refusal::Waits as u32 {
            self.wants.pop_front();
        }
        if reply.code == code::ASKED {
            let place = &self.record.tray.places[usize::from(request.cell)];
            self.send::<P>(place.keeper, &request);
        } else {
            assert_eq!(request, Message::ZERO, "only a request is sent");
        }
    }

    fn receive<P: Part>(&mut self, bytes: &[u8]) {
        let (message, _) = P::read(bytes).expect("frames arrive whole");
        let asker = message.desk;
        let event = |kind| Event {
            kind,
            desk: asker.into(),
            ..Event::default()
        };
        if message.kind <= slot::WRITE_ASKED {
            let (reply, answer) = P::serve(&mut self.record, &message);
            assert_eq!(reply.code, code::DONE, "a request comes to its keeper");
            self.note(event(kind::TAKE), reply);
            self.send::<P>(asker, &answer);
        } else {
            let reply = P::bring(&mut self.record, &message);
            let is_done = matches!(reply.code, code::DONE | code::BLANK);
            assert!(is_done, "an answer comes to the desk that asked");
            self.note(event(kind::BRING), reply);
        }
    }

    fn send<P: Part>(&mut self, to: u8, message: &Message) {
        // Bytes after the frame are allowed, so there are some.
        let mut bytes = vec![0xEE; frame::LONGEST];
        let used = P::write(message, &mut bytes).expect("a desk's own message has a frame");
        bytes.truncate(used + self.rng.index(4));
        self.round.sent.push((to, bytes));
    }

    fn note(&mut self, event: Event, reply: Reply) {
        self.round.steps.push(Step {
            event,
            reply,
            after: self.record,
        });
    }

    /// Each desk has its own program, made of a few habits.
    fn want_more(&mut self) {
        let pair = self.rng.below(PAIRS);
        let (datum, coordinate) = (datum_of(pair), coordinate_of(pair));
        // By desk: measures, measures, copies, looks, looks, corrects, clears up, does anything.
        let habit = match self.record.desk {
            0 | 1 => 0,
            2 => 1,
            3 | 4 => 2,
            5 => 3,
            6 => 4,
            _ => self.rng.below(5),
        };
        match habit {
            0 => self.want_writes(&[datum, coordinate]),
            1 => {
                self.want_reads(&[coordinate, datum]);
                let elsewhere = self.rng.below(PAIRS);
                self.want_writes(&[datum_of(elsewhere), coordinate_of(elsewhere)]);
            }
            2 => self.want_reads(&[coordinate, datum, datum]),
            3 => {
                self.want_reads(&[coordinate, datum]);
                self.want_writes(&[datum, coordinate]);
            }
            _ => {
                self.want_reads(&[coordinate, datum]);
                let gone = self.rng.pick(&[datum, coordinate, CELL_COUNT]);
                self.want(kind::DROP, gone, 0);
            }
        }
    }

    fn want_reads(&mut self, cells: &[u32]) {
        for &cell in cells {
            self.want(kind::READ, cell, 0);
        }
    }

    fn want_writes(&mut self, cells: &[u32]) {
        for &cell in cells {
            let word = u32::from(self.record.desk) << 24 | self.words;
            self.words += 1;
            self.want(kind::WRITE, cell, word);
        }
    }

    fn want(&mut self, kind: u32, cell: u32, word: u32) {
        self.wants.push_back(Event {
            kind,
            desk: self.record.desk.into(),
            cell,
            word,
        });
    }
}

/// How much a check has looked at.
#[derive(Clone, Copy, Debug, Default, PartialEq, Eq)]
pub struct Checked {
    /// Steps replayed; each reply and the record afterwards agreed.
    pub steps: usize,
    /// Takes done by a keeper that itself waited.
    pub served_waiting: usize,
    /// Finished reads and taken writes.
    pub operations: usize,
    /// Reads of a datum by a desk that had seen a coordinate measured by it.
    pub datums_after_coordinates: usize,
}

impl AddAssign for Checked {
    fn add_assign(&mut self, more: Checked) {
        self.steps += more.steps;
        self.served_waiting += more.served_waiting;
        self.operations += more.operations;
        self.datums_after_coordinates += more.datums_after_coordinates;
    }
}

/// Holds a run against the rules.
///
/// - An engine does the same events in the same order: each reply is the same, and after each step
///   the record is its desk's row of the table (a slot answered there is still asked in the
///   record). At the end all records are the rows, and nobody waits.
/// - Every desk has the line-up of demand 3.
/// - A coordinate's writer knew versions of its datum: those it had itself written or read before.
///   Any desk that has read that coordinate never again reads blank, or a version of the datum
///   that the keeper had stored earlier than the newest of these.
pub fn check<E: Engine>(run: &Run) -> Result<Checked, String> {
    let mut checked = Checked::default();
    let mut engine =
        E::set_up(&run.plan).map_err(|refusal| format!("set-up refused: {refusal}"))?;
    let mut ghost = Ghost::new(&engine.table().tray, None);
    for step in &run.steps {
        let is_take = step.event.kind == kind::TAKE;
        let waits = step.after.row.slot.kind != slot::EMPTY;
        checked.served_waiting += usize::from(is_take && waits);
        let reply = engine.event(&step.event);
        if reply != step.reply || reply != ghost.event(&step.event) {
            return Err(format!("the table replies {reply:?} to {step:?}"));
        }
        if !is_row_of(&step.after, &engine.table()) {
            return Err(format!("another record after {step:?}"));
        }
        checked.steps += 1;
    }
    let rows = engine.table().rows;
    if let Some(desk) = (0..DESKS).find(|&desk| rows[desk].slot.kind != slot::EMPTY) {
        return Err(format!("desk {desk} still waits"));
    }
    checked.operations = ghost.history().len();
    let causal = Causal::of(ghost.history()).map_err(|broken| format!("{broken:?}"))?;
    for desk in 0..DESKS as u8 {
        let no_line_up = |broken: Broken| format!("desk {desk} has no line-up: {broken:?}");
        causal.line_up(desk).map_err(no_line_up)?;
    }
    checked.datums_after_coordinates = no_older_datum(ghost.history())?;
    Ok(checked)
}

fn is_row_of(record: &Record, table: &Table) -> bool {
    let mut expected = table.record(record.desk);
    let (there, here) = (&mut expected.row.slot, &record.row.slot);
    let is_under_way =
        there.is_answered() && there.kind == here.kind + slot::ANSWER && there.cell == here.cell;
    if is_under_way {
        *there = *here;
    }
    expected == *record
}

/// Counts the reads of a datum that the last rule of [`check`] is about, or names one that breaks
/// it. Writes stand in the history in the order in which they were taken.
pub fn no_older_datum(history: &History) -> Result<usize, String> {
    let mut count = 0;
    // The newest version of each pair's datum that a desk has written or read, and the newest
    // that it must see. Versions are places in the history.
    let mut knows = [[None; PAIRS as usize]; DESKS];
    let mut must_see = [[None; PAIRS as usize]; DESKS];
    let mut known_at = vec![None; history.len()];
    for (place, operation) in history.iter().enumerate() {
        let desk = usize::from(operation.desk);
        let pair = usize::from(operation.cell / 2);
        let is_datum = u32::from(operation.cell) == datum_of(pair as u32);
        match operation.does {
            Does::Write if is_datum => knows[desk][pair] = Some(place),
            Does::Write => known_at[place] = knows[desk][pair],
            Does::Read(version) if is_datum => {
                count += usize::from(must_see[desk][pair].is_some());
                // None is below every version.
                if version < must_see[desk][pair] {
                    return Err(format!("an older datum at {place}: {operation:?}"));
                }
                knows[desk][pair] = knows[desk][pair].max(version);
            }
            Does::Read(coordinate) => {
                let version = coordinate.and_then(|place| known_at[place]);
                must_see[desk][pair] = must_see[desk][pair].max(version);
            }
        }
    }
    Ok(count)
}
