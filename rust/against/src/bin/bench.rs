//! The proved library's time held against the twin's: `bench OUR_SCRIPT TWINS_SCRIPT`, which are
//! the two script programs. Prints all that `docs/SPEED.md` shows.

use std::fs::File;
use std::hint::black_box;
use std::path::{Path, PathBuf};
use std::process::{Command, ExitCode, Stdio};
use std::time::{Duration, Instant};

use against::Same;
use cwmorlais::sys;
use twin::data::{kind, slot};
use twin::gen::{self, Rng};
use twin::script::LONGEST_INPUT;
use twin::{frame, Cell, Clock, Event, Message, Plan, Record, Slot, Table, DESKS};

fn main() -> ExitCode {
    let programs: Vec<PathBuf> = std::env::args_os().skip(1).map(PathBuf::from).collect();
    let [ours, twins] = programs.as_slice() else {
        eprintln!("usage: bench OUR_SCRIPT TWINS_SCRIPT");
        return ExitCode::FAILURE;
    };
    explain();
    heading("A call", "ns");
    for (desks, cells) in [(8, 32), (2, 4)] {
        tables(desks, cells);
    }
    for (desks, cells) in [(8, 32), (2, 4)] {
        records(desks, cells);
    }
    frames();
    floor();
    scripts(ours, twins);
    growth();
    ExitCode::SUCCESS
}

fn explain() {
    println!(
        "Times are medians; ours / twin below 1 is faster than the twin. Both are built for release and\n\
         run in this process, round by round in turn. In a round the input is prepared, untimed, and then\n\
         a batch of calls is timed. 'reused': all calls of a batch are on the same record or table, which\n\
         goes on as the last call left it. 'copies': each call has its own copy, made before the timing\n\
         starts; they are few enough to stay in the first cache. 'new': the call itself makes the record or\n\
         table. No buffer is cleared first: a frame is written over the last one. The time of an empty\n\
         batch is taken off."
    );
}

/// Both sides of a comparison: the time of a call, or of a process.
#[derive(Clone, Copy)]
struct Pair {
    ours: f64,
    twins: f64,
    /// What the calls were on.
    state: &'static str,
}

fn heading(what: &str, unit: &str) {
    println!();
    let [ours, twins] = ["ours", "twin"].map(|side| format!("{side} {unit}"));
    line(what, &ours, &twins, "ours / twin", "state");
}

fn line(what: &str, ours: &str, twins: &str, ratio: &str, state: &str) {
    println!("{what:<46} {ours:>9} {twins:>9} {ratio:>12}  {state}");
}

fn report(what: &str, pair: Pair) {
    let Pair { ours, twins, state } = pair;
    let [our_time, twins_time] = [ours, twins].map(|time| format!("{time:.1}"));
    let ratio = format!("{:.2}", ours / twins);
    line(what, &our_time, &twins_time, &ratio, state);
}

fn median(times: &mut [f64]) -> f64 {
    times.sort_by(f64::total_cmp);
    times[times.len() / 2]
}

/// How long each comparison goes on.
const ENOUGH: Duration = Duration::from_millis(400);

/// Rounds of both in turn, each first as often as the other. A side prepares, untimed, and gives
/// the time of a batch; what is returned is for a call.
fn rounds(
    calls: usize,
    mut ours: impl FnMut() -> Duration,
    mut twins: impl FnMut() -> Duration,
) -> (f64, f64) {
    let (mut our_times, mut twins_times, mut empty) = (Vec::new(), Vec::new(), Vec::new());
    let start = Instant::now();
    while start.elapsed() < ENOUGH || our_times.len() < 101 {
        let is_first = our_times.len() % 2 == 0;
        if is_first {
            our_times.push(ours().as_nanos() as f64);
        }
        twins_times.push(twins().as_nanos() as f64);
        if !is_first {
            our_times.push(ours().as_nanos() as f64);
        }
        empty.push(timed(|| {}).as_nanos() as f64);
    }
    let empty = median(&mut empty);
    let per_call = |times: &mut [f64]| (median(times) - empty) / calls as f64;
    (per_call(&mut our_times), per_call(&mut twins_times))
}

fn timed(batch: impl FnOnce()) -> Duration {
    let start = Instant::now();
    batch();
    start.elapsed()
}

/// What the calls of a batch are on.
#[derive(Clone, Copy)]
enum State {
    /// The same record or table: a call leaves it such that the next does the same again.
    Reused,
    /// Each on a copy of its own.
    Copies,
    /// None: the call makes it.
    New,
}

impl State {
    fn name(self) -> &'static str {
        match self {
            State::Reused => "reused",
            State::Copies => "copies",
            State::New => "new",
        }
    }

    /// How many are made ready, and how many calls there are on each.
    fn batch(self, size: usize) -> (usize, usize) {
        match self {
            State::Reused | State::New => (1, CALLS),
            State::Copies => (COPIES / size, 1),
        }
    }
}

/// Calls of a batch on one state.
const CALLS: usize = 100;
/// So many bytes of copies stay in the first cache, with room for all else.
const COPIES: usize = 36 << 10;

/// Measures the same call on both sides.
fn pair<O: Copy, T: Copy>(
    state: State,
    (ours, twins): (O, T),
    our_call: impl Fn(&mut O),
    twins_call: impl Fn(&mut T),
) -> Pair {
    let batch = state.batch(size_of::<T>());
    let (ours, twins) = rounds(
        batch.0 * batch.1,
        side(batch, ours, our_call),
        side(batch, twins, twins_call),
    );
    let state = state.name();
    Pair { ours, twins, state }
}

/// One side's round: prepares, and times a batch.
fn side<S: Copy>(
    (count, calls): (usize, usize),
    given: S,
    call: impl Fn(&mut S),
) -> impl FnMut() -> Duration {
    let mut copies = vec![given; count];
    move || {
        copies.fill(given);
        timed(|| {
            for copy in &mut copies {
                (0..calls).for_each(|_| call(black_box(copy)));
            }
        })
    }
}

/// Each desk keeps as many cells as any other, or one more.
fn plan(desks: u32, cells: u32) -> Plan {
    Plan {
        desks,
        cells,
        keepers: std::array::from_fn(|cell| cell as u32 % desks),
    }
}

/// A table where every desk holds every cell, and any clock past 1 drops all copies.
fn full(desks: u32, cells: u32) -> Table {
    let mut table = Table::new(&plan(desks, cells)).expect("a good set-up");
    for row in &mut table.rows[..desks as usize] {
        row.clock = all(desks, 5);
        row.cells[..cells as usize].fill(Cell {
            held: true,
            word: 27,
            stamp: all(desks, 1),
        });
    }
    table
}

/// A clock with this number at every desk.
fn all(desks: u32, number: u32) -> Clock {
    let mut clock = Clock::ZERO;
    clock.n[..desks as usize].fill(number);
    clock
}

/// The full table, where desk 1 has this under way about desk 0's cell 0.
fn full_with(desks: u32, cells: u32, kind: u8) -> Table {
    let mut table = full(desks, cells);
    table.rows[1].slot = Slot {
        kind,
        cell: 0,
        word: 500,
        clock: all(desks, 6),
    };
    table
}

fn event(kind: u32, desk: u32, cell: u32) -> Event {
    Event {
        kind,
        desk,
        cell,
        word: 500,
    }
}

/// Copies that desk 0 holds of the full table's cells, or all but one of desk 1's.
fn dropped(desks: u32, cells: u32, is_take: bool) -> u32 {
    let kept = |desk: u32| (0..cells).filter(|cell| cell % desks == desk).count() as u32;
    if is_take {
        cells - kept(0)
    } else {
        cells - kept(1) - 1
    }
}

/// A table's event by both, which must do the same; how many copies it drops.
fn table_event(state: State, table: Table, event: Event) -> (u32, Pair) {
    let (mut ours, mut twins): (sys::Table, _) = (table.same(), table);
    let our_event: sys::Event = event.same();
    let reply = twins.event(&event);
    assert_eq!(sys::table_event(&mut ours, our_event), reply.same());
    assert!(ours == twins.same());
    let pair = pair(
        state,
        (table.same(), table),
        |table: &mut sys::Table| {
            black_box(sys::table_event(table, black_box(our_event)));
        },
        |table| {
            black_box(table.event(black_box(&event)));
        },
    );
    (reply.count, pair)
}

fn tables(desks: u32, cells: u32) {
    let say = |what: &str, pair| report(&format!("table {desks} x {cells}: {what}"), pair);
    let table = full(desks, cells);
    for (name, event) in [
        ("read of an own copy", event(kind::READ, 0, 1)),
        ("keeper's write", event(kind::WRITE, 0, 0)),
        ("refusal 8", event(9, 0, 0)),
    ] {
        say(name, table_event(State::Reused, table, event).1);
    }
    for (name, kind, under_way) in [
        ("take", kind::TAKE, slot::WRITE_ASKED),
        ("bring", kind::BRING, slot::READ_ANSWERED),
    ] {
        let table = full_with(desks, cells, under_way);
        let (count, pair) = table_event(State::Copies, table, event(kind, 1, 0));
        assert_eq!(count, dropped(desks, cells, kind == kind::TAKE));
        say(&format!("{name}, drops {count} copies"), pair);
    }
    let plan = plan(desks, cells);
    let pair = pair(
        State::New,
        ((plan.same(), sys::Table::default()), plan),
        |(plan, table)| {
            black_box(sys::set_up(table, *plan));
        },
        |plan| {
            let _ = black_box(Table::new(plan));
        },
    );
    say("set up", pair);
}

/// A part's call by both, which must leave the same record.
fn record_call(
    state: State,
    record: Record,
    ours: impl Fn(&mut sys::Record),
    twins: impl Fn(&mut Record),
) -> Pair {
    let (mut our_record, mut twins_record): (sys::Record, _) = (record.same(), record);
    ours(&mut our_record);
    twins(&mut twins_record);
    assert!(our_record == twins_record.same());
    pair(state, (record.same(), record), ours, twins)
}

fn records(desks: u32, cells: u32) {
    let say = |what: &str, pair| report(&format!("record {desks} x {cells}: {what}"), pair);
    let keeper = full(desks, cells).record(0);
    for (name, event) in [
        ("read of an own copy", event(kind::READ, 0, 1)),
        ("keeper's write", event(kind::WRITE, 0, 0)),
        ("refusal 8", event(9, 0, 0)),
    ] {
        let our_event: sys::Event = event.same();
        let pair = record_call(
            State::Reused,
            keeper,
            |record| {
                black_box(sys::desk_event(record, black_box(our_event)));
            },
            |record| {
                black_box(record.event(black_box(&event)));
            },
        );
        say(name, pair);
    }
    let read = Message {
        kind: slot::READ_ASKED,
        desks: desks as u8,
        desk: 1,
        ..Message::ZERO
    };
    let write = Message {
        kind: slot::WRITE_ASKED,
        word: 500,
        clock: all(desks, 6),
        ..read
    };
    let serve = |state, request: Message| {
        let our_request: sys::Message = request.same();
        record_call(
            state,
            keeper,
            |record| {
                black_box(sys::desk_serve(record, black_box(&our_request)));
            },
            |record| {
                black_box(record.serve(black_box(&request)));
            },
        )
    };
    say("serve a read", serve(State::Reused, read));
    let drops = dropped(desks, cells, true);
    let pair = serve(State::Copies, write);
    say(&format!("serve a write, drops {drops} copies"), pair);
    let mut asker = full(desks, cells).record(1);
    asker.row.slot.kind = slot::READ_ASKED;
    let answer = Message {
        kind: slot::READ_ANSWERED,
        ..write
    };
    let our_answer: sys::Message = answer.same();
    let pair = record_call(
        State::Copies,
        asker,
        |record| {
            black_box(sys::desk_bring(record, black_box(&our_answer)));
        },
        |record| {
            black_box(record.bring(black_box(&answer)));
        },
    );
    let drops = dropped(desks, cells, false);
    say(&format!("bring, drops {drops} copies"), pair);
    let plan = plan(desks, cells);
    let pair = self::pair(
        State::New,
        ((plan.same(), sys::Record::default()), plan),
        |(plan, record)| {
            black_box(sys::start(record, *plan, 0));
        },
        |plan| {
            let _ = black_box(Record::new(plan, 0));
        },
    );
    say("start", pair);
}

fn frames() {
    let request = Message {
        kind: slot::READ_ASKED,
        desks: DESKS as u8,
        desk: 1,
        ..Message::ZERO
    };
    let answer = Message {
        kind: slot::WRITE_ANSWERED,
        word: 500,
        clock: all(DESKS as u32, 6),
        ..request
    };
    for (name, message) in [("read request", request), ("full answer", answer)] {
        let our_message: sys::Message = message.same();
        let mut bytes = [0; frame::LONGEST];
        let used = frame::write(&message, &mut bytes).expect("a well-formed message");
        let written = pair(
            State::Reused,
            ([0; frame::LONGEST], [0; frame::LONGEST]),
            |out| {
                black_box(sys::frame_write(black_box(&our_message), out));
            },
            |out| {
                let _ = black_box(frame::write(black_box(&message), out));
            },
        );
        let read = pair(
            State::Reused,
            (bytes, bytes),
            |bytes| {
                black_box(sys::frame_read(&bytes[..used]));
            },
            |bytes| {
                let _ = black_box(frame::read(&bytes[..used]));
            },
        );
        report(&format!("frame: write a {name}, {used} bytes"), written);
        report(&format!("frame: read a {name}, {used} bytes"), read);
    }
}

/// What it costs on this machine to move a table or a record once.
fn floor() {
    fn copied<S: Copy>(what: &str, given: S) {
        let copy = |to: &mut S| *to = *black_box(&given);
        let time = pair(State::Reused, (given, given), copy, copy).ours;
        println!("  a {what}, {} bytes: {time:.1} ns", size_of::<S>());
    }
    println!("\nThe floor: a plain copy (memcpy) of");
    let table = full(8, 32);
    copied::<sys::Table>("table", table.same());
    copied::<sys::Record>("record", table.record(0).same());
}

/// Both script programs as processes on the same file.
fn scripts(ours: &Path, twins: &Path) {
    println!(
        "\nThe script programs as processes on the same file, output to nowhere, {SCRIPT_ROUNDS} rounds in turn.\n\
         'no event' is lines 1 and 2 alone: start-up, set-up, and what a program clears of its buffers\n\
         (ours: room for the longest input and its answer, each time)."
    );
    heading("A script", "us");
    for (desks, cells) in [(8, 32), (2, 4)] {
        let script = gen::script(&mut Rng::new(1), &plan(desks, cells), LONGEST_INPUT);
        let two_lines: String = script.split_inclusive('\n').take(2).collect();
        let events = script.lines().count() - 2;
        let whole = script_times(ours, twins, &script);
        let start = script_times(ours, twins, &two_lines);
        let rest = Pair {
            ours: (whole.ours - start.ours) / events as f64,
            twins: (whole.twins - start.twins) / events as f64,
            state: "",
        };
        let say = |what: &str, pair| report(&format!("script {desks} x {cells}: {what}"), pair);
        say(&format!("65,536 bytes, {events} events"), whole);
        say("no event", start);
        say("the difference, for an event", rest);
    }
}

const SCRIPT_ROUNDS: usize = 151;

fn script_times(ours: &Path, twins: &Path, script: &str) -> Pair {
    let file = std::env::temp_dir().join(format!("cwmorlais-bench-{}", std::process::id()));
    std::fs::write(&file, script).expect("a temporary file");
    let input = || Stdio::from(File::open(&file).expect("the temporary file"));
    let answers = |program: &Path| {
        let output = Command::new(program).stdin(input()).output();
        output.expect("a script program").stdout
    };
    assert!(
        answers(ours) == answers(twins),
        "the programs answer differently"
    );
    let time = |program: &Path| {
        let mut command = Command::new(program);
        command.stdin(input()).stdout(Stdio::null());
        let mut status = None;
        let time = timed(|| status = Some(command.status()));
        assert!(status.is_some_and(|status| status.is_ok_and(|status| status.success())));
        time.as_secs_f64() * 1e6
    };
    let (mut our_times, mut twins_times) = (Vec::new(), Vec::new());
    for _ in 0..SCRIPT_ROUNDS {
        our_times.push(time(ours));
        twins_times.push(time(twins));
    }
    std::fs::remove_file(&file).expect("the temporary file");
    Pair {
        ours: median(&mut our_times),
        twins: median(&mut twins_times),
        state: "process",
    }
}

/// How a table event's cost grows with desks and with cells.
fn growth() {
    println!("\nHow cost grows, in ns: ours, twin; # ours, o the twin");
    let read = |desks, cells| {
        let pair = table_event(State::Reused, full(desks, cells), event(kind::READ, 0, 0)).1;
        Some(pair)
    };
    // With one desk nothing is under way.
    let received = |desks: u32, cells, kind, under_way| {
        let table = (desks > 1).then(|| full_with(desks, cells, under_way))?;
        Some(table_event(State::Copies, table, event(kind, 1, 0)).1)
    };
    let take = |desks, cells| received(desks, cells, kind::TAKE, slot::WRITE_ASKED);
    let bring = |desks, cells| received(desks, cells, kind::BRING, slot::READ_ANSWERED);
    type Measure<'a> = &'a dyn Fn(u32, u32) -> Option<Pair>;
    let events: [(&str, Measure); 3] = [
        ("read of an own cell", &read),
        ("take with drops", &take),
        ("bring with drops", &bring),
    ];
    for (name, measure) in events {
        plot(&format!("{name}, 32 cells, by desks"), 1..=8, |desks| {
            measure(desks, 32)
        });
        let by_cells = [1, 4, 8, 12, 16, 20, 24, 28, 32];
        plot(&format!("{name}, 8 desks, by cells"), by_cells, |cells| {
            measure(8, cells)
        });
    }
}

const WIDTH: f64 = 60.0;

fn plot(what: &str, sizes: impl IntoIterator<Item = u32>, measure: impl Fn(u32) -> Option<Pair>) {
    println!("\n{what}");
    let points: Vec<(u32, Pair)> = sizes
        .into_iter()
        .filter_map(|size| Some((size, measure(size)?)))
        .collect();
    let highest = points.iter().map(|(_, pair)| pair.ours.max(pair.twins));
    let highest = highest.fold(1.0, f64::max);
    for (size, Pair { ours, twins, .. }) in points {
        let place = |time: f64| (time / highest * WIDTH).round() as usize;
        let mut bar = vec![b' '; WIDTH as usize + 1];
        bar[..place(ours)].fill(b'#');
        bar[place(twins)] = b'o';
        let bar = String::from_utf8_lossy(&bar);
        println!("{size:>4} {ours:>8.1} {twins:>8.1}  {}", bar.trim_end());
    }
}
