//! Demand 3 on runs, and what the test for it is worth.
//!
//! A yes is never believed: the line-up is held against the definition. A no is forced by the
//! argument in `history`, and both answers are held against an exhaustive search over line-ups.

use twin::cases::script_named;
use twin::data::{code, kind};
use twin::gen::{self, Mood, Rng};
use twin::ghost::{Ghost, Shortcut};
use twin::history::{line_up, Broken, Causal, Does, History, Operation};
use twin::{Event, Plan, Reply, Table, Tray};

/// Causal order by its definition: who precedes whom, chains by walking until nothing is new.
fn precedes(history: &History) -> Vec<Vec<bool>> {
    let count = history.len();
    let mut pairs = vec![vec![false; count]; count];
    for (b, later) in history.iter().enumerate() {
        for (a, earlier) in history.iter().enumerate() {
            pairs[a][b] = a < b && earlier.desk == later.desk || later.does == Does::Read(Some(a));
        }
    }
    for start in 0..count {
        let mut walk: Vec<usize> = (0..count).filter(|&b| pairs[start][b]).collect();
        while let Some(at) = walk.pop() {
            let fresh = (0..count).filter(|&next| pairs[at][next] && !pairs[start][next]);
            for next in fresh.collect::<Vec<_>>() {
                pairs[start][next] = true;
                walk.push(next);
            }
        }
    }
    pairs
}

fn view(history: &History, desk: u8) -> Vec<usize> {
    (0..history.len())
        .filter(|&place| history[place].does == Does::Write || history[place].desk == desk)
        .collect()
}

/// Whether a line-up is what demand 3 asks for, by the definition.
fn explains(history: &History, precedes: &[Vec<bool>], desk: u8, line: &[usize]) -> bool {
    let mut sorted = line.to_vec();
    sorted.sort_unstable();
    let goes_up = (0..line.len()).all(|i| (0..=i).all(|j| !precedes[line[i]][line[j]]));
    let shows_nearest = line.iter().enumerate().all(|(i, &place)| {
        let nearest = line[..i].iter().rev().find(|&&earlier| {
            history[earlier].does == Does::Write && history[earlier].cell == history[place].cell
        });
        match history[place].does {
            Does::Write => true,
            Does::Read(from) => {
                let word = nearest.map_or(0, |&write| history[write].word);
                nearest == from.as_ref() && word == history[place].word
            }
        }
    });
    sorted == view(history, desk) && goes_up && shows_nearest
}

/// Whether a reply tells what the run says. To a read that is now done it is code 2 and 0 if that
/// comes from no write, else code 0 and the write's word, which may be 0; nothing else is code 2.
fn tells(history: &History, done: Option<&Operation>, reply: &Reply) -> bool {
    let told = (reply.code, reply.value);
    match done.map(|operation| operation.does) {
        Some(Does::Read(None)) => told == (code::BLANK, 0),
        Some(Does::Read(Some(write))) => told == (code::DONE, history[write].word),
        Some(Does::Write) | None => reply.code != code::BLANK,
    }
}

/// The oracle: tries every line-up there is.
fn has_line_up(history: &History, desk: u8) -> bool {
    fn extend(
        history: &History,
        precedes: &[Vec<bool>],
        left: &mut Vec<usize>,
        last: &mut [Option<usize>; 4],
    ) -> bool {
        if left.is_empty() {
            return true;
        }
        for i in 0..left.len() {
            let place = left[i];
            let cell = usize::from(history[place].cell);
            let may_stand = left.iter().all(|&other| !precedes[other][place])
                && match history[place].does {
                    Does::Write => true,
                    Does::Read(from) => from == last[cell],
                };
            if !may_stand {
                continue;
            }
            let before = last[cell];
            if history[place].does == Does::Write {
                last[cell] = Some(place);
            }
            left.remove(i);
            let found = extend(history, precedes, left, last);
            left.insert(i, place);
            last[cell] = before;
            if found {
                return true;
            }
        }
        false
    }
    let mut left = view(history, desk);
    extend(history, &precedes(history), &mut left, &mut [None; 4])
}

/// Holds the decision against the oracle for all these desks; counts yes and no.
fn compare(history: &History, desks: u8, tally: &mut [u64; 2]) {
    for desk in 0..desks {
        let truth = has_line_up(history, desk);
        match line_up(history, desk) {
            Ok(line) => assert!(
                truth && explains(history, &precedes(history), desk, &line),
                "desk {desk}: {line:?} for {history:?}"
            ),
            Err(broken) => assert!(!truth, "desk {desk}: {broken:?} for {history:?}"),
        }
        tally[usize::from(truth)] += 1;
    }
}

/// Gives every read each source it could have, in turn.
fn with_all_sources(history: &mut Vec<Operation>, place: usize, each: &mut impl FnMut(&History)) {
    let Some(operation) = history.get(place).copied() else {
        return each(history);
    };
    if operation.does == Does::Write {
        return with_all_sources(history, place + 1, each);
    }
    for source in 0..history.len() {
        let write = history[source];
        if write.does == Does::Write && write.cell == operation.cell {
            history[place].does = Does::Read(Some(source));
            history[place].word = write.word;
            with_all_sources(history, place + 1, each);
        }
    }
    history[place] = Operation {
        word: 0,
        does: Does::Read(None),
        ..operation
    };
    with_all_sources(history, place + 1, each);
}

#[test]
fn the_decision_is_exact_on_all_histories_of_five_operations() {
    let mut tally = [0; 2];
    for length in 1..=5 {
        for shape in 0..1u32 << (3 * length) {
            let mut history: Vec<Operation> = (0..length)
                .map(|place| {
                    let bits = shape >> (3 * place);
                    Operation {
                        desk: (bits & 1) as u8,
                        cell: (bits >> 1 & 1) as u8,
                        word: place, // so one that is written may be 0
                        does: match bits >> 2 & 1 {
                            0 => Does::Write,
                            _ => Does::Read(None),
                        },
                    }
                })
                .collect();
            with_all_sources(&mut history, 0, &mut |history| {
                compare(history, 2, &mut tally);
            });
        }
    }
    println!("all small histories: {} no, {} yes", tally[0], tally[1]);
    assert!(tally[0] > 100_000 && tally[1] > 100_000, "{tally:?}");
}

#[test]
fn the_decision_is_exact_on_random_histories() {
    let mut tally = [0; 2];
    for seed in 0..60_000 {
        let mut rng = Rng::new(seed);
        let desks = 2 + rng.below(2) as u8;
        let cells = 1 + rng.below(3);
        let length = 6 + rng.index(5);
        let mut history: Vec<Operation> = (0..length)
            .map(|place| Operation {
                desk: rng.below(desks.into()) as u8,
                cell: rng.below(cells) as u8,
                word: place as u32,
                does: Does::Write,
            })
            .collect();
        for place in 0..length {
            // Mostly recent sources, so that not every history is hopeless.
            let sources: Vec<usize> = (0..length)
                .filter(|&w| {
                    history[w].does == Does::Write && history[w].cell == history[place].cell
                })
                .filter(|&w| w != place && (w < place || rng.one_in(8)))
                .collect();
            if rng.one_in(2) {
                continue;
            }
            let from = match sources.len() {
                0 => None,
                n => Some(sources[n - 1 - rng.index(n.min(2))]).filter(|_| !rng.one_in(12)),
            };
            history[place].word = from.map_or(0, |write| history[write].word);
            history[place].does = Does::Read(from);
        }
        // A write turned into a read after it was made a source would be no history.
        let is_history = history.iter().all(|operation| match operation.does {
            Does::Read(Some(write)) => history[write].does == Does::Write,
            _ => true,
        });
        if is_history {
            compare(&history, desks, &mut tally);
        }
    }
    println!("random histories: {} no, {} yes", tally[0], tally[1]);
    assert!(tally[0] > 10_000 && tally[1] > 10_000, "{tally:?}");
}

#[test]
fn the_decision_is_exact_on_short_runs_with_shortcuts() {
    let mut tally = [0; 2];
    for shortcut in [Shortcut::KeepServed, Shortcut::LeaveOld] {
        for seed in 0..15_000 {
            let mut rng = Rng::new(seed);
            let tray = small_tray(&mut rng, 3, 3);
            let ghost = run(&mut rng, &tray, Some(shortcut), 40);
            let history = &ghost.history()[..ghost.history().len().min(14)];
            compare(history, tray.desks, &mut tally);
        }
    }
    println!("short runs: {} no, {} yes", tally[0], tally[1]);
    assert!(tally[0] > 50 && tally[1] > 10_000, "{tally:?}");
}

/// A tray of 2 to `most_desks` desks and 2 to `most_cells` cells.
fn small_tray(rng: &mut Rng, most_desks: u32, most_cells: u32) -> Tray {
    let desks = 2 + rng.below(most_desks - 1);
    let plan = Plan {
        desks,
        keepers: std::array::from_fn(|_| rng.below(desks)),
        cells: 2 + rng.below(most_cells - 1),
    };
    Tray::new(&plan).expect("a good set-up")
}

/// A run of the rules with a shortcut.
fn run(rng: &mut Rng, tray: &Tray, shortcut: Option<Shortcut>, events: u32) -> Ghost {
    let mood = Mood::new(rng);
    let mut ghost = Ghost::new(tray, shortcut);
    for _ in 0..events {
        let event = mood.event(rng, tray, |desk| ghost.slot_kind(desk));
        ghost.event(&event);
    }
    ghost
}

#[derive(Default, Debug)]
struct Seen {
    events: u64,
    refused: u64,
    served_waiting: u64,
    brought_served: u64,
    dropped: u64,
    blanks: u64,
    zeros: u64,
    operations: usize,
    longest: usize,
    line_ups: u64,
}

/// One run of the twin with the ghost beside it, and demand 3 for every desk at its end.
fn check_run(seed: u64, events: u32, seen: &mut Seen) {
    let mut rng = Rng::new(seed);
    let mut table = Table::new(&gen::good_setup(&mut rng, 2)).expect("a good set-up");
    let mut ghost = Ghost::new(&table.tray, None);
    let mood = Mood::new(&mut rng);
    for _ in 0..events {
        let event = mood.event_at(&mut rng, &table);
        let before = table;
        let known = ghost.history().len();
        let reply = table.event(&event);
        assert_eq!(reply, ghost.event(&event), "seed {seed}, {event:?}");
        assert!(ghost.agrees(&table), "seed {seed}, after {event:?}");
        let done = ghost.history().get(known);
        assert!(
            tells(ghost.history(), done, &reply),
            "seed {seed}: {reply:?} to {done:?}"
        );
        if let Some(Does::Read(from)) = done.map(|operation| operation.does) {
            seen.blanks += u64::from(from.is_none());
            seen.zeros += u64::from(from.is_some() && reply.value == 0);
        }
        seen.events += 1;
        seen.dropped += u64::from(reply.count);
        if reply.code >= 8 {
            seen.refused += 1;
            continue;
        }
        let asker = &before.rows[event.desk as usize];
        if event.kind == kind::TAKE {
            let place = &before.tray.places[usize::from(asker.slot.cell)];
            let keeper_waits = before.rows[usize::from(place.keeper)].slot.kind != 0;
            seen.served_waiting += u64::from(keeper_waits);
        }
        seen.brought_served += u64::from(event.kind == kind::BRING && asker.served);
    }
    let history = ghost.history();
    seen.operations += history.len();
    seen.longest = seen.longest.max(history.len());
    let causal = Causal::of(history).expect("words come from writes");
    let precedes = precedes(history);
    for desk in 0..table.tray.desks {
        let line = causal.line_up(desk);
        let line = line.unwrap_or_else(|broken| panic!("seed {seed}, desk {desk}: {broken:?}"));
        assert!(
            explains(history, &precedes, desk, &line),
            "seed {seed}, desk {desk}"
        );
        seen.line_ups += 1;
    }
}

#[test]
fn every_desk_of_every_run_has_its_line_up() {
    let mut seen = Seen::default();
    for seed in 0..6_000 {
        check_run(seed, 80, &mut seen);
    }
    for seed in 6_000..6_040 {
        check_run(seed, 1_000, &mut seen);
    }
    println!("{seen:?}");
    assert!(
        seen.served_waiting > 20_000 && seen.brought_served > 5_000,
        "{seen:?}"
    );
    assert!(seen.dropped > 20_000 && seen.longest > 300, "{seen:?}");
    assert!(seen.blanks > 10_000 && seen.zeros > 5_000, "{seen:?}");
}

#[test]
fn another_meaning_of_blank_is_noticed() {
    type Bend = fn(Reply) -> Reply;
    let bends: [(&str, Bend); 3] = [
        ("a written 0 is blank", |reply| match reply.value {
            0 => Reply::new(code::BLANK, 0, reply.count),
            _ => reply,
        }),
        ("nothing is blank", |reply| {
            Reply::new(code::DONE, reply.value, reply.count)
        }),
        ("a blank has a word", |reply| match reply.code {
            code::BLANK => Reply { value: 1, ..reply },
            _ => reply,
        }),
    ];
    for (what, bend) in bends {
        let noticed = (0..100).filter(|&seed| {
            let mut rng = Rng::new(seed);
            let mut table = Table::new(&gen::good_setup(&mut rng, 2)).expect("a good set-up");
            let mut ghost = Ghost::new(&table.tray, None);
            let mood = Mood::new(&mut rng);
            (0..80).any(|_| {
                let event = mood.event_at(&mut rng, &table);
                let known = ghost.history().len();
                let reply = table.event(&event);
                ghost.event(&event);
                let done = ghost.history().get(known);
                let is_read = done.is_some_and(|operation| operation.does != Does::Write);
                is_read && !tells(ghost.history(), done, &bend(reply))
            })
        });
        let noticed = noticed.count();
        println!("{what}: noticed in {noticed} of 100 runs");
        assert!(noticed > 30, "{what}: only in {noticed}");
    }
}

/// Runs of 400 events in which some desk has no line-up, of so many.
fn caught(shortcut: Shortcut, seeds: u64) -> u64 {
    let mut count = 0;
    let mut first = None;
    let mut fewest: Option<usize> = None;
    for seed in 0..seeds {
        let mut rng = Rng::new(seed);
        let tray = small_tray(&mut rng, 8, 8);
        let ghost = run(&mut rng, &tray, Some(shortcut), 400);
        // What is broken stays broken, whatever comes after: so the end is enough to look at, and
        // the first operations that are broken can be found by halving.
        let breaks = |&operations: &usize| {
            let history = &ghost.history()[..operations];
            (0..tray.desks).any(|desk| line_up(history, desk).is_err())
        };
        if breaks(&ghost.history().len()) {
            let lengths: Vec<usize> = (0..ghost.history().len()).collect();
            let broken = lengths.partition_point(|length| !breaks(length));
            fewest = Some(fewest.map_or(broken, |so_far| so_far.min(broken)));
            first = first.or(Some(seed));
            count += 1;
        }
    }
    println!(
        "{shortcut:?}: {count} of {seeds} runs caught, first seed {first:?}, \
         fewest operations {fewest:?}"
    );
    count
}

#[test]
fn three_shortcuts_are_caught() {
    for shortcut in [
        Shortcut::KeepServed,
        Shortcut::DropNothing,
        Shortcut::LeaveOld,
    ] {
        assert!(caught(shortcut, 600) >= 3, "{shortcut:?}");
    }
}

#[test]
fn a_dozen_events_are_enough_to_catch_them() {
    for (name, shortcut) in [
        ("keep_served", Shortcut::KeepServed),
        ("no_drop_write", Shortcut::DropNothing),
        ("leave_old_copy", Shortcut::LeaveOld),
    ] {
        let script = script_named(&format!("edge_shortcut_{name}_weak"));
        let text = String::from_utf8(script.input).expect("text");
        let mut lines = text.lines().map(|line| -> Vec<u32> {
            let numbers = line.split(' ').map(|number| number.parse());
            numbers.collect::<Result<_, _>>().expect("numbers")
        });
        let counts = lines.next().expect("the counts");
        let plan = Plan::new(counts[0], &lines.next().expect("the keepers"));
        assert_eq!(plan.cells, counts[1], "{name}");
        let tray = Tray::new(&plan).expect("a good set-up");
        let events: Vec<Event> = lines
            .map(|line| Event {
                kind: line[0],
                desk: line[1],
                cell: line[2],
                word: line[3],
            })
            .collect();
        for (shortcut, is_broken) in [(None, false), (Some(shortcut), true)] {
            let mut ghost = Ghost::new(&tray, shortcut);
            for event in &events {
                ghost.event(event);
            }
            let desks = 0..tray.desks;
            let broken = desks.filter(|&desk| line_up(ghost.history(), desk).is_err());
            assert_eq!(broken.count() > 0, is_broken, "{name}, {shortcut:?}");
        }
    }
}

#[test]
fn the_other_two_never_break_demand_3_yet_are_not_the_rules() {
    for shortcut in [Shortcut::RaiseAtAsk, Shortcut::DropBeside] {
        assert_eq!(caught(shortcut, 2_000), 0, "{shortcut:?}");
        // The exact rules do tell them apart.
        let differs = (0..100).any(|seed| {
            let mut rng = Rng::new(seed);
            let mut table = Table::new(&gen::good_setup(&mut rng, 2)).expect("a good set-up");
            let mut ghost = Ghost::new(&table.tray, Some(shortcut));
            let mood = Mood::new(&mut rng);
            (0..80).any(|_| {
                let event = mood.event_at(&mut rng, &table);
                table.event(&event) != ghost.event(&event) || !ghost.agrees(&table)
            })
        });
        assert!(differs, "{shortcut:?}");
    }
}

/// Writes and reads by desk, cell and source; the word of a write is its place, so the first is 0.
fn told(operations: &[(u8, u8, Does)]) -> Vec<Operation> {
    operations
        .iter()
        .enumerate()
        .map(|(place, &(desk, cell, does))| Operation {
            desk,
            cell,
            does,
            word: match does {
                Does::Write => place as u32,
                Does::Read(from) => from.map_or(0, |write| write as u32),
            },
        })
        .collect()
}

#[test]
fn each_clause_alone_is_seen() {
    use Does::{Read, Write};
    let (datum, coordinate) = (0, 1);
    // The accident: the coordinate is seen, then a blank datum.
    let accident = told(&[
        (2, datum, Write),
        (2, coordinate, Write),
        (0, coordinate, Read(Some(1))),
        (0, datum, Read(None)),
    ]);
    assert_eq!(line_up(&accident, 0), Err(Broken::Blank(3)));
    assert!(line_up(&accident, 1).is_ok());
    // An overwritten datum, through a third desk's read.
    let overwritten = told(&[
        (2, datum, Write),
        (2, datum, Write),
        (1, datum, Read(Some(1))),
        (1, coordinate, Write),
        (0, coordinate, Read(Some(3))),
        (0, datum, Read(Some(0))),
    ]);
    assert!(matches!(line_up(&overwritten, 0), Err(Broken::Circle(_))));
    assert!(line_up(&overwritten, 1).is_ok());
    // A read from the future.
    let future = told(&[(0, datum, Read(Some(1))), (0, datum, Write)]);
    assert!(matches!(line_up(&future, 0), Err(Broken::Circle(_))));
    // Back and forth between two writes.
    let wavers = told(&[
        (1, datum, Write),
        (2, datum, Write),
        (0, datum, Read(Some(0))),
        (0, datum, Read(Some(1))),
        (0, datum, Read(Some(0))),
    ]);
    assert!(matches!(line_up(&wavers, 0), Err(Broken::Circle(_))));
    // Two desks may see two writes that know nothing of each other in different orders.
    let beside = told(&[
        (1, datum, Write),
        (2, datum, Write),
        (0, datum, Read(Some(0))),
        (0, datum, Read(Some(1))),
        (3, datum, Read(Some(1))),
        (3, datum, Read(Some(0))),
    ]);
    assert!((0..4).all(|desk| line_up(&beside, desk).is_ok()));
    // A word that its source did not write.
    let mut made_up = told(&[(1, datum, Write), (0, datum, Read(Some(0)))]);
    made_up[1].word = 7;
    assert_eq!(line_up(&made_up, 0), Err(Broken::Source(1)));
    // Of two reads that show 0, one may come from a write and one from none.
    let zero = told(&[
        (1, datum, Write),
        (0, datum, Read(None)),
        (0, datum, Read(Some(0))),
    ]);
    assert_eq!(line_up(&zero, 0), Ok(vec![1, 0, 2]));
    let back = told(&[
        (1, datum, Write),
        (0, datum, Read(Some(0))),
        (0, datum, Read(None)),
    ]);
    assert_eq!(line_up(&back, 0), Err(Broken::Blank(2)));
}
