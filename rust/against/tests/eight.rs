//! Eight desks as eight records of the proved library in eight threads, with nothing but its frames
//! between them. They do what the twin's desks do from the same seed, and both tables replay it.

use against::{Proved, ProvedTable};
use twin::eight::{check, run, Checked, Part, Twin};
use twin::{Event, Message, Record, Reply, Table};

#[test]
fn eight_proved_desks_do_what_both_tables_do() {
    let mut sum = Checked::default();
    let mut frames = 0;
    for seed in 0..40 {
        let (run, twins) = (run::<Proved>(seed, 150), run::<Twin>(seed, 150));
        assert!(
            run == twins,
            "seed {seed}: the twin's desks do something else"
        );
        let [twins, ours] = [check::<Table>, check::<ProvedTable>]
            .map(|check| check(&run).unwrap_or_else(|why| panic!("seed {seed}: {why}")));
        assert_eq!(twins, ours, "seed {seed}");
        sum += ours;
        frames += run.frames;
    }
    println!("{frames} frames; {sum:?}");
    assert!(
        sum.served_waiting > 10_000 && sum.datums_after_coordinates > 5_000,
        "{sum:?}"
    );
}

/// The proved part, but for one thing: it holds an answer although it served a write meanwhile.
struct KeepsServed;

impl Part for KeepsServed {
    fn event(record: &mut Record, event: &Event) -> (Reply, Message) {
        Proved::event(record, event)
    }

    fn serve(record: &mut Record, request: &Message) -> (Reply, Message) {
        Proved::serve(record, request)
    }

    fn bring(record: &mut Record, answer: &Message) -> Reply {
        record.row.served = false;
        Proved::bring(record, answer)
    }
}

#[test]
fn a_part_that_is_not_the_librarys_is_found_out() {
    for seed in 0..10 {
        let found_out = check::<ProvedTable>(&run::<KeepsServed>(seed, 150)).is_err();
        assert!(found_out, "seed {seed}");
    }
}
