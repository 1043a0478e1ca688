//! Eight desks in eight threads; and what is made of desks that do not keep to the rules.

use twin::eight::{check, no_older_datum, run, Checked, Part, Twin};
use twin::ghost::{Ghost, Shortcut};
use twin::{Message, Record, Refusal, Reply, Table, Tray};

const SEEDS: std::ops::Range<u64> = 0..40;

#[test]
fn eight_desks_do_what_the_table_does() {
    let mut sum = Checked::default();
    for seed in SEEDS {
        let run = run::<Twin>(seed, 150);
        sum += check::<Table>(&run).unwrap_or_else(|why| panic!("seed {seed}: {why}"));
    }
    println!("{sum:?}");
    assert!(
        sum.served_waiting > 10_000 && sum.datums_after_coordinates > 5_000,
        "{sum:?}"
    );
}

/// Or the counts that are asserted here would be luck.
#[test]
fn the_seed_decides_all_that_the_threads_do() {
    for seed in SEEDS {
        assert!(
            run::<Twin>(seed, 150) == run::<Twin>(seed, 150),
            "seed {seed}"
        );
    }
}

/// A part that keeps an answer although it served a write meanwhile.
struct KeepsServed;

impl Part for KeepsServed {
    fn bring(record: &mut Record, answer: &Message) -> Reply {
        record.row.served = false;
        record.bring(answer)
    }
}

#[test]
fn desks_that_keep_what_they_should_not_are_found_out() {
    let (mut disagreed, mut older) = (0, 0);
    for seed in SEEDS {
        let run = run::<KeepsServed>(seed, 150);
        disagreed += usize::from(check::<Table>(&run).is_err());
        // Played by the same wrong rule the replies agree, and only the curator notices.
        let tray = Tray::new(&run.plan).expect("a good set-up");
        let mut ghost = Ghost::new(&tray, Some(Shortcut::KeepServed));
        for step in &run.steps {
            assert_eq!(
                ghost.event(&step.event),
                step.reply,
                "seed {seed}: {step:?}"
            );
        }
        older += usize::from(no_older_datum(ghost.history()).is_err());
    }
    println!("the table disagreed in {disagreed} of 40 runs; {older} show an older datum");
    assert!(disagreed == 40 && older > 0);
}

/// A part that serves nobody.
struct ServesNobody;

impl Part for ServesNobody {
    fn serve(_: &mut Record, _: &Message) -> (Reply, Message) {
        (Refusal::Unfit.into(), Message::ZERO)
    }
}

#[test]
#[should_panic(expected = "no desk gives up")]
fn a_desk_that_gives_up_ends_the_run() {
    let _ = run::<ServesNobody>(1, 150);
}
