//! Eight desks in eight threads, seed after seed: `eight [first seed] [seeds] [turns]`.

use std::process::ExitCode;

use twin::eight::{check, run, Twin};
use twin::Table;

fn main() -> ExitCode {
    let given: Result<Vec<u64>, _> = std::env::args().skip(1).map(|arg| arg.parse()).collect();
    let Ok(given) = given else {
        eprintln!("usage: eight [first seed] [seeds] [turns]");
        return ExitCode::FAILURE;
    };
    let or = |place: usize, usual| given.get(place).copied().unwrap_or(usual);
    let (first, seeds, turns) = (or(0, 1), or(1, 10), or(2, 150));
    for seed in first..first + seeds {
        let run = run::<Twin>(seed, turns as usize);
        match check::<Table>(&run) {
            Ok(checked) => println!("seed {seed}: {} frames, {checked:?}", run.frames),
            Err(why) => {
                println!("seed {seed}: {why}");
                return ExitCode::FAILURE;
            }
        }
    }
    ExitCode::SUCCESS
}
