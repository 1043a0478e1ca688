//! A random tray's history as a script of 65,536 bytes, the same for the same seed.

use twin::gen::{good_setup, script, Rng};
use twin::script::LONGEST_INPUT;

fn main() {
    let seed = std::env::args().nth(1).and_then(|word| word.parse().ok());
    let mut rng = Rng::new(seed.expect("usage: random SEED"));
    let plan = good_setup(&mut rng, 2);
    print!("{}", script(&mut rng, &plan, LONGEST_INPUT));
}
