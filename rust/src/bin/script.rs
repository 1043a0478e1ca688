//! The script program over standard input and output.

use std::io::{self, Read, Write};

fn main() -> io::Result<()> {
    // One byte more than is allowed is enough to know that the input is too long.
    let mut input = Vec::new();
    let most = twin::script::LONGEST_INPUT as u64 + 1;
    io::stdin().lock().take(most).read_to_end(&mut input)?;
    io::stdout().lock().write_all(&twin::script::run(&input))
}
