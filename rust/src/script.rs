//! The script program: a tray's history in, one line for each event out.

use crate::{Event, Plan, Refusal, Table, CELLS};

/// The longest input it looks at.
pub const LONGEST_INPUT: usize = 65_536;
const LONGEST_LINE: usize = 400;

/// What the program writes for this input.
#[must_use]
pub fn run(input: &[u8]) -> Vec<u8> {
    if input.len() > LONGEST_INPUT {
        return b"too long\n".to_vec();
    }
    let mut out = Vec::with_capacity(2 * input.len() + 16);
    let mut lines = Lines {
        rest: input,
        number: 0,
    };
    match play(&mut lines, &mut out) {
        Ok(()) => {}
        Err(Stop::BadLine) => {
            out.extend_from_slice(b"bad line ");
            print(&mut out, &[lines.number]);
        }
        Err(Stop::Refused(refusal)) => print(&mut out, &[refusal as u32]),
    }
    out
}

/// Why the program stops before the end of its input.
enum Stop {
    BadLine,
    Refused(Refusal),
}

fn play(lines: &mut Lines, out: &mut Vec<u8>) -> Result<(), Stop> {
    let mut two = [0; 2];
    lines.next(&mut two)?;
    let [desks, cells] = two;
    let mut plan = Plan {
        desks,
        cells,
        keepers: [0; CELLS],
    };
    // With no such number of cells there is no telling what line 2 should be.
    if (1..=CELLS as u32).contains(&cells) {
        lines.next(&mut plan.keepers[..cells as usize])?;
    }
    let mut table = Table::new(&plan).map_err(Stop::Refused)?;
    let mut four = [0; 4];
    while !lines.rest.is_empty() {
        lines.next(&mut four)?;
        let [kind, desk, cell, word] = four;
        let reply = table.event(&Event {
            kind,
            desk,
            cell,
            word,
        });
        print(out, &[reply.code, reply.value, reply.count]);
    }
    Ok(())
}

/// The lines not read yet, and the number of the last one read.
struct Lines<'a> {
    rest: &'a [u8],
    number: u32,
}

impl Lines<'_> {
    /// Reads the next line, which holds exactly as many numbers as there is room for.
    fn next(&mut self, numbers: &mut [u32]) -> Result<(), Stop> {
        self.number += 1;
        let end = self
            .rest
            .iter()
            .take(LONGEST_LINE + 1)
            .position(|&byte| byte == b'\n')
            .ok_or(Stop::BadLine)?;
        let line = &self.rest[..end];
        self.rest = &self.rest[end + 1..];
        let mut fields = line.split(|&byte| byte == b' ');
        for number in numbers {
            *number = fields.next().and_then(parse).ok_or(Stop::BadLine)?;
        }
        match fields.next() {
            None => Ok(()),
            Some(_) => Err(Stop::BadLine),
        }
    }
}

/// A decimal number without leading zeros.
fn parse(digits: &[u8]) -> Option<u32> {
    match digits {
        [] | [b'0', _, ..] => None,
        _ => digits.iter().try_fold(0u32, |number, &digit| match digit {
            b'0'..=b'9' => number.checked_mul(10)?.checked_add(u32::from(digit - b'0')),
            _ => None,
        }),
    }
}

/// One line of numbers with one space between.
fn print(out: &mut Vec<u8>, numbers: &[u32]) {
    for (i, &number) in numbers.iter().enumerate() {
        if i > 0 {
            out.push(b' ');
        }
        let mut digits = [0; 10];
        let mut first = digits.len();
        let mut rest = number;
        loop {
            first -= 1;
            digits[first] = b'0' + (rest % 10) as u8;
            rest /= 10;
            if rest == 0 {
                break;
            }
        }
        out.extend_from_slice(&digits[first..]);
    }
    out.push(b'\n');
}
