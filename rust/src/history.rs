//! Demand 3 decided on one history, from its operations alone.
//!
//! # What is decided
//!
//! For a desk, its *view* is its own finished reads and everybody's taken writes. Causal order is
//! each desk's own order, each write before the reads that come from it, and chains of these,
//! through any desk's operations. Demand 3 asks for a line-up of the view, each operation once,
//! that goes up with causal order, and in which the nearest write of its cell before each read is
//! the one that the read comes from (none before it, if it comes from none).
//!
//! # Why the test is exact
//!
//! Begin with causal order and add what every line-up must have: if a write `v` of the cell of a
//! read `r` stands before `r`, and `r` comes from another write `w`, then `v` stands before `w`.
//! Repeat, with chains, until nothing is added. Each addition is forced, so if some operation has
//! come to stand before itself, or a write of its cell before a read that comes from none, there
//! is no line-up.
//!
//! Else there is one: take the desk's reads in its own order, and before each put whatever stands
//! before it and is not placed yet, in any order that goes up; the other writes come last. Only
//! operations that stand before `r` are placed before it. Among those, every write of its cell
//! other than `w` stands before `w`. So `w` is the nearest. That a view has the reads of *one*
//! desk, in a row, is what makes this enough; no search is needed and nothing is left undecided.

/// A finished read or a taken write.
#[derive(Clone, Copy, Debug, PartialEq, Eq)]
pub struct Operation {
    /// The desk that asked it.
    pub desk: u8,
    /// Its cell.
    pub cell: u8,
    /// The word read or written.
    pub word: u32,
    /// Read or write.
    pub does: Does,
}

/// What an operation does.
#[derive(Clone, Copy, Debug, PartialEq, Eq)]
pub enum Does {
    /// It stores its word.
    Write,
    /// It shows the word of the write at this place of the history, which may be 0, or blank.
    Read(Option<usize>),
}

/// The operations of a run; one desk's stand in the order it asked them.
pub type History = [Operation];

/// Why a desk has no line-up.
#[derive(Clone, Copy, Debug, PartialEq, Eq)]
pub enum Broken {
    /// The read at this place comes from something that is no write of its cell, or shows another
    /// word than that write's.
    Source(usize),
    /// The operation at this place would have to stand before itself.
    Circle(usize),
    /// The read at this place comes from no write, yet one must stand before it.
    Blank(usize),
}

/// A line-up of the desk's view, as places in the history, or why there is none.
pub fn line_up(history: &History, desk: u8) -> Result<Vec<usize>, Broken> {
    Causal::of(history)?.line_up(desk)
}

/// Causal order of a history, to ask for several desks.
pub struct Causal<'a> {
    history: &'a History,
    /// For each operation, those that causally precede it.
    before: Vec<Set>,
}

impl<'a> Causal<'a> {
    /// Causal order, where every read's source is a write of its cell and its word.
    pub fn of(history: &'a History) -> Result<Causal<'a>, Broken> {
        let mut before = vec![Set::empty(history.len()); history.len()];
        let mut last = [None; 256];
        for (place, operation) in history.iter().enumerate() {
            if let Some(earlier) = last[usize::from(operation.desk)].replace(place) {
                before[place].add(earlier);
            }
            if let Does::Read(from) = operation.does {
                if !is_source(history, operation, from) {
                    return Err(Broken::Source(place));
                }
                if let Some(write) = from {
                    before[place].add(write);
                }
            }
        }
        // Chains, by Warshall: through one operation after the other.
        for through in 0..history.len() {
            let earlier = before[through].clone();
            for set in before.iter_mut().filter(|set| set.has(through)) {
                set.add_all(&earlier);
            }
        }
        Ok(Causal { history, before })
    }

    /// A line-up of the desk's view, or why there is none.
    pub fn line_up(&self, desk: u8) -> Result<Vec<usize>, Broken> {
        let reads = reads_of(self.history, desk);
        let before = self.forced(&reads)?;
        let is_in_view = |&place: &usize| {
            let operation = &self.history[place];
            operation.does == Does::Write || operation.desk == desk
        };
        if let Some(place) = (0..self.history.len())
            .filter(is_in_view)
            .find(|&place| before[place].has(place))
        {
            return Err(Broken::Circle(place));
        }
        // What stands before an operation has fewer before it: sorting by that number goes up.
        let mut upward: Vec<usize> = (0..self.history.len()).filter(is_in_view).collect();
        upward.sort_by_key(|&place| before[place].len());
        let mut line = Vec::with_capacity(upward.len());
        for Read { place: read, .. } in reads {
            let (due, later): (Vec<_>, Vec<_>) = upward
                .into_iter()
                .partition(|&place| place == read || before[read].has(place));
            line.extend(due);
            upward = later;
        }
        line.extend(upward);
        Ok(line)
    }

    /// Causal order and all that these reads force, or a read that cannot be blank.
    fn forced(&self, reads: &[Read]) -> Result<Vec<Set>, Broken> {
        let mut before = self.before.clone();
        loop {
            let mut grew = false;
            for &Read { place, cell, from } in reads {
                for other in writes_of(self.history, cell) {
                    if Some(other) == from || !before[place].has(other) {
                        continue;
                    }
                    let source = from.ok_or(Broken::Blank(place))?;
                    if !before[source].has(other) {
                        put_before(&mut before, other, source);
                        grew = true;
                    }
                }
            }
            if !grew {
                return Ok(before);
            }
        }
    }
}

/// Adds `first` before `second`, with all chains that makes.
fn put_before(before: &mut [Set], first: usize, second: usize) {
    let mut gained = before[first].clone();
    gained.add(first);
    for (place, set) in before.iter_mut().enumerate() {
        if place == second || set.has(second) {
            set.add_all(&gained);
        }
    }
}

/// A read of the desk in question.
struct Read {
    place: usize,
    cell: u8,
    from: Option<usize>,
}

/// A desk's reads in its own order.
fn reads_of(history: &History, desk: u8) -> Vec<Read> {
    let all = history.iter().enumerate();
    all.filter(|(_, operation)| operation.desk == desk)
        .filter_map(|(place, operation)| match operation.does {
            Does::Read(from) => Some(Read {
                place,
                cell: operation.cell,
                from,
            }),
            Does::Write => None,
        })
        .collect()
}

/// Where the writes of a cell stand.
fn writes_of(history: &History, cell: u8) -> impl Iterator<Item = usize> + use<'_> {
    let is_one =
        move |&place: &usize| history[place].does == Does::Write && history[place].cell == cell;
    (0..history.len()).filter(is_one)
}

fn is_source(history: &History, read: &Operation, from: Option<usize>) -> bool {
    match from {
        None => read.word == 0,
        Some(place) => history.get(place).is_some_and(|source| {
            source.does == Does::Write && source.cell == read.cell && source.word == read.word
        }),
    }
}

/// A set of places, one bit each.
#[derive(Clone)]
struct Set(Vec<u64>);

impl Set {
    fn empty(room: usize) -> Set {
        Set(vec![0; room.div_ceil(64)])
    }

    fn has(&self, place: usize) -> bool {
        self.0[place / 64] >> (place % 64) & 1 == 1
    }

    fn add(&mut self, place: usize) {
        self.0[place / 64] |= 1 << (place % 64);
    }

    fn add_all(&mut self, other: &Set) {
        for (to, from) in self.0.iter_mut().zip(&other.0) {
            *to |= from;
        }
    }

    fn len(&self) -> u32 {
        self.0.iter().map(|bits| bits.count_ones()).sum()
    }
}
