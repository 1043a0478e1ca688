//! The library's data and functions, field for field as `include/cwmorlais.h` has them.
//!
//! Every function here takes any value of its types, sound or not, and is safe to call. They are
//! public for programs that store records themselves, and for tests of what is not sound; other
//! programs want [`Desk`](crate::Desk) and [`Table`](crate::Table), which hold sound ones only.

/// One number per desk; those past the desk count are 0.
#[repr(C)]
#[derive(Clone, Copy, Debug, Default, PartialEq, Eq)]
pub struct Clock {
    /// The numbers, by desk.
    pub n: [u32; 8],
}

/// What a desk has of one cell. It is blank exactly if its stamp is all zeros; its word is then 0,
/// or the record is not sound. A cell that is not held has word 0 and the zero stamp.
#[repr(C)]
#[derive(Clone, Copy, Debug, Default, PartialEq, Eq)]
pub struct Cell {
    /// Whether the desk has it at all.
    pub held: bool,
    /// Its word. 0 is a word too, where somebody wrote it.
    pub word: u32,
    /// When that word was written; all zeros if nobody has.
    pub stamp: Clock,
}

/// What a desk waits for: kind 0 nothing, 1 read asked, 2 write asked (word, sent clock); in a
/// table also 3 read answered, 4 write answered (word, stamp). A sent clock is not all zeros; where
/// a stamp is, the word is 0.
#[repr(C)]
#[derive(Clone, Copy, Debug, Default, PartialEq, Eq)]
pub struct Slot {
    /// One of the kinds above.
    pub kind: u8,
    /// The cell asked for.
    pub cell: u8,
    /// The word to write, or the word answered.
    pub word: u32,
    /// The sent clock, or the stamp answered.
    pub clock: Clock,
}

/// A cell's place in the tray, the same for all desks.
#[repr(C)]
#[derive(Clone, Copy, Debug, Default, PartialEq, Eq)]
pub struct Place {
    /// The desk that keeps the cell.
    pub keeper: u8,
}

/// How many desks and cells.
#[repr(C)]
#[derive(Clone, Copy, Debug, Default, PartialEq, Eq)]
pub struct Counts {
    /// 1 to 8.
    pub desks: u8,
    /// 1 to 32.
    pub cells: u8,
}

/// What all desks know from the start.
#[repr(C)]
#[derive(Clone, Copy, Debug, Default, PartialEq, Eq)]
pub struct Tray {
    /// How many there are.
    pub counts: Counts,
    /// The cells' places; all zero past the cell count.
    pub places: [Place; 32],
}

/// What a desk has beside its cells.
#[repr(C)]
#[derive(Clone, Copy, Debug, Default, PartialEq, Eq)]
pub struct Seat {
    /// Its clock.
    pub clock: Clock,
    /// What it waits for. In a record a request stays here until its answer is brought.
    pub slot: Slot,
    /// Whether it served a write since it began to wait, so that it must not keep the answer.
    pub served: bool,
}

/// A desk's record.
#[repr(C)]
#[derive(Clone, Copy, Debug, Default, PartialEq, Eq)]
pub struct Record {
    /// The counts and places.
    pub tray: Tray,
    /// The desk's number.
    pub desk: u8,
    /// What it has beside its cells.
    pub seat: Seat,
    /// The cells as it has them.
    pub row: [Cell; 32],
}

/// All desks, with their messages under way.
#[repr(C)]
#[derive(Clone, Copy, Debug, PartialEq, Eq)]
pub struct Table {
    /// Desk `d`'s cell `c` is at `32 * d + c`.
    pub cells: [Cell; 256],
    /// The counts and places.
    pub tray: Tray,
    /// What each desk has beside its cells.
    pub seats: [Seat; 8],
}

impl Default for Table {
    fn default() -> Table {
        Table {
            cells: [Cell::default(); 256],
            tray: Tray::default(),
            seats: Default::default(),
        }
    }
}

/// All that set-up and start are told, in any numbers.
#[repr(C)]
#[derive(Clone, Copy, Debug, Default, PartialEq, Eq)]
pub struct Plan {
    /// How many desks.
    pub desks: u32,
    /// How many cells.
    pub cells: u32,
    /// Each cell's keeper; those past the cell count are ignored.
    pub keepers: [u32; 32],
}

/// Kinds 1 read, 2 write, 5 drop; for a table also 3 take, 4 bring.
#[repr(C)]
#[derive(Clone, Copy, Debug, Default, PartialEq, Eq)]
pub struct Event {
    /// One of the kinds above.
    pub kind: u32,
    /// The desk. A desk's part does not look at it.
    pub desk: u32,
    /// The cell.
    pub cell: u32,
    /// The word to write.
    pub word: u32,
}

/// Codes 0 done, 1 asked, 2 blank: a read of what nobody wrote; any other is a refusal.
#[repr(C)]
#[derive(Clone, Copy, Debug, Default, PartialEq, Eq)]
pub struct Reply {
    /// One of the codes above, or a [`Refusal`](crate::Refusal)'s number.
    pub code: u32,
    /// The word, where there is one to show.
    pub value: u32,
    /// Copies dropped.
    pub count: u32,
}

/// What desks send each other: kinds 1 read asked, 2 write asked, 3 read answered, 4 write
/// answered. Word and clock are as in a [`Slot`], or the message fits no desk (15), though it has a
/// frame; those of a read asked are ignored.
#[repr(C)]
#[derive(Clone, Copy, Debug, Default, PartialEq, Eq)]
pub struct Message {
    /// One of the kinds above.
    pub kind: u8,
    /// The desk count of the tray.
    pub desks: u8,
    /// The desk that asked, in the answer too.
    pub desk: u8,
    /// The cell.
    pub cell: u8,
    /// The word to write, or the word answered.
    pub word: u32,
    /// The sent clock, or the stamp answered.
    pub clock: Clock,
}

/// What a desk's part gives. The message is all zero where there is none to send.
#[repr(C)]
#[derive(Clone, Copy, Debug, Default, PartialEq, Eq)]
pub struct Answer {
    /// What the desk is told.
    pub reply: Reply,
    /// What it sends.
    pub message: Message,
}

/// A message read, or a refusal with an all-zero one and 0 used.
#[repr(C)]
#[derive(Clone, Copy, Debug, Default, PartialEq, Eq)]
pub struct Reading {
    /// 0, or a refusal's number.
    pub code: u32,
    /// The message.
    pub message: Message,
    /// How many bytes its frame used.
    pub used: usize,
}

/// How a message was written.
#[repr(C)]
#[derive(Clone, Copy, Debug, Default, PartialEq, Eq)]
pub struct Written {
    /// 0, or a refusal's number.
    pub code: u32,
    /// How many bytes its frame used.
    pub used: usize,
}

/// Reads the frame that `bytes` begins with: 30 to 36.
#[must_use]
pub fn frame_read(bytes: &[u8]) -> Reading {
    // SAFETY: as below; and the slice's bytes are there to read.
    unsafe { cwmorlais_frame_read(bytes.as_ptr(), bytes.len()) }
}

/// Writes a message's frame at the front of `out`, and nothing past it: 32 to 35, 38, 37.
pub fn frame_write(message: &Message, out: &mut [u8]) -> Written {
    // SAFETY: as below; and the slice's bytes are there to write, and nobody else's meanwhile.
    unsafe { cwmorlais_frame_write(message, out.as_mut_ptr(), out.len()) }
}

// SAFETY: these are the declarations of `include/cwmorlais.h`, and the assertions below hold the
// types to its layout. Each function is proved, on every input, to end, to touch only what it is
// lent, and to keep nothing of it. What a caller owes beside that is what `&mut` and `bool` are in
// Rust: memory that is there, aligned and nobody else's until the function returns, and 0 or 1.
unsafe extern "C" {
    /// A fresh record in place of the one lent: 0, or 20, 21, 22, then 10, and the record is all
    /// zero.
    #[link_name = "cwmorlais_desk_start"]
    pub safe fn start(record: &mut Record, plan: Plan, desk: u32) -> u32;
    /// The desk's user wants something: 9, 8, 11, 12, 14, 16. Code 1 comes with the request.
    #[link_name = "cwmorlais_desk_event"]
    pub safe fn desk_event(record: &mut Record, event: Event) -> Answer;
    /// A request came for a cell that this desk keeps: 9, 15. Code 0 comes with the answer.
    #[link_name = "cwmorlais_desk_serve"]
    pub safe fn desk_serve(record: &mut Record, request: &Message) -> Answer;
    /// The answer came to what this desk asked: 9, 13, 15.
    #[link_name = "cwmorlais_desk_bring"]
    pub safe fn desk_bring(record: &mut Record, answer: &Message) -> Answer;
    /// A fresh table in place of the one lent: 0, or 20, 21, 22, and the table is all zero.
    #[link_name = "cwmorlais_table_set_up"]
    pub safe fn set_up(table: &mut Table, plan: Plan) -> u32;
    /// One event: 9, 8, 10, 11, 12, 13, 14, 16.
    #[link_name = "cwmorlais_table_event"]
    pub safe fn table_event(table: &mut Table, event: Event) -> Reply;
    fn cwmorlais_frame_read(bytes: *const u8, count: usize) -> Reading;
    fn cwmorlais_frame_write(message: &Message, out: *mut u8, room: usize) -> Written;
}

/// Holds each type to the header's layout: its size, and where each field stands. A field that is
/// left out does not compile.
macro_rules! layout {
    ($($type:ident $size:literal { $($field:ident $place:literal),* })*) => {
        const _: () = {
            $(
                let _: fn($type) = |$type { $($field: _),* }| {};
                assert!(size_of::<$type>() == $size, stringify!($type));
                $(assert!(
                    std::mem::offset_of!($type, $field) == $place,
                    concat!(stringify!($type), ".", stringify!($field))
                );)*
            )*
        };
    };
}

layout! {
    Clock 32 { n 0 }
    Cell 40 { held 0, word 4, stamp 8 }
    Slot 40 { kind 0, cell 1, word 4, clock 8 }
    Place 1 { keeper 0 }
    Counts 2 { desks 0, cells 1 }
    Tray 34 { counts 0, places 2 }
    Seat 76 { clock 0, slot 32, served 72 }
    Record 1392 { tray 0, desk 34, seat 36, row 112 }
    Table 10884 { cells 0, tray 10240, seats 10276 }
    Plan 136 { desks 0, cells 4, keepers 8 }
    Event 16 { kind 0, desk 4, cell 8, word 12 }
    Reply 12 { code 0, value 4, count 8 }
    Message 40 { kind 0, desks 1, desk 2, cell 3, word 4, clock 8 }
    Answer 52 { reply 0, message 12 }
    Reading 56 { code 0, message 4, used 48 }
    Written 16 { code 0, used 8 }
}
