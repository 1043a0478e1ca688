//! The stored cases from outside: scripts with what must be written, and frame vectors.

use std::fs;
use std::path::{Path, PathBuf};

use crate::{Clock, Message};

/// Where they are: what the environment variable `CASES` names, or a folder `cases` beside the
/// package, or the one shared by all.
///
/// # Panics
/// If there is none. So do the others here where a file is not as it should be.
#[must_use]
pub fn folder() -> PathBuf {
    if let Some(given) = std::env::var_os("CASES") {
        return given.into();
    }
    let package = Path::new(env!("CARGO_MANIFEST_DIR"));
    let usual = [package.join("../cases"), package.join("../../shared/cases")];
    let found = usual.iter().find(|folder| folder.is_dir());
    found.expect("no folder of cases: set CASES").clone()
}

/// A script, and what the script program must write for it.
#[derive(Debug)]
pub struct Script {
    /// The file's name, without its ending.
    pub name: String,
    /// The script, well formed or not.
    pub input: Vec<u8>,
    /// What must be written, to the byte.
    pub output: Vec<u8>,
}

/// All stored scripts, by name.
#[must_use]
pub fn scripts() -> Vec<Script> {
    let entries = fs::read_dir(folder()).expect("the folder of cases");
    let paths = entries.map(|entry| entry.expect("an entry").path());
    let inputs = paths.filter(|path| path.extension().is_some_and(|ending| ending == "in"));
    let mut scripts: Vec<Script> = inputs.map(|path| script(&path)).collect();
    scripts.sort_by(|a, b| a.name.cmp(&b.name));
    scripts
}

/// The script of this name.
#[must_use]
pub fn script_named(name: &str) -> Script {
    script(&folder().join(format!("{name}.in")))
}

fn script(path: &Path) -> Script {
    Script {
        name: path.file_stem().expect("a name").to_string_lossy().into(),
        input: fs::read(path).expect("an input"),
        output: fs::read(path.with_extension("out")).expect("its output"),
    }
}

/// Holds all stored frame vectors, those from outside and those of `frame_cases`, which has our own
/// beside them, to what `read` gives of some bytes (a code, the message and the bytes used) and
/// `write` of a message and an output (a code and the bytes used). Returns the codes of those read
/// and of those written.
pub fn hold_frames(
    read: impl Fn(&[u8]) -> (u32, Message, usize),
    write: impl Fn(&Message, &mut [u8]) -> (u32, usize),
) -> (Vec<u32>, Vec<u32>) {
    let own = Path::new(env!("CARGO_MANIFEST_DIR")).join("../crates/frame_cases/stdout");
    let files = [folder().join("frames.txt"), own];
    let texts = files.map(|file| fs::read_to_string(file).expect("frame vectors"));
    let (mut reads, mut writes) = (Vec::new(), Vec::new());
    for line in texts.iter().flat_map(|text| text.lines()) {
        let fields: Vec<&str> = line.split(' ').collect();
        match (fields[0], fields.len()) {
            ("R", 17) => {
                let must = (number(fields[2]), message(&fields[4..]), size(fields[3]));
                assert_eq!(read(&bytes(fields[1])), must, "{line}");
                reads.push(must.0);
            }
            ("W", 18) => {
                let mut out = vec![0xEE; size(fields[14])];
                let must = (number(fields[15]), size(fields[16]));
                assert_eq!(write(&message(&fields[1..14]), &mut out), must, "{line}");
                assert_eq!(out, bytes(fields[17]), "{line}");
                writes.push(must.0);
            }
            _ => panic!("no such vector: {line}"),
        }
    }
    (reads, writes)
}

fn message(fields: &[&str]) -> Message {
    Message {
        kind: byte(fields[0]),
        desks: byte(fields[1]),
        desk: byte(fields[2]),
        cell: byte(fields[3]),
        word: number(fields[4]),
        clock: Clock {
            n: std::array::from_fn(|i| number(fields[5 + i])),
        },
    }
}

fn byte(field: &str) -> u8 {
    field.parse().expect("a byte")
}

fn number(field: &str) -> u32 {
    field.parse().expect("a number")
}

fn size(field: &str) -> usize {
    field.parse().expect("a size")
}

fn bytes(hex: &str) -> Vec<u8> {
    if hex == "-" {
        return Vec::new();
    }
    let pairs = hex.as_bytes().chunks(2);
    pairs
        .map(|two| {
            let two = std::str::from_utf8(two).expect("hex");
            u8::from_str_radix(two, 16).expect("hex")
        })
        .collect()
}
