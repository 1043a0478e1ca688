//! The stored outside cases: script inputs with what must be written, and frame vectors.

use twin::cases::{hold_frames, scripts};
use twin::{frame, script, Message};

#[test]
fn every_script_case_to_the_byte() {
    let scripts = scripts();
    for case in &scripts {
        let written = script::run(&case.input);
        assert!(
            written == case.output,
            "{}: wrote {:?}",
            case.name,
            String::from_utf8_lossy(&written)
        );
    }
    let count = scripts.len();
    println!("{count} script cases");
    assert!(count >= 232, "only {count} cases");
}

#[test]
fn every_frame_vector() {
    let (reads, writes) = hold_frames(
        |bytes| match frame::read(bytes) {
            Ok((message, used)) => (0, message, used),
            Err(refusal) => (refusal as u32, Message::ZERO, 0),
        },
        |message, out| match frame::write(message, out) {
            Ok(used) => (0, used),
            Err(refusal) => (refusal as u32, 0),
        },
    );
    let (reads, writes) = (reads.len(), writes.len());
    println!("{reads} frames read, {writes} written");
    assert!(reads > 500 && writes > 300, "only {reads} and {writes}");
}
