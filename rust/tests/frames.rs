//! Frames: what is written is read back, every truncation is noticed, and nothing is read that
//! would not have been written so.

use twin::gen::{self, Rng};
use twin::{frame, Clock, Message, Refusal};

fn written(message: &Message) -> Result<Vec<u8>, Refusal> {
    let mut bytes = vec![0xEE; frame::LONGEST];
    let used = frame::write(message, &mut bytes)?;
    assert!(
        bytes[used..].iter().all(|&byte| byte == 0xEE),
        "{message:?}"
    );
    bytes.truncate(used);
    Ok(bytes)
}

#[test]
fn what_is_written_is_read_back_and_every_truncation_noticed() {
    let mut truncations = 0;
    for seed in 0..50_000 {
        let mut rng = Rng::new(seed);
        let message = gen::message(&mut rng);
        let mut bytes = written(&message).expect("a well-formed message");
        let used = bytes.len();
        assert_eq!(frame::read(&bytes), Ok((message, used)), "seed {seed}");
        for kept in 0..used {
            assert_eq!(
                frame::read(&bytes[..kept]),
                Err(Refusal::FrameCut),
                "seed {seed}"
            );
            let mut room = vec![0xEE; kept];
            assert_eq!(
                frame::write(&message, &mut room),
                Err(Refusal::FrameRoom),
                "seed {seed}"
            );
            assert!(room.iter().all(|&byte| byte == 0xEE), "seed {seed}");
            truncations += 1;
        }
        bytes.extend((0..rng.below(5)).map(|_| 0xFF));
        assert_eq!(frame::read(&bytes), Ok((message, used)), "seed {seed}");
    }
    println!("{truncations} truncations");
}

#[test]
fn what_is_read_would_be_written_so() {
    let (mut read, mut refused) = (0, [0; 39]);
    for seed in 0..400_000 {
        let bytes = gen::damaged_frame(&mut Rng::new(seed));
        match frame::read(&bytes) {
            Ok((message, used)) => {
                assert_eq!(
                    written(&message).as_deref(),
                    Ok(&bytes[..used]),
                    "seed {seed}"
                );
                read += 1;
            }
            Err(refusal) => refused[refusal as usize] += 1,
        }
    }
    println!(
        "damaged frames: {read} read, refused from 30 on {:?}",
        &refused[30..]
    );
    assert!(read > 1_000 && refused[30..=36].iter().all(|&count| count > 1_000));
}

#[test]
fn what_is_not_written_is_not_well_formed() {
    let (mut done, mut refused) = (0, [0; 39]);
    for seed in 0..200_000 {
        let message = gen::any_message(&mut Rng::new(seed));
        let Message {
            kind,
            desks,
            desk,
            cell,
            word,
            clock,
        } = message;
        let extra = clock.n.iter().skip(desks.into()).any(|&number| number != 0)
            || kind == 1 && (word != 0 || clock != Clock::ZERO);
        let lines = [
            (32, !(1..=4).contains(&kind)),
            (33, !(2..=8).contains(&desks)),
            (34, desk >= desks),
            (35, cell > 31),
            (38, extra),
        ];
        let number = lines.iter().find(|(_, applies)| *applies);
        match (written(&message), number) {
            (Ok(bytes), None) => {
                assert_eq!(
                    frame::read(&bytes),
                    Ok((message, bytes.len())),
                    "seed {seed}"
                );
                done += 1;
            }
            (Err(refusal), Some(&(number, _))) => {
                assert_eq!(refusal as u32, number, "seed {seed}");
                let no_room = frame::write(&message, &mut []);
                assert_eq!(no_room, Err(refusal), "seed {seed}");
                refused[number as usize] += 1;
            }
            (result, _) => panic!("seed {seed}: {result:?} for {message:?}"),
        }
    }
    println!(
        "messages: {done} written, refused from 30 on {:?}",
        &refused[30..]
    );
    assert!([32, 33, 34, 35, 38]
        .iter()
        .all(|&number: &usize| refused[number] > 1_000));
}
