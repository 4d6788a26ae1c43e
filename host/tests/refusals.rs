//! Which calls are refused, with which number, in which order, and that a refused run is untouched.

mod support;

use aria_host::{decrypt, encrypt, run, run_numbered, Direction, Engine, Refusal};
use support::{Guarded, Random};

const DIRECTIONS: [u32; 7] = [0, 1, 2, 3, 4, 5, u32::MAX];

/// The delivery's rule: the first that applies of 1 (key), 2 (direction), 4 (run).
fn expected(key_len: usize, direction: u32, run_len: usize) -> Result<(), Refusal> {
    if ![16, 24, 32].contains(&key_len) {
        Err(Refusal::KeyLength)
    } else if direction > 1 {
        Err(Refusal::Direction)
    } else if run_len % 16 != 0 {
        Err(Refusal::RunLength)
    } else {
        Ok(())
    }
}

fn try_call(engine: Engine, key: &[u8], direction: u32, input: &[u8]) {
    let mut lent = Guarded::new(input, 0);
    let answer = run_numbered(engine, key, direction, lent.content_mut());

    let case = format!(
        "{engine:?}, key of {} bytes, direction {direction}, run of {} bytes",
        key.len(),
        input.len()
    );
    assert_eq!(
        answer,
        expected(key.len(), direction, input.len()),
        "{case}"
    );
    if answer.is_err() {
        assert!(lent.content() == input, "a refused run changed: {case}");
    } else if !input.is_empty() {
        assert!(lent.content() != input, "an accepted run stayed: {case}");
    }
    assert!(lent.guards_untouched(), "wrote outside: {case}");
}

#[test]
fn every_key_length_direction_and_some_run_lengths() {
    let mut random = Random::seeded("every_key_length_direction_and_some_run_lengths");
    for &engine in Engine::ALL {
        for key_len in 0..=64 {
            for direction in DIRECTIONS {
                for run_len in [0, 1, 8, 15, 16, 17, 31, 32, 33] {
                    let key = random.bytes(key_len);
                    let input = random.bytes(run_len);
                    try_call(engine, &key, direction, &input);
                }
            }
        }
    }
}

#[test]
fn every_run_length_to_five_blocks() {
    let mut random = Random::seeded("every_run_length_to_five_blocks");
    for &engine in Engine::ALL {
        for key_len in [16, 24, 32] {
            for direction in DIRECTIONS {
                for run_len in 0..=80 {
                    let key = random.bytes(key_len);
                    let input = random.bytes(run_len);
                    try_call(engine, &key, direction, &input);
                }
            }
        }
    }
}

#[test]
fn directions_with_one_bit_set() {
    for &engine in Engine::ALL {
        for bit in 0..32 {
            try_call(engine, &[0x3c; 16], 1 << bit, &[0x5a; 48]);
        }
    }
}

#[test]
fn the_typed_calls_refuse_alike() {
    type Call = fn(Engine, &[u8], &mut [u8]) -> Result<(), Refusal>;
    let calls: [Call; 4] = [
        |engine, key, bytes| run(engine, key, Direction::Forward, bytes),
        |engine, key, bytes| run(engine, key, Direction::Back, bytes),
        encrypt,
        decrypt,
    ];
    for &engine in Engine::ALL {
        for call in calls {
            let mut bytes = [0x5a; 40];
            assert_eq!(call(engine, &[0; 15], &mut bytes), Err(Refusal::KeyLength));
            assert_eq!(call(engine, &[0; 16], &mut bytes), Err(Refusal::RunLength));
            assert_eq!(bytes, [0x5a; 40]);
            assert_eq!(call(engine, &[0; 16], &mut []), Ok(()));
        }
    }
}

#[test]
fn a_refusal_says_its_number() {
    for (refusal, number) in [
        (Refusal::KeyLength, 1),
        (Refusal::Direction, 2),
        (Refusal::RunLength, 4),
        (Refusal::TagLength, 23),
        (Refusal::TagDiffers, 25),
    ] {
        assert_eq!(refusal.number(), number);
        assert!(refusal
            .to_string()
            .starts_with(&format!("refused {number}: ")));
    }
}
