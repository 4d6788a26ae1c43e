//! Both engines against libcrypto's ARIA-ECB.

mod support;

use aria_host::{run, Direction, Engine};
use support::libcrypto::Ecb;
use support::{Guarded, Random};

const KEY_LENGTHS: [usize; 3] = [16, 24, 32];
const RANDOM_CASES: usize = 6000;

/// One run in place at `offset` from a cache line, compared byte by byte; the guards stay.
fn compare(engine: Engine, key: &[u8], direction: Direction, input: &[u8], offset: usize) {
    let mut expected = input.to_vec();
    Ecb::new(key.len(), direction).run(key, &mut expected);

    let mut lent = Guarded::new(input, offset);
    assert_eq!(run(engine, key, direction, lent.content_mut()), Ok(()));

    let case = || {
        format!(
            "{engine:?} {direction:?}, key {key:02x?}, {} bytes at offset {offset}",
            input.len()
        )
    };
    assert!(lent.content() == expected, "other bytes: {}", case());
    assert!(lent.guards_untouched(), "wrote outside: {}", case());
}

/// Every combination of key length, direction and engine.
fn everywhere(mut test: impl FnMut(usize, Direction, Engine)) {
    for key_len in KEY_LENGTHS {
        for direction in Direction::ALL {
            for &engine in Engine::ALL {
                test(key_len, direction, engine);
            }
        }
    }
}

#[test]
fn runs_of_0_to_64_blocks() {
    let mut random = Random::seeded("runs_of_0_to_64_blocks");
    everywhere(|key_len, direction, engine| {
        for blocks in 0..=64 {
            let key = random.bytes(key_len);
            let input = random.bytes(16 * blocks);
            compare(engine, &key, direction, &input, 0);
        }
    });
}

#[test]
fn a_run_of_one_mebibyte() {
    let mut random = Random::seeded("a_run_of_one_mebibyte");
    let input = random.bytes(1 << 20);
    everywhere(|key_len, direction, engine| {
        let key = random.bytes(key_len);
        compare(engine, &key, direction, &input, 0);
    });
}

#[test]
fn every_start_within_a_cache_line() {
    let mut random = Random::seeded("every_start_within_a_cache_line");
    everywhere(|key_len, direction, engine| {
        for offset in 0..64 {
            let key = Guarded::new(&random.bytes(key_len), 63 - offset);
            let input = random.bytes(16 * 5);
            compare(engine, key.content(), direction, &input, offset);
            assert!(key.guards_untouched());
        }
    });
}

#[test]
fn keys_and_blocks_of_one_repeated_byte() {
    everywhere(|key_len, direction, engine| {
        for byte in 0..=255 {
            let key = vec![byte; key_len];
            let input: Vec<u8> = [byte, !byte, 0x00, 0xff]
                .iter()
                .flat_map(|&b| [b; 16])
                .collect();
            compare(engine, &key, direction, &input, 0);
        }
    });
}

#[test]
fn random_keys_directions_lengths_and_starts() {
    let mut random = Random::seeded("random_keys_directions_lengths_and_starts");
    for _ in 0..RANDOM_CASES {
        let engine = random.pick(Engine::ALL);
        let direction = random.pick(&Direction::ALL);
        let key_len = random.pick(&KEY_LENGTHS);
        let key = random.bytes(key_len);
        let blocks = random.below(65);
        let input = random.bytes(16 * blocks);
        let offset = random.below(64);
        compare(engine, &key, direction, &input, offset);
    }
}

#[test]
fn back_undoes_forward_in_every_pairing_of_engines() {
    let mut random = Random::seeded("back_undoes_forward_in_every_pairing_of_engines");
    everywhere(|key_len, first, engine| {
        let second = match first {
            Direction::Forward => Direction::Back,
            Direction::Back => Direction::Forward,
        };
        for &other in Engine::ALL {
            let key = random.bytes(key_len);
            let input = random.bytes(16 * 33);
            let mut bytes = input.clone();
            assert_eq!(run(engine, &key, first, &mut bytes), Ok(()));
            assert_ne!(bytes, input);
            assert_eq!(run(other, &key, second, &mut bytes), Ok(()));
            assert_eq!(bytes, input);
        }
    });
}
