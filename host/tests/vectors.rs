//! The published vectors of `tests/data/aria-ecb.txt`, by both engines, forward and back.

mod support;

use std::collections::HashMap;

use aria_host::{decrypt, encrypt, run, Direction, Engine};
use support::libcrypto::Ecb;

const VECTORS: &str = include_str!("../../tests/data/aria-ecb.txt");

struct Vector {
    origin: String,
    key: Vec<u8>,
    plain: Vec<u8>,
    sealed: Vec<u8>,
}

fn from_hex(text: &str) -> Vec<u8> {
    assert_eq!(text.len() % 2, 0, "odd number of digits: {text}");
    (0..text.len())
        .step_by(2)
        .map(|i| u8::from_str_radix(&text[i..i + 2], 16).expect("hex"))
        .collect()
}

fn vectors() -> Vec<Vector> {
    VECTORS
        .split("\n\n")
        .map(|paragraph| {
            paragraph
                .lines()
                .filter(|line| !line.starts_with('#'))
                .map(|line| line.split_once(" = ").expect("NAME = VALUE"))
                .collect::<HashMap<_, _>>()
        })
        .filter(|fields| !fields.is_empty())
        .map(|fields| Vector {
            origin: fields["origin"].to_string(),
            key: from_hex(fields["key"]),
            plain: from_hex(fields["in"]),
            sealed: from_hex(fields["out"]),
        })
        .collect()
}

#[test]
fn the_file_has_each_key_length_of_both_origins() {
    let mut lengths: Vec<_> = vectors().iter().map(|v| v.key.len()).collect();
    lengths.sort();
    assert_eq!(lengths, [16, 16, 24, 24, 32, 32]);
}

#[test]
fn both_engines_give_the_published_bytes() {
    for v in vectors() {
        for &engine in Engine::ALL {
            let mut bytes = v.plain.clone();
            assert_eq!(run(engine, &v.key, Direction::Forward, &mut bytes), Ok(()));
            assert_eq!(bytes, v.sealed, "{}, {engine:?} forward", v.origin);
            assert_eq!(run(engine, &v.key, Direction::Back, &mut bytes), Ok(()));
            assert_eq!(bytes, v.plain, "{}, {engine:?} back", v.origin);
        }
    }
}

#[test]
fn encrypt_and_decrypt_give_the_published_bytes() {
    for v in vectors() {
        for &engine in Engine::ALL {
            let mut bytes = v.plain.clone();
            assert_eq!(encrypt(engine, &v.key, &mut bytes), Ok(()));
            assert_eq!(bytes, v.sealed, "{}, {engine:?} encrypt", v.origin);
            assert_eq!(decrypt(engine, &v.key, &mut bytes), Ok(()));
            assert_eq!(bytes, v.plain, "{}, {engine:?} decrypt", v.origin);
        }
    }
}

#[test]
fn libcrypto_gives_the_published_bytes() {
    for v in vectors() {
        let mut bytes = v.plain.clone();
        Ecb::new(v.key.len(), Direction::Forward).run(&v.key, &mut bytes);
        assert_eq!(bytes, v.sealed, "{}", v.origin);
        Ecb::new(v.key.len(), Direction::Back).run(&v.key, &mut bytes);
        assert_eq!(bytes, v.plain, "{}", v.origin);
    }
}
