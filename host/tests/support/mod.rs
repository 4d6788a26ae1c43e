//! What the tests share: random bytes from a printed seed, and a run between guard bytes.

#![allow(dead_code)] // each test file uses its own part

pub mod libcrypto;

use std::env;
use std::time::{SystemTime, UNIX_EPOCH};

/// The environment variable that repeats a run of the random tests.
const SEED: &str = "ARIA_TEST_SEED";

/// SplitMix64: even and fast, and the same everywhere from the same seed.
pub struct Random(u64);

impl Random {
    /// Seeded from `ARIA_TEST_SEED` where it is set, else from the clock; prints the seed.
    pub fn seeded(test: &str) -> Random {
        let seed = match env::var(SEED) {
            Ok(text) => text
                .parse()
                .unwrap_or_else(|_| panic!("{SEED}={text} is no number below 2^64")),
            Err(_) => SystemTime::now()
                .duration_since(UNIX_EPOCH)
                .expect("a clock past 1970")
                .as_nanos() as u64,
        };
        println!("{test}: repeat with {SEED}={seed}");
        Random(seed)
    }

    pub fn next(&mut self) -> u64 {
        self.0 = self.0.wrapping_add(0x9e37_79b9_7f4a_7c15);
        let mut z = self.0;
        z = (z ^ (z >> 30)).wrapping_mul(0xbf58_476d_1ce4_e5b9);
        z = (z ^ (z >> 27)).wrapping_mul(0x94d0_49bb_1331_11eb);
        z ^ (z >> 31)
    }

    /// A number below `n`.
    pub fn below(&mut self, n: usize) -> usize {
        (self.next() % n as u64) as usize
    }

    pub fn pick<T: Copy>(&mut self, choices: &[T]) -> T {
        choices[self.below(choices.len())]
    }

    pub fn bytes(&mut self, len: usize) -> Vec<u8> {
        let mut bytes = Vec::with_capacity(len + 8);
        while bytes.len() < len {
            bytes.extend_from_slice(&self.next().to_le_bytes());
        }
        bytes.truncate(len);
        bytes
    }
}

const GUARD: u8 = 0xa5;
const GUARD_LEN: usize = 128;
const ALIGNMENT: usize = 64;

/// Bytes that begin at a chosen place relative to a cache line, with guard bytes on both sides.
pub struct Guarded {
    bytes: Vec<u8>,
    start: usize,
    len: usize,
}

impl Guarded {
    pub fn new(content: &[u8], offset: usize) -> Guarded {
        let mut bytes = vec![GUARD; GUARD_LEN + ALIGNMENT + content.len() + GUARD_LEN];
        let base = bytes.as_ptr() as usize + GUARD_LEN;
        let to_line = (ALIGNMENT - base % ALIGNMENT) % ALIGNMENT;
        let start = GUARD_LEN + (to_line + offset) % ALIGNMENT;
        bytes[start..start + content.len()].copy_from_slice(content);
        Guarded {
            bytes,
            start,
            len: content.len(),
        }
    }

    pub fn content(&self) -> &[u8] {
        &self.bytes[self.start..self.start + self.len]
    }

    pub fn content_mut(&mut self) -> &mut [u8] {
        &mut self.bytes[self.start..self.start + self.len]
    }

    pub fn guards_untouched(&self) -> bool {
        let (before, rest) = self.bytes.split_at(self.start);
        let after = &rest[self.len..];
        before.iter().chain(after).all(|&b| b == GUARD)
    }
}
