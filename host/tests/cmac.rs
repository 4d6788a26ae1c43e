//! CMAC against libcrypto's, what is said of wrong tags, and which calls are refused.
//!
//! The published examples of SP 800-38B are for AES and TDEA, none for ARIA. So libcrypto's CMAC is
//! held to those for AES, and ours to libcrypto's with ARIA: OpenSSL is an implementation of other
//! origin.

mod support;

use std::fmt::Arguments;

use aria_host::{cmac, verify_cmac, Direction, Refusal};
use support::libcrypto::{Cmac, Ecb};
use support::{Guarded, Random};

const KEY_LENGTHS: [usize; 3] = [16, 24, 32];
const RANDOM_CASES: usize = 6000;

// As include/aria.h has them: the package's `cmac` lends a tag of its own, of sixteen bytes, and so
// shows neither what is said of others nor what is written beside it.
extern "C" {
    fn aria_cmac(
        key: *const u8,
        key_len: usize,
        run: *const u8,
        run_len: usize,
        tag: *mut u8,
        tag_len: usize,
    ) -> u32;
    fn aria_cmac_verify(
        key: *const u8,
        key_len: usize,
        run: *const u8,
        run_len: usize,
        tag: *const u8,
        tag_len: usize,
    ) -> u32;
}

/// A key, a run and a tag as they are lent, each between guard bytes.
struct Lent {
    key: Guarded,
    run: Guarded,
    tag: Guarded,
}

impl Lent {
    /// The run begins `offset` bytes into a cache line, key and tag elsewhere in theirs.
    fn new(key: &[u8], run: &[u8], tag: &[u8], offset: usize) -> Lent {
        Lent {
            key: Guarded::new(key, 63 - offset),
            run: Guarded::new(run, offset),
            tag: Guarded::new(tag, (offset + 21) % 64),
        }
    }

    fn make(&mut self) -> u32 {
        let (key, run) = (self.key.content(), self.run.content());
        let tag = self.tag.content_mut();
        // SAFETY: all three are valid for their lengths, and a mutable borrow overlaps no other.
        unsafe {
            aria_cmac(
                key.as_ptr(),
                key.len(),
                run.as_ptr(),
                run.len(),
                tag.as_mut_ptr(),
                tag.len(),
            )
        }
    }

    fn verify(&self) -> u32 {
        let (key, run, tag) = (self.key.content(), self.run.content(), self.tag.content());
        // SAFETY: all three are valid for their lengths.
        unsafe {
            aria_cmac_verify(
                key.as_ptr(),
                key.len(),
                run.as_ptr(),
                run.len(),
                tag.as_ptr(),
                tag.len(),
            )
        }
    }

    /// Sees that the three hold these bytes, and what lies beside them is as it was.
    fn expect(&self, key: &[u8], run: &[u8], tag: &[u8], case: &str) {
        assert!(self.key.content() == key, "the key changed: {case}");
        assert!(self.run.content() == run, "the run changed: {case}");
        assert!(self.tag.content() == tag, "another tag: {case}");
        for lent in [&self.key, &self.run, &self.tag] {
            assert!(lent.guards_untouched(), "wrote outside: {case}");
        }
    }
}

/// One run under one key: our tag is libcrypto's, over whatever stood there, and is verified. The
/// package's calls say the same.
fn compare(key: &[u8], run: &[u8], before: &[u8; 16], offset: usize) {
    let expected = Cmac::new(key.len()).tag(key, run);
    let case = format!(
        "key {key:02x?}, {} bytes at offset {offset}, over {before:02x?}",
        run.len()
    );

    let mut made = Lent::new(key, run, before, offset);
    assert_eq!(made.make(), 0, "{case}");
    made.expect(key, run, &expected, &case);
    assert_eq!(made.verify(), 0, "verifying: {case}");
    made.expect(key, run, &expected, &case);

    assert_eq!(cmac(key, run), Ok(expected), "{case}");
    assert_eq!(verify_cmac(key, run, &expected), Ok(()), "{case}");
}

/// As above, what stood there and the starts in memory by chance.
fn compare_somewhere(random: &mut Random, key: &[u8], run: &[u8]) {
    let before = sixteen(random);
    let offset = random.below(64);
    compare(key, run, &before, offset);
}

fn sixteen(random: &mut Random) -> [u8; 16] {
    random.bytes(16).try_into().expect("sixteen")
}

fn says_no(key: &[u8], run: &[u8], tag: &[u8; 16], case: Arguments) {
    assert_eq!(
        verify_cmac(key, run, tag),
        Err(Refusal::TagDiffers),
        "{case}"
    );
}

/// `other` does not pass for the run's tag. It is left out where it happens to be that tag.
fn told_apart(key: &[u8], run: &[u8], tag: &[u8; 16], other: &[u8; 16]) {
    if other != tag {
        says_no(key, run, other, format_args!("{other:02x?} for {tag:02x?}"));
    }
}

fn from_hex(text: &str) -> Vec<u8> {
    (0..text.len())
        .step_by(2)
        .map(|i| u8::from_str_radix(&text[i..i + 2], 16).expect("hex"))
        .collect()
}

#[test]
fn libcrypto_gives_the_published_tags_of_aes() {
    let message = from_hex(concat!(
        "6bc1bee22e409f96e93d7e117393172aae2d8a571e03ac9c9eb76fac45af8e51",
        "30c81c46a35ce411e5fbc1191a0a52eff69f2445df4f9b17ad2b417be66c3710"
    ));
    // The tags of its first 0, 16, 40 and 64 bytes.
    let examples = [
        (
            "2b7e151628aed2a6abf7158809cf4f3c",
            [
                "bb1d6929e95937287fa37d129b756746",
                "070a16b46b4d4144f79bdd9dd04a287c",
                "dfa66747de9ae63030ca32611497c827",
                "51f0bebf7e3b9d92fc49741779363cfe",
            ],
        ),
        (
            "8e73b0f7da0e6452c810f32b809079e562f8ead2522c6b7b",
            [
                "d17ddf46adaacde531cac483de7a9367",
                "9e99a7bf31e710900662f65e617c5184",
                "8a1de5be2eb31aad089a82e6ee908b0e",
                "a1d5df0eed790f794d77589659f39a11",
            ],
        ),
        (
            "603deb1015ca71be2b73aef0857d77811f352c073b6108d72d9810a30914dff4",
            [
                "028962f61b7bf89efc6b551f4667d983",
                "28a7023f452e8f82bd4bf28d8c37c35c",
                "aaf3d8f1de5640c232f5b169b9c911e6",
                "e1992190549f6ed5696a2c056c315410",
            ],
        ),
    ];
    for (key, tags) in examples {
        let key = from_hex(key);
        let mut aes = Cmac::with("AES", key.len());
        for (len, tag) in [0, 16, 40, 64].into_iter().zip(tags) {
            assert_eq!(aes.tag(&key, &message[..len]).to_vec(), from_hex(tag));
        }
    }
}

#[test]
fn every_length_to_100_bytes() {
    let mut random = Random::seeded("every_length_to_100_bytes");
    for key_len in KEY_LENGTHS {
        for len in 0..=100 {
            for _ in 0..10 {
                let (key, run) = (random.bytes(key_len), random.bytes(len));
                compare_somewhere(&mut random, &key, &run);
            }
        }
    }
}

/// 65,536 bytes are the longest archive.
#[test]
fn lengths_about_multiples_of_16_and_4096() {
    let mut random = Random::seeded("lengths_about_multiples_of_16_and_4096");
    for key_len in KEY_LENGTHS {
        for about in [1024, 2000, 4096, 8192, 12288, 32768, 65536] {
            for len in [0, 1, 2, 16, 17, 18, 32, 33, 34].map(|more| about - 17 + more) {
                let (key, run) = (random.bytes(key_len), random.bytes(len));
                compare_somewhere(&mut random, &key, &run);
            }
        }
    }
}

#[test]
fn runs_of_a_mebibyte() {
    let mut random = Random::seeded("runs_of_a_mebibyte");
    let bytes = random.bytes((1 << 20) + 1);
    for key_len in KEY_LENGTHS {
        let key = random.bytes(key_len);
        for len in [(1 << 20) - 1, 1 << 20, (1 << 20) + 1] {
            compare_somewhere(&mut random, &key, &bytes[..len]);
        }
    }
}

#[test]
fn every_start_within_a_cache_line() {
    let mut random = Random::seeded("every_start_within_a_cache_line");
    for key_len in KEY_LENGTHS {
        for offset in 0..64 {
            for len in [0, 7, 16, 77, 80] {
                let (key, run) = (random.bytes(key_len), random.bytes(len));
                compare(&key, &run, &[0; 16], offset);
            }
        }
    }
}

#[test]
fn keys_and_runs_of_one_repeated_byte() {
    let mut random = Random::seeded("keys_and_runs_of_one_repeated_byte");
    for key_len in KEY_LENGTHS {
        for byte in 0..=255 {
            for run in [vec![byte; 48], vec![!byte; 33], vec![0; 16], vec![0xff; 15]] {
                compare_somewhere(&mut random, &vec![byte; key_len], &run);
            }
        }
    }
}

/// What is added to a last block is the enciphered zero block, doubled once for a whole block and
/// twice for a part. Doubling has two cases, by the bit that it shifts out: all four pairs are met.
#[test]
fn every_case_of_the_subkeys() {
    let mut random = Random::seeded("every_case_of_the_subkeys");
    for key_len in KEY_LENGTHS {
        let mut ecb = Ecb::new(key_len, Direction::Forward);
        for bits in 0..4 {
            for _ in 0..20 {
                let key = loop {
                    let (key, mut block) = (random.bytes(key_len), [0; 16]);
                    ecb.run(&key, &mut block);
                    if block[0] >> 6 == bits {
                        break key;
                    }
                };
                for len in [0, 1, 15, 16, 17, 31, 32, 33] {
                    let run = random.bytes(len);
                    compare_somewhere(&mut random, &key, &run);
                }
            }
        }
    }
}

#[test]
fn random_keys_lengths_and_starts() {
    let mut random = Random::seeded("random_keys_lengths_and_starts");
    for _ in 0..RANDOM_CASES {
        let key_len = random.pick(&KEY_LENGTHS);
        let len = random.below(1 << 10);
        let (key, run) = (random.bytes(key_len), random.bytes(len));
        compare_somewhere(&mut random, &key, &run);
    }
}

/// A key of each length and runs of several, each with its tag by libcrypto, for what follows.
fn tagged(random: &mut Random, mut test: impl FnMut(&mut Random, &[u8], &[u8], [u8; 16])) {
    for key_len in KEY_LENGTHS {
        for len in [0, 1, 15, 16, 17, 32, 100, 4096] {
            let (key, run) = (random.bytes(key_len), random.bytes(len));
            let tag = Cmac::new(key_len).tag(&key, &run);
            assert_eq!(verify_cmac(&key, &run, &tag), Ok(()));
            test(random, &key, &run, tag);
        }
    }
}

#[test]
fn a_tag_with_one_bit_changed_is_another() {
    let mut random = Random::seeded("a_tag_with_one_bit_changed_is_another");
    tagged(&mut random, |_, key, run, tag| {
        for bit in 0..128 {
            let mut other = tag;
            other[bit / 8] ^= 1 << (bit % 8);
            told_apart(key, run, &tag, &other);
        }
    });
}

#[test]
fn a_tag_with_fifteen_right_bytes_is_another() {
    let mut random = Random::seeded("a_tag_with_fifteen_right_bytes_is_another");
    tagged(&mut random, |_, key, run, tag| {
        for place in 0..16 {
            for change in 1..=255 {
                let mut other = tag;
                other[place] ^= change;
                told_apart(key, run, &tag, &other);
            }
        }
    });
}

/// These would pass where bytes or their differences are added up, with or without carry.
#[test]
fn two_changes_do_not_make_up_for_each_other() {
    let mut random = Random::seeded("two_changes_do_not_make_up_for_each_other");
    tagged(&mut random, |random, key, run, tag| {
        let change = 1 + random.below(255) as u8;
        for first in 0..16 {
            for second in 0..first {
                let mut swapped = tag;
                swapped.swap(first, second);
                let (mut same, mut top, mut against) = (tag, tag, tag);
                for place in [first, second] {
                    same[place] ^= change;
                    top[place] ^= 0x80;
                }
                against[first] = tag[first].wrapping_add(change);
                against[second] = tag[second].wrapping_sub(change);
                for other in [swapped, same, top, against] {
                    told_apart(key, run, &tag, &other);
                }
            }
        }
    });
}

#[test]
fn tags_with_few_or_no_right_bytes() {
    let mut random = Random::seeded("tags_with_few_or_no_right_bytes");
    tagged(&mut random, |random, key, run, tag| {
        let mut others = vec![[0; 16], [0xff; 16], tag.map(|byte| !byte)];
        others.extend((1..16).map(|by| {
            let mut turned = tag;
            turned.rotate_left(by);
            turned
        }));
        others.extend((0..16).map(|kept| {
            let mut front = [0; 16];
            front[..kept].copy_from_slice(&tag[..kept]);
            front
        }));
        others.extend((0..16).map(|_| sixteen(random)));
        for other in others {
            told_apart(key, run, &tag, &other);
        }
    });
}

#[test]
fn another_run_or_another_key_has_another_tag() {
    let mut random = Random::seeded("another_run_or_another_key_has_another_tag");
    tagged(&mut random, |random, key, run, tag| {
        for place in 0..run.len() {
            let mut other = run.to_vec();
            other[place] ^= 1 << random.below(8);
            says_no(key, &other, &tag, format_args!("byte {place} of the run"));
        }
        for bit in 0..8 * key.len() {
            let mut other = key.to_vec();
            other[bit / 8] ^= 1 << (bit % 8);
            says_no(&other, run, &tag, format_args!("bit {bit} of the key"));
        }
        for less in 1..=run.len().min(33) {
            let cut = &run[..run.len() - less];
            says_no(key, cut, &tag, format_args!("{less} bytes fewer"));
        }
        for byte in [0x00, 0x80] {
            let mut longer = run.to_vec();
            for more in 1..=33 {
                longer.push(byte);
                says_no(key, &longer, &tag, format_args!("{more} times {byte:02x}"));
            }
        }
    });
}

/// What fills a part of a block up is no part of the run: written out, it makes another run, which
/// ends in a whole block.
#[test]
fn a_run_with_its_padding_written_out_has_another_tag() {
    let mut random = Random::seeded("a_run_with_its_padding_written_out_has_another_tag");
    for key_len in KEY_LENGTHS {
        for len in (0..=100).filter(|len| len % 16 != 0 || *len == 0) {
            let (key, run) = (random.bytes(key_len), random.bytes(len));
            let mut padded = run.clone();
            padded.push(0x80);
            padded.resize((padded.len() + 15) / 16 * 16, 0);
            for (one, other) in [(&run, &padded), (&padded, &run)] {
                let tag = cmac(&key, one).expect("a key of a right length");
                says_no(&key, other, &tag, format_args!("{len} bytes, padded"));
            }
        }
    }
}

/// The delivery's rule: the first that applies of 1 (key) and 23 (tag).
fn refusal(key_len: usize, tag_len: usize) -> Option<u32> {
    if ![16, 24, 32].contains(&key_len) {
        Some(1)
    } else if tag_len != 16 {
        Some(23)
    } else {
        None
    }
}

/// Both calls with these lengths.
fn try_lengths(random: &mut Random, key_len: usize, run_len: usize, tag_len: usize) {
    let (key, run) = (random.bytes(key_len), random.bytes(run_len));
    let before = random.bytes(tag_len);
    let offset = random.below(64);
    let refused = refusal(key_len, tag_len);
    let case = format!("a key of {key_len} bytes, a run of {run_len}, a tag of {tag_len}");

    let mut lent = Lent::new(&key, &run, &before, offset);
    assert_eq!(lent.verify(), refused.unwrap_or(25), "verifying: {case}");
    lent.expect(&key, &run, &before, &case);
    assert_eq!(lent.make(), refused.unwrap_or(0), "making: {case}");
    if refused.is_some() {
        lent.expect(&key, &run, &before, &case);
    } else {
        let tag = Cmac::new(key_len).tag(&key, &run);
        lent.expect(&key, &run, &tag, &case);
        assert_eq!(lent.verify(), 0, "verifying: {case}");
        lent.expect(&key, &run, &tag, &case);
    }
}

#[test]
fn every_key_length_and_tag_length_to_40() {
    let mut random = Random::seeded("every_key_length_and_tag_length_to_40");
    for key_len in 0..=40 {
        for tag_len in 0..=40 {
            for run_len in [0, 1, 16, 33] {
                try_lengths(&mut random, key_len, run_len, tag_len);
            }
        }
    }
}

/// Lengths whose low eight or sixteen bits are those of a right one.
#[test]
fn lengths_that_are_right_but_for_a_multiple_of_256() {
    let mut random = Random::seeded("lengths_that_are_right_but_for_a_multiple_of_256");
    for more in [256, 512, 65536] {
        for key_len in KEY_LENGTHS {
            try_lengths(&mut random, key_len + more, 20, 16);
            try_lengths(&mut random, key_len, 20, 16 + more);
            try_lengths(&mut random, key_len + more, 20, 16 + more);
        }
    }
}

/// The right tag cut short, or with bytes after it, is refused and is not said to differ.
#[test]
fn a_right_tag_of_another_length_is_refused() {
    let mut random = Random::seeded("a_right_tag_of_another_length_is_refused");
    tagged(&mut random, |random, key, run, tag| {
        let longer = [tag.to_vec(), random.bytes(24)].concat();
        for len in (0..=40).filter(|len| *len != 16) {
            let answer = verify_cmac(key, run, &longer[..len]);
            assert_eq!(answer, Err(Refusal::TagLength), "{len} bytes");
        }
    });
}

#[test]
fn the_typed_calls_refuse_alike() {
    let mut random = Random::seeded("the_typed_calls_refuse_alike");
    for key_len in 0..=40 {
        for run_len in [0, 1, 16, 33] {
            let (key, run) = (random.bytes(key_len), random.bytes(run_len));
            let made = cmac(&key, &run);
            match refusal(key_len, 16) {
                None => assert_eq!(made, Ok(Cmac::new(key_len).tag(&key, &run))),
                Some(_) => assert_eq!(made, Err(Refusal::KeyLength)),
            }
            for tag_len in 0..=40 {
                let expected = match refusal(key_len, tag_len) {
                    None => Err(Refusal::TagDiffers),
                    Some(1) => Err(Refusal::KeyLength),
                    Some(_) => Err(Refusal::TagLength),
                };
                let tag = random.bytes(tag_len);
                assert_eq!(verify_cmac(&key, &run, &tag), expected);
            }
        }
    }
}
