//! ARIA (RFC 5794) on runs of blocks, and CMAC (NIST SP 800-38B) with it: a safe wrapper of the
//! proved library `libaria.a`.
//!
//! [`encrypt`] and [`decrypt`] process every 16-byte block of a run in place, each on its own (ECB);
//! [`run`] is both, with the direction as a value. [`cmac`] makes the 16-byte tag of a run of any
//! length, and [`verify_cmac`] says whether a tag is the run's. Keys are 16, 24 or 32 bytes long.
//! Other modes of operation are the caller's affair.
//!
//! ```
//! use aria_host::{decrypt, encrypt, Engine, Refusal};
//!
//! // RFC 5794, A.1.
//! let key: Vec<u8> = (0x00..=0x0f).collect();
//! let mut block: Vec<u8> = (0x0..=0xf).map(|digit| digit * 0x11).collect();
//!
//! encrypt(Engine::Tables, &key, &mut block)?;
//! assert_eq!(block[..4], [0xd7, 0x18, 0xfb, 0xd6]);
//!
//! decrypt(Engine::Plain, &key, &mut block)?;
//! assert_eq!(block[..4], [0x00, 0x11, 0x22, 0x33]);
//!
//! let refusal = encrypt(Engine::Tables, &key[..15], &mut block).unwrap_err();
//! assert_eq!(refusal, Refusal::KeyLength);
//! assert_eq!(refusal.to_string(), "refused 1: the key is not 16, 24 or 32 bytes long");
//! # Ok::<(), Refusal>(())
//! ```
//!
//! Each call prepares its key anew, which takes as long as several blocks do: hand over long runs, not
//! one block at a time. [`Engine`] says which engine is the faster one when.
//!
//! What is proved is the library. Nothing checks this wrapper's declarations of its functions, which
//! is why the tests compare both engines, and CMAC, with another implementation on many inputs.

#![deny(missing_docs)]

use std::error::Error;
use std::fmt;

/// The C interface, as `include/aria.h` has it. A Rattle slice passes as a pointer and a length.
mod ffi {
    pub type BlockRun = unsafe extern "C" fn(
        key: *const u8,
        key_len: usize,
        direction: u32,
        run: *mut u8,
        run_len: usize,
    ) -> u32;

    extern "C" {
        pub fn aria_run_plain(
            key: *const u8,
            key_len: usize,
            direction: u32,
            run: *mut u8,
            run_len: usize,
        ) -> u32;
        pub fn aria_run_tables(
            key: *const u8,
            key_len: usize,
            direction: u32,
            run: *mut u8,
            run_len: usize,
        ) -> u32;
        pub fn aria_cmac(
            key: *const u8,
            key_len: usize,
            run: *const u8,
            run_len: usize,
            tag: *mut u8,
            tag_len: usize,
        ) -> u32;
        pub fn aria_cmac_verify(
            key: *const u8,
            key_len: usize,
            run: *const u8,
            run_len: usize,
            tag: *const u8,
            tag_len: usize,
        ) -> u32;
    }
}

/// Which of the proved engines does the work. All give the same bytes and the same answers.
///
/// `Plain` is the faster one on a few blocks. `Tables` is from about four blocks on, and takes two
/// thirds of the time on long runs. So it was measured, with the key prepared in each call; where the
/// two cross varies from one process to the next, between one block and ten.
///
/// A later version may have further engines, so a `match` on one needs an arm for the rest.
#[derive(Clone, Copy, Debug, PartialEq, Eq, Hash)]
#[non_exhaustive]
pub enum Engine {
    /// Byte boxes, and the diffusion layer byte by byte: for runs of a few blocks.
    Plain,
    /// Tables of 32-bit words, which each call makes first: for runs from about four blocks on.
    Tables,
}

impl Engine {
    /// Every engine, for code that compares them.
    ///
    /// ```
    /// use aria_host::{encrypt, Engine, Refusal};
    ///
    /// for &engine in Engine::ALL {
    ///     let (mut one, mut other) = ([0; 32], [0; 32]);
    ///     encrypt(Engine::Plain, b"sixteen key byte", &mut one)?;
    ///     encrypt(engine, b"sixteen key byte", &mut other)?;
    ///     assert_eq!(one, other);
    /// }
    /// # Ok::<(), Refusal>(())
    /// ```
    pub const ALL: &'static [Engine] = &[Engine::Plain, Engine::Tables];
}

/// Encryption or decryption.
#[derive(Clone, Copy, Debug, PartialEq, Eq, Hash)]
pub enum Direction {
    /// Encrypts each block.
    Forward,
    /// Decrypts each block.
    Back,
}

impl Direction {
    /// Both directions, forward first.
    ///
    /// ```
    /// use aria_host::{run, Direction, Engine, Refusal};
    ///
    /// let mut block = *b"sixteen bytes in";
    /// for direction in Direction::ALL {
    ///     run(Engine::Plain, b"sixteen key byte", direction, &mut block)?;
    /// }
    /// assert_eq!(&block, b"sixteen bytes in");
    /// # Ok::<(), Refusal>(())
    /// ```
    pub const ALL: [Direction; 2] = [Direction::Forward, Direction::Back];

    /// The number by which the library knows it: 0 forward, 1 back.
    ///
    /// ```
    /// use aria_host::Direction;
    ///
    /// assert_eq!(Direction::Forward.number(), 0);
    /// assert_eq!(Direction::Back.number(), 1);
    /// ```
    pub const fn number(self) -> u32 {
        match self {
            Direction::Forward => 0,
            Direction::Back => 1,
        }
    }
}

/// Why a call was refused. A refused call leaves everything it was lent as it was.
///
/// A later version may know further refusals, so a `match` on one needs an arm for the rest.
#[derive(Clone, Copy, Debug, PartialEq, Eq, Hash)]
#[non_exhaustive]
pub enum Refusal {
    /// 1: the key is not 16, 24 or 32 bytes long.
    KeyLength,
    /// 2: the direction is neither 0 nor 1. Only [`run_numbered`] can meet it.
    Direction,
    /// 4: the run's length is not a multiple of 16. CMAC takes a run of any length.
    RunLength,
    /// 23: the tag is not 16 bytes long. Only [`verify_cmac`] can meet it.
    TagLength,
    /// 25: the tag is not that of the run. It is how [`verify_cmac`] says no.
    TagDiffers,
}

impl Refusal {
    /// Its number in the README's list of refusals.
    ///
    /// ```
    /// use aria_host::Refusal;
    ///
    /// assert_eq!(Refusal::KeyLength.number(), 1);
    /// assert_eq!(Refusal::Direction.number(), 2);
    /// assert_eq!(Refusal::RunLength.number(), 4);
    /// assert_eq!(Refusal::TagLength.number(), 23);
    /// assert_eq!(Refusal::TagDiffers.number(), 25);
    /// ```
    pub const fn number(self) -> u32 {
        match self {
            Refusal::KeyLength => 1,
            Refusal::Direction => 2,
            Refusal::RunLength => 4,
            Refusal::TagLength => 23,
            Refusal::TagDiffers => 25,
        }
    }

    const fn text(self) -> &'static str {
        match self {
            Refusal::KeyLength => "the key is not 16, 24 or 32 bytes long",
            Refusal::Direction => "the direction is neither 0 nor 1",
            Refusal::RunLength => "the run's length is not a multiple of 16",
            Refusal::TagLength => "the tag is not 16 bytes long",
            Refusal::TagDiffers => "the tag differs",
        }
    }
}

impl fmt::Display for Refusal {
    fn fmt(&self, f: &mut fmt::Formatter<'_>) -> fmt::Result {
        write!(f, "refused {}: {}", self.number(), self.text())
    }
}

impl Error for Refusal {}

/// Encrypts every block of `run` in place under `key`: [`run`] with [`Direction::Forward`].
///
/// ```
/// use aria_host::{encrypt, Engine, Refusal};
///
/// let key = b"sixteen key byte";
/// let mut blocks = [0; 64];
/// encrypt(Engine::Plain, key, &mut blocks)?;
/// // Each block is encrypted on its own, so equal blocks stay equal.
/// assert_eq!(blocks[..16], blocks[16..32]);
/// assert_ne!(blocks[..16], [0; 16]);
///
/// let part = encrypt(Engine::Plain, key, &mut blocks[..15]);
/// assert_eq!(part, Err(Refusal::RunLength));
/// # Ok::<(), Refusal>(())
/// ```
pub fn encrypt(engine: Engine, key: &[u8], run: &mut [u8]) -> Result<(), Refusal> {
    self::run(engine, key, Direction::Forward, run)
}

/// Decrypts every block of `run` in place under `key`: [`run`] with [`Direction::Back`].
///
/// ```
/// use aria_host::{decrypt, encrypt, Engine, Refusal};
///
/// let key = b"twenty-four bytes of key";
/// let mut blocks = *b"two blocks of sixteen bytes each";
/// encrypt(Engine::Tables, key, &mut blocks)?;
/// decrypt(Engine::Tables, key, &mut blocks)?;
/// assert_eq!(&blocks, b"two blocks of sixteen bytes each");
/// # Ok::<(), Refusal>(())
/// ```
pub fn decrypt(engine: Engine, key: &[u8], run: &mut [u8]) -> Result<(), Refusal> {
    self::run(engine, key, Direction::Back, run)
}

/// Encrypts or decrypts every block of `run` in place under `key`.
///
/// Refused with the first that applies: [`Refusal::KeyLength`], [`Refusal::RunLength`]. An empty run
/// is accepted.
///
/// ```
/// use aria_host::{run, Direction, Engine, Refusal};
///
/// let mut block = *b"sixteen bytes in";
/// run(Engine::Plain, b"sixteen key byte", Direction::Forward, &mut block)?;
/// run(Engine::Tables, b"sixteen key byte", Direction::Back, &mut block)?;
/// assert_eq!(&block, b"sixteen bytes in");
///
/// let refused = run(Engine::Plain, b"short key", Direction::Forward, &mut block);
/// assert_eq!(refused, Err(Refusal::KeyLength));
/// assert_eq!(&block, b"sixteen bytes in");
/// # Ok::<(), Refusal>(())
/// ```
pub fn run(
    engine: Engine,
    key: &[u8],
    direction: Direction,
    run: &mut [u8],
) -> Result<(), Refusal> {
    run_numbered(engine, key, direction.number(), run)
}

/// As [`run`], with the direction as the library takes it: 0 forward, 1 back, and any other number
/// refused with [`Refusal::Direction`], which comes after the key's length and before the run's.
///
/// For callers that hold a direction number they have not looked at, and for tests of the order of
/// refusals.
///
/// ```
/// use aria_host::{run_numbered, Engine, Refusal};
///
/// let mut part = [0; 15];
/// let answer = run_numbered(Engine::Plain, b"sixteen key byte", 2, &mut part);
/// assert_eq!(answer, Err(Refusal::Direction));
/// let answer = run_numbered(Engine::Plain, b"sixteen key byte", 1, &mut part);
/// assert_eq!(answer, Err(Refusal::RunLength));
/// ```
pub fn run_numbered(
    engine: Engine,
    key: &[u8],
    direction: u32,
    run: &mut [u8],
) -> Result<(), Refusal> {
    match answer(engine, key, direction, run) {
        0 => Ok(()),
        1 => Err(Refusal::KeyLength),
        2 => Err(Refusal::Direction),
        4 => Err(Refusal::RunLength),
        other => unreachable!("the library is proved to answer 0, 1, 2 or 4, not {other}"),
    }
}

fn answer(engine: Engine, key: &[u8], direction: u32, run: &mut [u8]) -> u32 {
    let block_run: ffi::BlockRun = match engine {
        Engine::Plain => ffi::aria_run_plain,
        Engine::Tables => ffi::aria_run_tables,
    };
    // SAFETY: both slices are valid for their lengths, and a mutable borrow overlaps no other. The
    // library's functions have no `requires`: they are proved safe for every key, direction and run.
    unsafe {
        block_run(
            key.as_ptr(),
            key.len(),
            direction,
            run.as_mut_ptr(),
            run.len(),
        )
    }
}

/// The CMAC of `run` under `key`: the whole tag of sixteen bytes, not cut short.
///
/// The run may have any length, 0 included. Refused with [`Refusal::KeyLength`] alone. To verify a
/// tag, call [`verify_cmac`].
///
/// Keep a key for tags alone. Under a key that also encrypts, whoever knows blocks both in plain and
/// encrypted can make other bytes with the same tag.
///
/// ```
/// use aria_host::{cmac, Refusal};
///
/// let key = b"sixteen tag byte";
/// let tag = cmac(key, b"a run of any length")?;
/// assert_eq!(tag[..4], [0xfe, 0x08, 0xab, 0x86]);
/// assert_ne!(tag, cmac(key, b"a run of any lengths")?);
/// assert_ne!(tag, cmac(b"another key's 16", b"a run of any length")?);
///
/// assert_eq!(cmac(b"short key", b""), Err(Refusal::KeyLength));
/// # Ok::<(), Refusal>(())
/// ```
pub fn cmac(key: &[u8], run: &[u8]) -> Result<[u8; 16], Refusal> {
    let mut tag = [0; 16];
    // SAFETY: all three are valid for their lengths, and the tag, a variable of this function,
    // overlaps neither slice. The library's function has no `requires`: it is proved safe for every
    // key, run and tag.
    let answer = unsafe {
        ffi::aria_cmac(
            key.as_ptr(),
            key.len(),
            run.as_ptr(),
            run.len(),
            tag.as_mut_ptr(),
            tag.len(),
        )
    };
    match answer {
        0 => Ok(tag),
        1 => Err(Refusal::KeyLength),
        other => unreachable!("the library is proved to answer 0 or 1 here, not {other}"),
    }
}

/// Whether `tag` is the CMAC of `run` under `key`: `Ok` is yes.
///
/// No is the error [`Refusal::TagDiffers`], so that `?` does not let a wrong tag by. Before it come
/// [`Refusal::KeyLength`] and [`Refusal::TagLength`], in this order. All sixteen bytes are looked at
/// whatever they are; `==` on what [`cmac`] gives may end at the first that differs.
///
/// ```
/// use aria_host::{cmac, verify_cmac, Refusal};
///
/// let key = b"a key of 24 bytes, a tag";
/// let mut tag = cmac(key, b"dried")?;
/// verify_cmac(key, b"dried", &tag)?;
/// assert_eq!(verify_cmac(key, b"tried", &tag), Err(Refusal::TagDiffers));
///
/// tag[15] ^= 1;
/// assert_eq!(verify_cmac(key, b"dried", &tag), Err(Refusal::TagDiffers));
/// assert_eq!(verify_cmac(key, b"dried", &tag[..8]), Err(Refusal::TagLength));
/// # Ok::<(), Refusal>(())
/// ```
pub fn verify_cmac(key: &[u8], run: &[u8], tag: &[u8]) -> Result<(), Refusal> {
    // SAFETY: the slices are valid for their lengths, and nothing is written. The library's
    // function has no `requires`: it is proved safe for every key, run and tag.
    let answer = unsafe {
        ffi::aria_cmac_verify(
            key.as_ptr(),
            key.len(),
            run.as_ptr(),
            run.len(),
            tag.as_ptr(),
            tag.len(),
        )
    };
    match answer {
        0 => Ok(()),
        1 => Err(Refusal::KeyLength),
        23 => Err(Refusal::TagLength),
        25 => Err(Refusal::TagDiffers),
        other => unreachable!("the library is proved to answer 0, 1, 23 or 25, not {other}"),
    }
}
