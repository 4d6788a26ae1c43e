//! Speed of both engines, of CMAC and of libcrypto's ARIA, side by side, and of checking an archive,
//! opening a job, sealing, dropping and the preview of it, with and without a tag: `cargo bench`.
//!
//! Block runs and CMAC are those of the package. Counter mode and the archive are not among its
//! calls, so they come from a library for the bench and the tests alone, which
//! `tools/build.sh benchlib` writes.
//!
//! Each figure is the best of several rounds, the engines taking turns within a round so that a slow
//! spell of the machine meets all of them. Time is the thread's CPU time. Every call prepares its key,
//! libcrypto's too. Keys are 16 bytes. Before a row is measured all must give the same bytes, what is
//! opened must be what was sealed, and what is sealed, or left, the archive that libcrypto's bytes make.
//! It asserts nothing about time.

#[path = "../tests/support/libcrypto.rs"]
mod libcrypto;

use std::ffi::{c_int, c_long};
use std::fs;

use aria_host::{cmac, run, Direction, Engine};
use libcrypto::{Cmac, Ctr, Ecb};

const ROUNDS: usize = 60;
const BYTES_PER_MEASUREMENT: usize = 1 << 20;
/// Shorter runs count as this many bytes: most of their time goes into the key.
const BYTES_AT_LEAST: usize = 256;
const KEY: [u8; 16] = *b"sixteen key byte";
const TAG_KEY: [u8; 16] = *b"a key for tags!!";
const PREFIX: [u8; 12] = *b"twelve bytes";

/// build.rs sets it where the library is there.
const _: &str = env!(
    "ARIA_BENCHLIB",
    "target/staticlib/libbenchlib.a is missing: run `tools/build.sh benchlib` at the repository's top first"
);

#[link(name = "benchlib", kind = "static")]
extern "C" {
    /// Counter mode on the run in place, from byte `first` of the keystream on: 0, or 1 for a key of a wrong length.
    fn bench_ctr(
        key: *const u8,
        key_len: usize,
        prefix: *const u8,
        prefix_len: usize,
        first: usize,
        run: *mut u8,
        run_len: usize,
    ) -> u32;

    /// The whole check of keys and file: 0, or the refusal. Here and below a tag key of no bytes is none.
    fn bench_check(
        key: *const u8,
        key_len: usize,
        tag_key: *const u8,
        tag_key_len: usize,
        file: *const u8,
        file_len: usize,
    ) -> u32;

    /// A whole job into the front of a buffer: 0, or the refusal.
    fn bench_open(
        key: *const u8,
        key_len: usize,
        tag_key: *const u8,
        tag_key_len: usize,
        file: *const u8,
        file_len: usize,
        number: *const u8,
        number_len: usize,
        out: *mut u8,
        out_len: usize,
    ) -> u32;

    /// A range of a job into the front of a buffer: 0, or the refusal.
    fn bench_open_range(
        key: *const u8,
        key_len: usize,
        tag_key: *const u8,
        tag_key_len: usize,
        file: *const u8,
        file_len: usize,
        number: *const u8,
        number_len: usize,
        first: usize,
        count: usize,
        out: *mut u8,
        out_len: usize,
    ) -> u32;

    /// The archive of a sheet's jobs into the front of a buffer: 0, or the refusal.
    fn bench_seal(
        key_file: *const u8,
        key_file_len: usize,
        tag_key: *const u8,
        tag_key_len: usize,
        sheet: *const u8,
        sheet_len: usize,
        plain: *const u8,
        plain_len: usize,
        out: *mut u8,
        out_len: usize,
    ) -> u32;

    /// An archive without the jobs of a list into the front of a buffer: 0, or the refusal.
    fn bench_drop(
        key: *const u8,
        key_len: usize,
        tag_key: *const u8,
        tag_key_len: usize,
        file: *const u8,
        file_len: usize,
        list: *const u8,
        list_len: usize,
        out: *mut u8,
        out_len: usize,
    ) -> u32;

    /// The contents of such an archive into the front of a buffer: three numbers in one, from the lowest
    /// on the refusal or 0, the count of jobs, each in a byte, and the whole length.
    fn bench_preview(
        key: *const u8,
        key_len: usize,
        tag_key: *const u8,
        tag_key_len: usize,
        file: *const u8,
        file_len: usize,
        list: *const u8,
        list_len: usize,
        out: *mut u8,
        out_len: usize,
    ) -> usize;
}

#[repr(C)]
struct Timespec {
    seconds: c_long,
    nanoseconds: c_long,
}

extern "C" {
    fn clock_gettime(clock: c_int, time: *mut Timespec) -> c_int;
}

/// CLOCK_THREAD_CPUTIME_ID of Linux.
const THREAD_CPU_TIME: c_int = 3;

/// The CPU time that this thread has used, in seconds.
fn thread_seconds() -> f64 {
    let mut time = Timespec {
        seconds: 0,
        nanoseconds: 0,
    };
    // SAFETY: the call writes one timespec, whose layout on 64-bit Linux is two longs.
    let failed = unsafe { clock_gettime(THREAD_CPU_TIME, &mut time) };
    assert_eq!(failed, 0, "clock_gettime");
    time.seconds as f64 + time.nanoseconds as f64 * 1e-9
}

/// What is measured: it processes a run in place.
type Work<'a> = Box<dyn FnMut(&mut [u8]) + 'a>;

/// MB/s (10^6 bytes) of `work` on a run, many times over.
fn measured(run: &mut [u8], work: &mut Work) -> f64 {
    let calls = BYTES_PER_MEASUREMENT / run.len().max(BYTES_AT_LEAST);
    let before = thread_seconds();
    for _ in 0..calls {
        work(run);
    }
    let seconds = thread_seconds() - before;
    (calls * run.len()) as f64 / seconds / 1e6
}

/// The best of each over all rounds, once all have given the same bytes.
fn compared<const N: usize>(run: &mut [u8], mut works: [Work; N]) -> [f64; N] {
    let results = works.iter_mut().map(|work| {
        let mut bytes = run.to_vec();
        work(&mut bytes);
        bytes
    });
    let results: Vec<Vec<u8>> = results.collect();
    assert!(
        results.iter().all(|bytes| *bytes == results[0]),
        "other bytes on a run of {} bytes",
        run.len()
    );
    let mut best = [0f64; N];
    for _ in 0..ROUNDS {
        for (figure, work) in best.iter_mut().zip(&mut works) {
            *figure = figure.max(measured(run, work));
        }
    }
    best
}

fn blocks_by<'a>(engine: Engine, direction: Direction) -> Work<'a> {
    Box::new(move |bytes| run(engine, &KEY, direction, bytes).expect("a whole number of blocks"))
}

fn blocks_by_libcrypto<'a>(direction: Direction) -> Work<'a> {
    let mut ecb = Ecb::new(KEY.len(), direction);
    Box::new(move |bytes| ecb.run(&KEY, bytes))
}

fn counter_mode<'a>() -> Work<'a> {
    Box::new(|bytes| {
        // SAFETY: the slices are valid for their lengths, and a mutable borrow overlaps no other. The
        // function has no `requires`: it is proved safe for every key, prefix and run.
        let number = unsafe {
            bench_ctr(
                KEY.as_ptr(),
                KEY.len(),
                PREFIX.as_ptr(),
                PREFIX.len(),
                0,
                bytes.as_mut_ptr(),
                bytes.len(),
            )
        };
        assert_eq!(number, 0, "bench_ctr");
    })
}

fn counter_mode_by_libcrypto<'a>() -> Work<'a> {
    let mut ctr = Ctr::new(KEY.len());
    let mut first = [0; 16];
    first[..PREFIX.len()].copy_from_slice(&PREFIX);
    Box::new(move |bytes| ctr.run(&KEY, &first, bytes))
}

/// The tag goes over the run's front, so that it is compared as the bytes of other works are.
fn tag_by<'a>(mut tag_of: impl FnMut(&[u8]) -> [u8; 16] + 'a) -> Work<'a> {
    Box::new(move |bytes| {
        let tag = tag_of(bytes);
        bytes[..16].copy_from_slice(&tag);
    })
}

fn tag<'a>() -> Work<'a> {
    tag_by(|bytes| cmac(&KEY, bytes).expect("a key of 16 bytes"))
}

fn tag_by_libcrypto<'a>() -> Work<'a> {
    let mut lib = Cmac::new(KEY.len());
    tag_by(move |bytes| lib.tag(&KEY, bytes))
}

/// The processor's name, as Linux gives it.
fn processor() -> String {
    let text = fs::read_to_string("/proc/cpuinfo").unwrap_or_default();
    text.lines()
        .filter_map(|line| line.split_once(':'))
        .find(|(name, _)| name.trim() == "model name")
        .map_or("unknown processor".to_string(), |(_, value)| {
            value.trim().to_string()
        })
}

fn block_runs(buffer: &mut [u8]) {
    println!("ARIA-ECB    direction    plain   tables  libcrypto  plain/lib  tables/lib");
    let sizes = [
        ("16 bytes", 16),
        ("64 bytes", 64),
        ("256 bytes", 256),
        ("16 KiB", 16 << 10),
        ("1 MiB", 1 << 20),
    ];
    for (name, size) in sizes {
        for direction in Direction::ALL {
            let works = [
                blocks_by(Engine::Plain, direction),
                blocks_by(Engine::Tables, direction),
                blocks_by_libcrypto(direction),
            ];
            let [plain, tables, lib] = compared(&mut buffer[..size], works);
            println!(
                "{name:<11} {:<9} {plain:>8.1} {tables:>8.1} {lib:>10.1} {:>10.2} {:>11.2}",
                format!("{direction:?}").to_lowercase(),
                plain / lib,
                tables / lib
            );
        }
    }
}

fn counter_runs(buffer: &mut [u8]) {
    println!("ARIA-CTR                       tables  libcrypto             tables/lib");
    let works = [counter_mode(), counter_mode_by_libcrypto()];
    let [tables, lib] = compared(&mut buffer[..64 << 10], works);
    println!("64 KiB {tables:>30.1} {lib:>10.1} {:>22.2}", tables / lib);
}

fn tags(buffer: &mut [u8]) {
    println!("ARIA-CMAC                      tables  libcrypto             tables/lib");
    for (name, size) in [("64 bytes", 64), ("1 KiB", 1 << 10), ("64 KiB", 64 << 10)] {
        let works = [tag(), tag_by_libcrypto()];
        let [tables, lib] = compared(&mut buffer[..size], works);
        println!(
            "{name:<11} {tables:>25.1} {lib:>10.1} {:>22.2}",
            tables / lib
        );
    }
}

/// How many jobs an archive has, but for one that is sealed of one job. Where one is opened, it is the
/// last, and the others have no bytes.
const JOBS: usize = 64;
const ARCHIVE_NUMBER: [u8; 4] = [0, 0, 0, 7];
/// How long a tag is.
const TAG: usize = 16;
/// The job's length: with its tag the archive is as long as one may be, 65,536 bytes.
const JOB: usize = (64 << 10) - 20 - 16 * JOBS - TAG;
/// The length of an only job, likewise.
const ONLY_JOB: usize = (64 << 10) - 20 - 16 - TAG;
/// The range of the last of many that is opened: its last KiB.
const RANGE: usize = 1 << 10;

/// The number of a job, the first being 1.
fn number(job: usize) -> Vec<u8> {
    format!("240000{job:02}").into_bytes()
}

/// An archive of jobs of these lengths, their plain bytes end to end sealed by libcrypto; of layout 2
/// and tagged by it where there is a tag key.
fn archive_of(lengths: &[usize], plain: &[u8], tag_key: &[u8]) -> Vec<u8> {
    let mut check = [0xff; 16];
    run(Engine::Tables, &KEY, Direction::Forward, &mut check).expect("a block");

    let front = 20 + 16 * lengths.len();
    let mut directory = Vec::new();
    let mut bodies = Vec::new();
    for (index, &length) in lengths.iter().enumerate() {
        let at = bodies.len();
        let digits = number(index + 1);
        let mut first = [0; 16];
        first[..4].copy_from_slice(&ARCHIVE_NUMBER);
        first[4..12].copy_from_slice(&digits);
        let mut body = plain[at..at + length].to_vec();
        Ctr::new(KEY.len()).run(&KEY, &first, &mut body);
        directory.extend(digits);
        directory.extend(((front + at) as u32).to_be_bytes());
        directory.extend((length as u32).to_be_bytes());
        bodies.extend(body);
    }

    let (layout, tag_size) = if tag_key.is_empty() { (1, 0) } else { (2, TAG) };
    let mut file = vec![layout, KEY.len() as u8, 0, lengths.len() as u8];
    file.extend(ARCHIVE_NUMBER);
    file.extend(&check[..8]);
    file.extend(((front + bodies.len() + tag_size) as u32).to_be_bytes());
    file.extend(directory);
    file.extend(bodies);
    if !tag_key.is_empty() {
        let tag = Cmac::new(tag_key.len()).tag(tag_key, &file);
        file.extend(tag);
    }
    file
}

/// The sheet of the jobs of such an archive.
fn sheet_of(lengths: &[usize]) -> Vec<u8> {
    let mut sheet = vec![KEY.len() as u8];
    sheet.extend(ARCHIVE_NUMBER);
    for (index, &length) in lengths.iter().enumerate() {
        sheet.extend(number(index + 1));
        sheet.extend((length as u32).to_be_bytes());
    }
    sheet
}

fn check(tag_key: &[u8], file: &[u8]) {
    // SAFETY: the slices are valid for their lengths. The function has no `requires`.
    let number = unsafe {
        bench_check(
            KEY.as_ptr(),
            KEY.len(),
            tag_key.as_ptr(),
            tag_key.len(),
            file.as_ptr(),
            file.len(),
        )
    };
    assert_eq!(number, 0, "bench_check");
}

fn open(tag_key: &[u8], file: &[u8], number: &[u8], out: &mut [u8]) {
    // SAFETY: the slices are valid for their lengths, and a mutable borrow overlaps no other. The function
    // has no `requires`.
    let refusal = unsafe {
        bench_open(
            KEY.as_ptr(),
            KEY.len(),
            tag_key.as_ptr(),
            tag_key.len(),
            file.as_ptr(),
            file.len(),
            number.as_ptr(),
            number.len(),
            out.as_mut_ptr(),
            out.len(),
        )
    };
    assert_eq!(refusal, 0, "bench_open");
}

/// As many bytes of the job, from byte `first` on, as the buffer holds.
fn open_range(tag_key: &[u8], file: &[u8], number: &[u8], first: usize, out: &mut [u8]) {
    // SAFETY: as in `open`.
    let refusal = unsafe {
        bench_open_range(
            KEY.as_ptr(),
            KEY.len(),
            tag_key.as_ptr(),
            tag_key.len(),
            file.as_ptr(),
            file.len(),
            number.as_ptr(),
            number.len(),
            first,
            out.len(),
            out.as_mut_ptr(),
            out.len(),
        )
    };
    assert_eq!(refusal, 0, "bench_open_range");
}

fn seal(tag_key: &[u8], sheet: &[u8], plain: &[u8], out: &mut [u8]) {
    // SAFETY: as in `open`.
    let refusal = unsafe {
        bench_seal(
            KEY.as_ptr(),
            KEY.len(),
            tag_key.as_ptr(),
            tag_key.len(),
            sheet.as_ptr(),
            sheet.len(),
            plain.as_ptr(),
            plain.len(),
            out.as_mut_ptr(),
            out.len(),
        )
    };
    assert_eq!(refusal, 0, "bench_seal");
}

fn drop_jobs(tag_key: &[u8], file: &[u8], list: &[u8], out: &mut [u8]) {
    // SAFETY: as in `open`.
    let refusal = unsafe {
        bench_drop(
            KEY.as_ptr(),
            KEY.len(),
            tag_key.as_ptr(),
            tag_key.len(),
            file.as_ptr(),
            file.len(),
            list.as_ptr(),
            list.len(),
            out.as_mut_ptr(),
            out.len(),
        )
    };
    assert_eq!(refusal, 0, "bench_drop");
}

/// The count of jobs that dropping would leave, and the archive's whole length.
fn preview(tag_key: &[u8], file: &[u8], list: &[u8], out: &mut [u8]) -> (usize, usize) {
    // SAFETY: as in `open`.
    let answer = unsafe {
        bench_preview(
            KEY.as_ptr(),
            KEY.len(),
            tag_key.as_ptr(),
            tag_key.len(),
            file.as_ptr(),
            file.len(),
            list.as_ptr(),
            list.len(),
            out.as_mut_ptr(),
            out.len(),
        )
    };
    assert_eq!(answer % 256, 0, "bench_preview");
    (answer / 256 % 256, answer / 65536)
}

/// Microseconds a call, over so many calls.
fn microseconds(calls: usize, call: &mut dyn FnMut()) -> f64 {
    let before = thread_seconds();
    for _ in 0..calls {
        call();
    }
    (thread_seconds() - before) * 1e6 / calls as f64
}

/// The least of each over all rounds, in microseconds a call.
fn least<const N: usize>(mut works: [(usize, &mut dyn FnMut()); N]) -> [f64; N] {
    let mut least = [f64::INFINITY; N];
    for _ in 0..ROUNDS {
        for (figure, (calls, call)) in least.iter_mut().zip(&mut works) {
            *figure = figure.min(microseconds(*calls, call));
        }
    }
    least
}

/// The check, a range and a whole job, of an archive without a tag and of one with it, and CMAC of the
/// bytes that its tag is made of.
fn openings(buffer: &mut [u8]) {
    let plain = &buffer[..JOB];
    let mut lengths = [0; JOBS];
    lengths[JOBS - 1] = JOB;
    let archives =
        [&[], &TAG_KEY[..]].map(|tag_key| (tag_key, archive_of(&lengths, plain, tag_key)));
    let job = number(JOBS);
    let mut opened = [0, 1].map(|_| (vec![0; JOB], vec![0; RANGE]));
    let first = JOB - RANGE;
    for ((tag_key, file), (whole, range)) in archives.iter().zip(&mut opened) {
        open(tag_key, file, &job, whole);
        assert_eq!(whole, plain, "another job than was sealed");
        open_range(tag_key, file, &job, first, range);
        assert_eq!(range, &plain[first..], "another range than was sealed");
    }

    let [(no_key, file), (tag_key, tagged)] = &archives;
    let [(whole, range), (tagged_whole, tagged_range)] = &mut opened;
    let before_tag = &tagged[..tagged.len() - TAG];
    let best = least([
        (64, &mut || check(no_key, file)),
        (64, &mut || open_range(no_key, file, &job, first, range)),
        (64, &mut || open(no_key, file, &job, whole)),
        (16, &mut || check(tag_key, tagged)),
        (16, &mut || {
            open_range(tag_key, tagged, &job, first, tagged_range)
        }),
        (16, &mut || open(tag_key, tagged, &job, tagged_whole)),
        (16, &mut || {
            cmac(tag_key, before_tag).expect("a key of 16 bytes");
        }),
    ]);
    println!("an archive of {JOBS} jobs, the last of {JOB} bytes, microseconds a call");
    let last = format!("the last {RANGE} bytes of that job, with the check");
    let rows = [
        "the check of key and file",
        &last,
        "the whole of that job, with the check",
        "tagged, 64 KiB: the check of keys and file",
        &format!("tagged: {last}"),
        "tagged: the whole of that job, with the check",
        "CMAC of the bytes before that tag",
    ];
    for (row, figure) in rows.iter().zip(best) {
        println!("{row:<56} {figure:>8.1}");
    }
    println!(
        "tagged, the check, in times of CMAC {:>29.2}",
        best[3] / best[6]
    );
}

/// What sealing takes, and a buffer that the archive fills.
struct Sealing<'a> {
    tag_key: &'a [u8],
    sheet: Vec<u8>,
    plain: &'a [u8],
    out: Vec<u8>,
}

impl<'a> Sealing<'a> {
    /// Jobs of these lengths, sealed once and found to be the archive of libcrypto's bytes.
    fn of(lengths: &[usize], tag_key: &'a [u8], bytes: &'a [u8]) -> Self {
        let plain = &bytes[..lengths.iter().sum()];
        let file = archive_of(lengths, plain, tag_key);
        let mut sealing = Self {
            tag_key,
            sheet: sheet_of(lengths),
            plain,
            out: vec![0; file.len()],
        };
        sealing.seal();
        assert_eq!(
            sealing.out, file,
            "another archive than of libcrypto's bytes"
        );
        sealing
    }

    fn seal(&mut self) {
        seal(self.tag_key, &self.sheet, self.plain, &mut self.out);
    }
}

/// Archives of one job and of jobs of about equal lengths sealed, without a tag and with it, and those of
/// one job opened.
fn sealings(buffer: &[u8]) {
    let one = [ONLY_JOB];
    let mut many = [JOB / JOBS; JOBS];
    many[JOBS - 1] += JOB % JOBS;
    let [mut one_job, mut tagged_one] = [&[], &TAG_KEY[..]].map(|k| Sealing::of(&one, k, buffer));
    let [mut jobs, mut tagged_jobs] = [&[], &TAG_KEY[..]].map(|k| Sealing::of(&many, k, buffer));
    let [file, tagged] = [&one_job, &tagged_one].map(|sealing| sealing.out.clone());
    let job = number(1);
    let [mut opened, mut tagged_opened] =
        [(&[][..], &file), (&TAG_KEY, &tagged)].map(|(k, file)| {
            let mut out = vec![0; ONLY_JOB];
            open(k, file, &job, &mut out);
            assert_eq!(out, buffer[..ONLY_JOB], "another job than was sealed");
            out
        });
    let best = least([
        (64, &mut || one_job.seal()),
        (64, &mut || open(&[], &file, &job, &mut opened)),
        (64, &mut || jobs.seal()),
        (16, &mut || tagged_one.seal()),
        (16, &mut || {
            open(&TAG_KEY, &tagged, &job, &mut tagged_opened)
        }),
        (16, &mut || tagged_jobs.seal()),
    ]);

    println!("archives that with a tag have 64 KiB, microseconds a call");
    let rows = [
        &format!("sealing one job of {ONLY_JOB} bytes"),
        "opening it, with the check",
        &format!("sealing {JOBS} jobs of {JOB} bytes in all"),
        "tagged: sealing that one job",
        "tagged: opening it, with the check",
        "tagged: sealing those jobs",
    ];
    for (row, figure) in rows.iter().zip(best) {
        println!("{row:<56} {figure:>8.1}");
    }
    println!(
        "sealing one job, in times of opening it, and tagged {:>8.2} {:>8.2}",
        best[0] / best[1],
        best[3] / best[4]
    );
}

/// An archive of jobs of about equal lengths: the check, the last job dropped and the preview of that, and
/// all of them dropped; and of one with a tag the check, the last job dropped and the preview.
fn droppings(buffer: &[u8]) {
    let mut many = [JOB / JOBS; JOBS];
    many[JOBS - 1] += JOB % JOBS;
    let last = number(JOBS);
    let all: Vec<u8> = (1..=JOBS).flat_map(number).collect();
    let [file, tagged] = [&[], &TAG_KEY[..]].map(|k| archive_of(&many, buffer, k));
    let dropped = |tag_key: &[u8], file: &[u8], list: &[u8], left: &[usize]| {
        let mut out = vec![0; file.len()];
        drop_jobs(tag_key, file, list, &mut out);
        let smaller = archive_of(left, buffer, tag_key);
        assert!(
            out.starts_with(&smaller),
            "another archive than of the other jobs"
        );
        let mut contents = vec![0; 16 * left.len()];
        let said = preview(tag_key, file, list, &mut contents);
        assert_eq!(said, (left.len(), smaller.len()), "another preview");
        assert!(smaller[20..].starts_with(&contents), "other contents");
        (out, contents)
    };
    let (mut out, mut contents) = dropped(&[], &file, &last, &many[..JOBS - 1]);
    let (mut emptied, _) = dropped(&[], &file, &all, &[]);
    let (mut tagged_out, mut tagged_contents) =
        dropped(&TAG_KEY, &tagged, &last, &many[..JOBS - 1]);
    let best = least([
        (64, &mut || check(&[], &file)),
        (64, &mut || drop_jobs(&[], &file, &last, &mut out)),
        (64, &mut || {
            preview(&[], &file, &last, &mut contents);
        }),
        (64, &mut || drop_jobs(&[], &file, &all, &mut emptied)),
        (16, &mut || check(&TAG_KEY, &tagged)),
        (16, &mut || {
            drop_jobs(&TAG_KEY, &tagged, &last, &mut tagged_out)
        }),
        (16, &mut || {
            preview(&TAG_KEY, &tagged, &last, &mut tagged_contents);
        }),
    ]);

    println!("an archive of {JOBS} jobs of {JOB} bytes in all, microseconds a call");
    let rows = [
        "the check of key and file",
        "dropping the last job, with the check",
        "the preview of that, with the check",
        "dropping all jobs, with the check",
        "tagged, 64 KiB: the check of keys and file",
        "tagged: dropping the last job, with the check",
        "tagged: the preview of that, with the check",
    ];
    for (row, figure) in rows.iter().zip(best) {
        println!("{row:<56} {figure:>8.1}");
    }
}

fn main() {
    // Filled before the clock runs, so that no page is touched first inside a measurement.
    let mut buffer: Vec<u8> = (0..1 << 20).map(|i: u32| (i % 251) as u8).collect();

    // A second of work first: without it the first row came out lower for the plain engine. Why was not
    // looked into.
    let mut first = blocks_by(Engine::Plain, Direction::Forward);
    while thread_seconds() < 1.0 {
        first(&mut buffer);
    }

    println!("{}; {}", processor(), libcrypto::version());
    println!(
        "16-byte key, prepared in every call; MB/s of thread CPU time, best of {ROUNDS} rounds"
    );
    block_runs(&mut buffer);
    counter_runs(&mut buffer);
    tags(&mut buffer);
    openings(&mut buffer);
    sealings(&buffer);
    droppings(&buffer);
}
