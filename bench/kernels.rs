//! The kernels of the crates beside the same kernels in plain Rust, in one process: what each takes at best, and the ratio.
//!
//! `bench/run` builds and runs this. The two sides take turns on the same buffers, and must agree on every byte that they write. A
//! row is written as its kernel, its rate, and the least nanoseconds of the proved and of the plain kernel, with tabs between.

mod ours;
mod plain;

use std::hint::black_box;
use std::time::Instant;

// Bytes before all code, as many as `bench/run` says: where a short loop lies can cost it a quarter. The flag R keeps them.
std::arch::global_asm!(
    ".pushsection .text.padding,\"axR\",@progbits",
    concat!(".skip ", env!("PADDING")),
    ".popsection",
);

/// How often all rows are measured: a neighbour on the machine disturbs some passes and not others.
const PASSES: usize = 5;

/// Samples of a row in a pass. The least time of each side counts, over all passes.
const SAMPLES: usize = 300;

/// Calls of a row over bytes in one sample.
const CALLS: usize = 20;

/// Frames that one call of a row over sections or payloads works on.
const ROUNDS: u8 = 60;

/// Chunks that one call of a row over streams makes.
const CHUNKS: u32 = 500;

/// Turns that one call of the row over an elastic store takes.
const TURNS: u32 = 500;

/// Pointer words of one call.
const WORDS: usize = 5000;

const TEXT: &[u8] = b"The quick brown fox jumps over the lazy dog";

const TRACE: &[u8] = b"north to south, port a";

const OFFSET: u16 = 522;

/// One line of the table: the least nanoseconds of a kernel on either side.
struct Row {
    kernel: &'static str,
    rate: String,
    ours: f64,
    plain: f64,
}

/// Measures two sides that take turns on one value, at one place in memory; each call does `steps` steps.
fn measure<T>(
    kernel: &'static str,
    rate: String,
    steps: usize,
    on: &mut T,
    ours: impl Fn(&mut T),
    plain: impl Fn(&mut T),
) -> Row {
    let mut least = [f64::INFINITY; 2];
    for _ in 0..SAMPLES {
        let start = Instant::now();
        ours(black_box(on));
        least[0] = least[0].min(start.elapsed().as_nanos() as f64);
        let start = Instant::now();
        plain(black_box(on));
        least[1] = least[1].min(start.elapsed().as_nanos() as f64);
    }
    let [ours, plain] = least.map(|time| time / steps as f64);
    Row {
        kernel,
        rate,
        ours,
        plain,
    }
}

/// Bytes that look random, the same in each run.
fn noise(len: usize) -> Vec<u8> {
    let mut state = 0x9E37_79B9_7F4A_7C15_u64;
    let mut next = || {
        state ^= state << 13;
        state ^= state >> 7;
        state ^= state << 17;
        (state >> 32) as u8
    };
    (0..len).map(|_| next()).collect()
}

fn scramble_row(n: usize) -> Row {
    let (mut left, mut right) = (noise(2430 * n), noise(2430 * n));
    ours::scramble(n, &mut left);
    plain::scramble(n, &mut right);
    assert!(left == right && left != noise(2430 * n), "scramble");
    measure(
        "scramble",
        format!("STM-{n}"),
        CALLS,
        &mut left,
        |frame| (0..CALLS).for_each(|_| ours::scramble(n, frame)),
        |frame| (0..CALLS).for_each(|_| plain::scramble(n, frame)),
    )
}

fn bip8_row(n: usize) -> Row {
    let mut frame = noise(2430 * n);
    assert_eq!(ours::bip8(&frame), plain::bip8(&frame), "bip8");
    measure(
        "bip8",
        format!("STM-{n}"),
        CALLS,
        &mut frame,
        |frame| (0..CALLS).for_each(|_| _ = black_box(ours::bip8(black_box(frame)))),
        |frame| (0..CALLS).for_each(|_| _ = black_box(plain::bip8(black_box(frame)))),
    )
}

fn bip_section_row(n: usize) -> Row {
    let frame = noise(2430 * n);
    let (mut left, mut right) = (vec![0; 3 * n], vec![0; 3 * n]);
    ours::bip_section(n, &frame, &mut left);
    plain::bip_section(n, &frame, &mut right);
    assert_eq!(left, right, "bip_section");
    measure(
        "bip_section",
        format!("STM-{n}"),
        CALLS,
        &mut left,
        |out| (0..CALLS).for_each(|_| ours::bip_section(n, black_box(&frame), out)),
        |out| (0..CALLS).for_each(|_| plain::bip_section(n, black_box(&frame), out)),
    )
}

fn write_row(n: usize) -> Row {
    let (mut left, mut right) = (noise(2430 * n), noise(2430 * n));
    ours::write_sections(n, ROUNDS, &mut left);
    plain::write_sections(n, ROUNDS, &mut right);
    assert!(left == right, "write_section");
    measure(
        "write_section",
        format!("STM-{n}"),
        ROUNDS.into(),
        &mut left,
        |frame| ours::write_sections(n, ROUNDS, frame),
        |frame| plain::write_sections(n, ROUNDS, frame),
    )
}

fn read_row(n: usize) -> Row {
    let mut left = noise(2430 * n);
    plain::write_sections(n, ROUNDS, &mut left);
    let mut right = left.clone();
    let found = ours::read_sections(n, ROUNDS, &mut left);
    assert_eq!(
        found,
        plain::read_sections(n, ROUNDS, &mut right),
        "read_section"
    );
    assert!(left == right && found > 0, "frames of read_section");
    measure(
        "read_section",
        format!("STM-{n}"),
        ROUNDS.into(),
        &mut left,
        |frame| _ = black_box(ours::read_sections(n, ROUNDS, frame)),
        |frame| _ = black_box(plain::read_sections(n, ROUNDS, frame)),
    )
}

fn copy_row(n: usize) -> Row {
    let (mut left, mut right) = (noise(2430 * n), noise(2430 * n));
    ours::copy_payloads(n, ROUNDS, &mut left);
    plain::copy_payloads(n, ROUNDS, &mut right);
    assert!(left == right && left != noise(2430 * n), "copy_payload");
    measure(
        "copy_payload, one AU-4",
        format!("STM-{n}"),
        usize::from(ROUNDS) * n,
        &mut left,
        |frame| ours::copy_payloads(n, ROUNDS, frame),
        |frame| plain::copy_payloads(n, ROUNDS, frame),
    )
}

/// A word of some kind, for a byte that looks random: most are one normal word, the others AIS, new data flags, its I or D bits
/// inverted, invalid words, and a few other values.
fn word_of(kind: u8) -> u16 {
    match kind {
        0..=11 => 0xFFFF,
        12..=19 => 0x9800 + u16::from(kind),
        20..=35 => 0x6800 + (OFFSET ^ 0x2AA),
        36..=51 => 0x6800 + (OFFSET ^ 0x155),
        52..=59 => 0x0123,
        60..=79 => 0x6800 + u16::from(kind % 3),
        _ => 0x6800 + OFFSET,
    }
}

fn pointer_row(kernel: &'static str, words: &[u16]) -> Row {
    let (mut left, mut right) = (vec![0; words.len()], vec![0; words.len()]);
    ours::pointers(words, &mut left);
    plain::pointers(words, &mut right);
    assert_eq!(left, right, "{kernel}");
    measure(
        kernel,
        "one AU-4".into(),
        words.len(),
        &mut left,
        |sent| ours::pointers(black_box(words), sent),
        |sent| plain::pointers(black_box(words), sent),
    )
}

fn chunk_row() -> Row {
    let (mut left, mut right) = (vec![0; 2349], vec![0; 2349]);
    for chunks in 1..200 {
        ours::chunks(TEXT, TRACE, OFFSET, chunks, &mut left);
        plain::chunks(TEXT, TRACE, OFFSET, chunks, &mut right);
        assert_eq!(left, right, "chunk {chunks}");
    }
    measure(
        "a port's chunk",
        "one AU-4".into(),
        CHUNKS as usize,
        &mut left,
        |chunk| ours::chunks(TEXT, TRACE, OFFSET, CHUNKS, chunk),
        |chunk| plain::chunks(TEXT, TRACE, OFFSET, CHUNKS, chunk),
    )
}

/// An elastic store that justifies in every fourth turn, beside two copies of the bytes of a turn.
fn turn_row() -> Row {
    let input = noise(9393);
    let mut out = vec![0; 2352];
    let mut given = 0;
    for turns in 1..200 {
        let last = ours::turns(&input, turns, &mut out);
        let due = input.iter().cycle().skip(given % 9393).take(last.len());
        assert!(last.iter().eq(due), "turn {turns}");
        given += last.len();
    }
    assert!(given > 190 * 2346, "turns that give");
    measure(
        "a store's turn, by two copies",
        "one AU-4".into(),
        TURNS as usize,
        &mut out,
        |out| _ = ours::turns(black_box(&input), TURNS, out),
        |out| plain::two_copies(black_box(&input), TURNS, out),
    )
}

/// All rows, measured once.
fn rows() -> Vec<Row> {
    let of_frames = [
        scramble_row,
        bip8_row,
        bip_section_row,
        write_row,
        read_row,
        copy_row,
    ];
    let mut rows: Vec<Row> = of_frames.iter().flat_map(|row| [row(4), row(16)]).collect();
    let steady = vec![0x6800 + OFFSET; WORDS];
    rows.push(pointer_row("pointer step, one word for ever", &steady));
    let mixed: Vec<u16> = noise(WORDS).into_iter().map(word_of).collect();
    rows.push(pointer_row("pointer step, words of all kinds", &mixed));
    rows.push(chunk_row());
    rows.push(turn_row());
    rows
}

fn main() {
    let mut best = rows();
    for _ in 1..PASSES {
        for (least, row) in best.iter_mut().zip(rows()) {
            least.ours = least.ours.min(row.ours);
            least.plain = least.plain.min(row.plain);
        }
    }
    for Row {
        kernel,
        rate,
        ours,
        plain,
    } in best
    {
        println!("{kernel}\t{rate}\t{ours}\t{plain}");
    }
}
