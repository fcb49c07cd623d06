//! Rounds of whole rings, against copies of as many frames: each once into a fibre and once out of it.
//! The functions are those of the static library `crates/sdh_bench_ring`.

use std::hint::black_box;
use std::time::Instant;

unsafe extern "C" {
    fn sdh_bench_ring(
        n: usize,
        ids: *const i64,
        nodes: usize,
        circuits: usize,
        names: *const u8,
        len: usize,
        cuts: usize,
        steps: u32,
    ) -> u32;
}

/// A ring of so many nodes, circuits and cut spans at STM-N, and the settle steps that are measured.
struct Case {
    name: &'static str,
    n: usize,
    nodes: usize,
    circuits: usize,
    cuts: usize,
    steps: u32,
}

const CASES: [Case; 4] = [
    Case { name: "16 nodes, STM-16, 128 circuits", n: 16, nodes: 16, circuits: 128, cuts: 0, steps: 1 },
    Case { name: "16 nodes, STM-16, 128 circuits, 3 cuts", n: 16, nodes: 16, circuits: 128, cuts: 3, steps: 1 },
    Case { name: "16 nodes, STM-4, 32 circuits", n: 4, nodes: 16, circuits: 32, cuts: 0, steps: 3 },
    Case { name: "3 nodes, STM-4, 1 circuit", n: 4, nodes: 3, circuits: 1, cuts: 0, steps: 16 },
];

/// The rounds of a settle step.
const STEP: u32 = 128;
/// Settle steps before those that count: the ring has settled.
const FIRST: u32 = 1;
const TURNS: usize = 20;

/// Runs a ring, and gives the time in seconds and how many ports deliver a chunk at the end.
fn run(case: &Case, steps: u32) -> (f64, u32) {
    let ids: Vec<i64> = (0..case.nodes as i64).collect();
    let names: String = (0..case.circuits).map(|i| format!("c{i:03}")).collect();
    let start = Instant::now();
    // SAFETY: pointers and lengths are of one slice each, and the library's `requires` hold of every case.
    let chunks = unsafe {
        sdh_bench_ring(case.n, ids.as_ptr(), ids.len(), case.circuits, names.as_ptr(), names.len(), case.cuts, steps)
    };
    assert!(chunks != 1000, "no such ring, or no memory");
    (start.elapsed().as_secs_f64(), chunks)
}

/// The copies of so many rounds: from two buffers into the fibres, and from the fibres into a buffer for each.
fn copies(case: &Case, rounds: u32) -> f64 {
    let size = 2430 * case.n;
    let fibres = 2 * case.nodes;
    let sent = [vec![1u8; size], vec![2u8; size]];
    let mut carried = vec![vec![0u8; size]; fibres];
    let mut arrived = vec![vec![0u8; size]; fibres];
    let start = Instant::now();
    for _ in 0..rounds {
        for i in 0..fibres {
            arrived[i].copy_from_slice(black_box(&carried[i]));
        }
        for i in 0..fibres {
            carried[i].copy_from_slice(black_box(&sent[i % 2]));
        }
        black_box(&mut arrived);
    }
    start.elapsed().as_secs_f64()
}

/// The most memory that the process has held, in MB.
fn memory() -> f64 {
    let status = std::fs::read_to_string("/proc/self/status").unwrap_or_default();
    let line = status.lines().find(|line| line.starts_with("VmHWM:")).unwrap_or("VmHWM: 0 kB");
    line.split_whitespace().nth(1).and_then(|text| text.parse::<f64>().ok()).unwrap_or(0.0) / 1024.0
}

fn main() {
    let only: Option<usize> = std::env::args().nth(1).and_then(|text| text.parse().ok());
    for (i, case) in CASES.iter().enumerate() {
        if only.is_some_and(|only| only != i) {
            continue;
        }
        let (mut before, mut after, mut least) = (f64::MAX, f64::MAX, f64::MAX);
        let mut chunks = 0;
        for _ in 0..TURNS {
            before = before.min(run(case, FIRST).0);
            let (time, found) = run(case, FIRST + case.steps);
            after = after.min(time);
            chunks = found;
            least = least.min(copies(case, case.steps * STEP));
        }
        let rounds = f64::from(case.steps * STEP);
        let round = (after - before) / rounds;
        let limit = least / rounds;
        println!(
            "{}\t{}\t{:.1}\t{:.0}\t{:.1}\t{:.2}\t{:.1}",
            case.name, chunks, round * 1e6, 1.0 / round, limit * 1e6, round / limit, memory()
        );
    }
}
