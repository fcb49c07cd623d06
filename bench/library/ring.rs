//! Runs a ring of four nodes at STM-4 with one circuit and no failure for 60 settle steps of 128 rounds, from Rust.
//! Prints how many ports delivered a chunk in the last round. The function is that of the static library
//! `crates/sdh_bench_ring`.

// A slice is two parameters: where it begins, and its length.
unsafe extern "C" {
    fn sdh_bench_ring(
        n: usize,
        ids: *const i64,
        nodes: usize,
        circuits: usize,
        names: *const u8,
        names_length: usize,
        cuts: usize,
        steps: u32,
    ) -> u32;
}

fn main() {
    let (ids, names) = ([0i64, 1, 2, 3], "c001");
    // SAFETY: each pointer is that of a slice of this length, and the numbers meet what the function asks for.
    let ports = unsafe { sdh_bench_ring(4, ids.as_ptr(), ids.len(), 1, names.as_ptr(), names.len(), 0, 60) };
    println!("ports with a chunk: {ports}");
    assert!(ports != 1000, "no such ring, or no memory");
}
