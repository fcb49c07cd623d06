//! What a turn of an elastic store can't do without: its bytes are copied in, and copied out.

#[inline(never)]
fn copy_twice(chunk: &[u8], held: &mut [u8], out: &mut [u8]) {
    held[..chunk.len()].copy_from_slice(chunk);
    out[..chunk.len()].copy_from_slice(std::hint::black_box(&held[..chunk.len()]));
}

/// Copies the chunks of a number of turns, four of which are the input: 2346 bytes and three times 2349.
pub fn two_copies(input: &[u8], turns: u32, out: &mut [u8]) {
    let mut held = vec![0; 2352];
    let starts = [0, 2346, 4695, 7044, 9393];
    for turn in 0..turns as usize {
        let (from, to) = (starts[turn % 4], starts[turn % 4 + 1]);
        copy_twice(&input[from..to], &mut held, out);
    }
}
