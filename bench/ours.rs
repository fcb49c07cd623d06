//! The functions of the static library `crates/sdh_bench`. A slice crosses as a pointer and then a length.

unsafe extern "C" {
    fn sdh_bench_scramble(n: usize, bytes: *mut u8, len: usize);
    fn sdh_bench_bip8(bytes: *const u8, len: usize) -> u8;
    fn sdh_bench_bip_section(n: usize, bytes: *const u8, len: usize, out: *mut u8, out_len: usize);
    fn sdh_bench_write_sections(n: usize, rounds: u8, bytes: *mut u8, len: usize) -> bool;
    fn sdh_bench_read_sections(n: usize, rounds: u8, bytes: *mut u8, len: usize) -> u64;
    fn sdh_bench_copy_payloads(n: usize, rounds: u8, bytes: *mut u8, len: usize) -> bool;
    fn sdh_bench_pointers(words: *const u16, len: usize, out: *mut u16, out_len: usize);
    fn sdh_bench_chunks(
        text: *const u8,
        text_len: usize,
        trace: *const u8,
        trace_len: usize,
        offset: u16,
        chunks: u32,
        out: *mut u8,
        out_len: usize,
    ) -> bool;
    fn sdh_bench_turns(
        input: *const u8,
        input_len: usize,
        turns: u32,
        out: *mut u8,
        out_len: usize,
    ) -> usize;
}

/// What the library requires of a rate and a frame.
fn is_frame(n: usize, bytes: &[u8]) -> bool {
    (n == 4 || n == 16) && bytes.len() == 2430 * n
}

pub fn scramble(n: usize, bytes: &mut [u8]) {
    assert!(is_frame(n, bytes));
    // SAFETY: pointer and length are of one slice, and the library's `requires` was tested.
    unsafe { sdh_bench_scramble(n, bytes.as_mut_ptr(), bytes.len()) }
}

pub fn bip8(bytes: &[u8]) -> u8 {
    // SAFETY: pointer and length are of one slice; the library requires no more.
    unsafe { sdh_bench_bip8(bytes.as_ptr(), bytes.len()) }
}

pub fn bip_section(n: usize, bytes: &[u8], out: &mut [u8]) {
    assert!(is_frame(n, bytes) && out.len() == 3 * n);
    // SAFETY: pointers and lengths are of one slice each, and the library's `requires` was tested.
    unsafe { sdh_bench_bip_section(n, bytes.as_ptr(), bytes.len(), out.as_mut_ptr(), out.len()) }
}

pub fn write_sections(n: usize, rounds: u8, bytes: &mut [u8]) {
    assert!(is_frame(n, bytes));
    // SAFETY: pointer and length are of one slice, and the library's `requires` was tested.
    let done = unsafe { sdh_bench_write_sections(n, rounds, bytes.as_mut_ptr(), bytes.len()) };
    assert!(done, "no memory");
}

pub fn read_sections(n: usize, rounds: u8, bytes: &mut [u8]) -> u64 {
    assert!(is_frame(n, bytes));
    // SAFETY: pointer and length are of one slice, and the library's `requires` was tested.
    unsafe { sdh_bench_read_sections(n, rounds, bytes.as_mut_ptr(), bytes.len()) }
}

pub fn copy_payloads(n: usize, rounds: u8, bytes: &mut [u8]) {
    assert!(is_frame(n, bytes));
    // SAFETY: pointer and length are of one slice, and the library's `requires` was tested.
    let done = unsafe { sdh_bench_copy_payloads(n, rounds, bytes.as_mut_ptr(), bytes.len()) };
    assert!(done, "no memory");
}

pub fn pointers(words: &[u16], out: &mut [u16]) {
    assert!(words.len() == out.len());
    // SAFETY: pointers and lengths are of one slice each, and the library's `requires` was tested.
    unsafe { sdh_bench_pointers(words.as_ptr(), words.len(), out.as_mut_ptr(), out.len()) }
}

pub fn chunks(text: &[u8], trace: &[u8], offset: u16, chunks: u32, out: &mut [u8]) {
    assert!(out.len() == 2349);
    // SAFETY: pointers and lengths are of one slice each, and the library's `requires` was tested.
    let done = unsafe {
        sdh_bench_chunks(
            text.as_ptr(),
            text.len(),
            trace.as_ptr(),
            trace.len(),
            offset,
            chunks,
            out.as_mut_ptr(),
            out.len(),
        )
    };
    assert!(done, "no such port, or no memory");
}

/// The bytes that the last turn gives.
pub fn turns<'a>(input: &[u8], turns: u32, out: &'a mut [u8]) -> &'a [u8] {
    assert!(input.len() == 9393 && out.len() == 2352);
    // SAFETY: pointers and lengths are of one slice each, and the library's `requires` was tested.
    let count = unsafe { sdh_bench_turns(input.as_ptr(), input.len(), turns, out.as_mut_ptr(), out.len()) };
    &out[..count]
}
