//! Sections (ITU-T G.707 clause 9.2), and payloads from frame to frame.

use super::{bip_section, bip8, scramble};

#[derive(Clone, Copy)]
struct Parities {
    b1: u8,
    b2: [u8; 48],
}

struct Section {
    n: usize,
    last: Option<Parities>,
}

struct Received {
    k1: u8,
    k2: u8,
    b1: u32,
    b2: u32,
}

fn violations(left: &[u8], right: &[u8]) -> u32 {
    left.iter()
        .zip(right)
        .map(|(x, y)| (x ^ y).count_ones())
        .sum()
}

impl Section {
    fn parity(&self, frame: &[u8]) -> [u8; 48] {
        let mut b2 = [0; 48];
        bip_section(self.n, frame, &mut b2[..3 * self.n]);
        b2
    }

    fn write_overhead(&self, k1: u8, k2: u8, frame: &mut [u8]) {
        let n = self.n;
        let Parities { b1, b2 } = self.last.unwrap_or(Parities { b1: 0, b2: [0; 48] });
        for (row, columns) in frame.chunks_exact_mut(270 * n).enumerate() {
            let head = &mut columns[..9 * n];
            match row {
                0 => {
                    head[..3 * n].fill(0xF6);
                    head[3 * n..6 * n].fill(0x28);
                    head[6 * n..].fill(0xAA);
                    head[6 * n] = 1;
                }
                1 => {
                    head.fill(0);
                    head[0] = b1;
                }
                3 => {}
                4 => {
                    head.fill(0);
                    head[..3 * n].copy_from_slice(&b2[..3 * n]);
                    head[3 * n] = k1;
                    head[6 * n] = k2;
                }
                _ => head.fill(0),
            }
        }
    }

    #[inline(never)]
    fn write(&mut self, k1: u8, k2: u8, frame: &mut [u8]) {
        self.write_overhead(k1, k2, frame);
        let b2 = self.parity(frame);
        scramble(self.n, frame);
        self.last = Some(Parities {
            b1: bip8(frame),
            b2,
        });
    }

    #[inline(never)]
    fn read(&mut self, frame: &mut [u8]) -> Option<Received> {
        let n = self.n;
        let is_framed = frame[..3 * n].iter().all(|byte| *byte == 0xF6)
            && frame[3 * n..6 * n].iter().all(|byte| *byte == 0x28);
        if !is_framed {
            self.last = None;
            return None;
        }
        let b1 = bip8(frame);
        scramble(n, frame);
        let received = Received {
            k1: frame[1083 * n],
            k2: frame[1086 * n],
            b1: self
                .last
                .map_or(0, |last| (last.b1 ^ frame[270 * n]).count_ones()),
            b2: self.last.map_or(0, |last| {
                violations(&last.b2[..3 * n], &frame[1080 * n..1083 * n])
            }),
        };
        self.last = Some(Parities {
            b1,
            b2: self.parity(frame),
        });
        Some(received)
    }
}

pub fn write_sections(n: usize, rounds: u8, bytes: &mut [u8]) {
    let mut frame = vec![0; 2430 * n];
    frame.copy_from_slice(bytes);
    let mut section = Section { n, last: None };
    for round in 0..rounds {
        section.write(round, round, &mut frame);
    }
    bytes.copy_from_slice(&frame);
}

pub fn read_sections(n: usize, rounds: u8, bytes: &mut [u8]) -> u64 {
    let mut frame = vec![0; 2430 * n];
    frame.copy_from_slice(bytes);
    let mut section = Section { n, last: None };
    let mut sum = 0_u64;
    for _ in 0..rounds {
        sum += section
            .read(&mut frame)
            .map_or(0, |Received { k1, k2, b1, b2 }| {
                1 + u64::from(k1) + u64::from(k2) + u64::from(b1) + u64::from(b2)
            });
    }
    bytes.copy_from_slice(&frame);
    sum
}

/// One AU-4's payload into another's; N is known when it is compiled.
fn copy_payload<const N: usize>(to: &mut [u8], to_au: usize, from: &[u8], from_au: usize) {
    for (to_row, from_row) in to.chunks_exact_mut(270 * N).zip(from.chunks_exact(270 * N)) {
        let groups = to_row[9 * N..]
            .chunks_exact_mut(N)
            .zip(from_row[9 * N..].chunks_exact(N));
        for (to_group, from_group) in groups {
            to_group[to_au - 1] = from_group[from_au - 1];
        }
    }
}

#[inline(never)]
fn copy_one(n: usize, to: &mut [u8], to_au: usize, from: &[u8], from_au: usize) {
    match n {
        4 => copy_payload::<4>(to, to_au, from, from_au),
        _ => copy_payload::<16>(to, to_au, from, from_au),
    }
}

pub fn copy_payloads(n: usize, rounds: u8, bytes: &mut [u8]) {
    let mut from = vec![0; 2430 * n];
    from.copy_from_slice(bytes);
    let mut to = vec![0; 2430 * n];
    for _ in 0..rounds {
        for au in 1..n {
            copy_one(n, &mut to, au + 1, &from, au);
        }
        copy_one(n, &mut to, 1, &from, n);
    }
    bytes.copy_from_slice(&to);
}
