//! A customer's stream of VC-4s, chunk by chunk.

const VC4: usize = 2349;

const COLUMNS: usize = 261;

struct Feed {
    /// The text over and over, from each of its places on for a whole row.
    text: Vec<u8>,
    len: usize,
    trace: [u8; 64],
    number: u64,
    index: usize,
    b3: u8,
    parity: u8,
    place: usize,
}

impl Feed {
    fn new(text: &[u8], trace: &[u8], offset: u16) -> Feed {
        let mut padded = [b' '; 64];
        padded[..trace.len()].copy_from_slice(trace);
        let mut feed = Feed {
            text: text.iter().copied().cycle().take(64 + 260).collect(),
            len: text.len(),
            trace: padded,
            number: 0,
            index: 0,
            b3: 0,
            parity: 0,
            place: 0,
        };
        let phase = (783 + 3 * usize::from(offset)) % VC4;
        let skipped = (VC4 - phase) % VC4;
        let mut dropped = Vec::with_capacity(VC4);
        while dropped.len() < skipped {
            feed.put_some(skipped - dropped.len(), &mut dropped);
        }
        feed
    }

    /// Puts the next bytes of one row, at most as many as fit.
    fn put_some(&mut self, most: usize, out: &mut Vec<u8>) {
        let (row, column) = (self.index / COLUMNS, self.index % COLUMNS);
        if column == 0 {
            let byte = match row {
                0 => self.trace[(self.number % 64) as usize],
                1 => self.b3,
                2 => 1,
                _ => 0,
            };
            out.push(byte);
            self.parity ^= byte;
            self.index += 1;
            return;
        }
        let count = most.min(COLUMNS - column);
        let run = &self.text[self.place..self.place + count];
        out.extend_from_slice(run);
        self.parity ^= run.iter().fold(0, |parity, byte| parity ^ byte);
        self.place = (self.place + count) % self.len;
        self.index += count;
        if self.index == VC4 {
            self.index = 0;
            self.number += 1;
            self.b3 = self.parity;
            self.parity = 0;
        }
    }

    #[inline(never)]
    fn next(&mut self, out: &mut Vec<u8>) {
        out.clear();
        while out.len() < VC4 {
            self.put_some(VC4 - out.len(), out);
        }
    }
}

pub fn chunks(text: &[u8], trace: &[u8], offset: u16, chunks: u32, out: &mut [u8]) {
    let mut feed = Feed::new(text, trace, offset);
    let mut chunk = Vec::with_capacity(VC4 + 3);
    for _ in 0..chunks {
        feed.next(&mut chunk);
    }
    out.copy_from_slice(&chunk);
}
