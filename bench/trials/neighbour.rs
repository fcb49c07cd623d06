//! What a hostile neighbour sends, and what is read of a node's frames, by plain kernels and the two tables of K bytes.

use crate::plain::{bip_section, bip8, scramble};

/// Numbers by chance (xorshift64*).
pub struct Dice(u64);

impl Dice {
    pub fn new(seed: u64) -> Dice {
        Dice(seed.wrapping_mul(0x9E37_79B9_7F4A_7C15) | 1)
    }

    pub fn next(&mut self) -> u64 {
        self.0 ^= self.0 >> 12;
        self.0 ^= self.0 << 25;
        self.0 ^= self.0 >> 27;
        self.0.wrapping_mul(0x2545_F491_4F6C_DD1D)
    }

    /// A number below a limit.
    pub fn below(&mut self, limit: u64) -> u64 {
        (self.next() >> 16) % limit
    }

    pub fn one_of<T: Copy>(&mut self, all: &[T]) -> T {
        all[self.below(all.len() as u64) as usize]
    }

    fn fill(&mut self, bytes: &mut [u8]) {
        for part in bytes.chunks_mut(8) {
            let drawn = self.next().to_le_bytes();
            part.copy_from_slice(&drawn[..part.len()]);
        }
    }
}

// K1 is a code and a destination, K2 a source, a path and a mark. These codes and marks decode, and no others.
const CODES: [u8; 7] = [0b1101, 0b1011, 0b1000, 0b0110, 0b0101, 0b0001, 0b0000];
const MARKS: [u8; 5] = [0b111, 0b110, 0b010, 0b001, 0b000];

/// Whether two bytes are those of a word.
pub fn is_word(k1: u8, k2: u8) -> bool {
    CODES.contains(&(k1 >> 4)) && MARKS.contains(&(k2 & 7))
}

// What a neighbour does for some rounds.
#[derive(Clone, Copy)]
enum Habit {
    Dark,
    Noise,
    NoiseInFrames,
    BadStart,
    Words,
    AnyBytes,
    Idle,
    Flicker,
}

const HABITS: [Habit; 8] = [
    Habit::Dark,
    Habit::Noise,
    Habit::NoiseInFrames,
    Habit::BadStart,
    Habit::Words,
    Habit::AnyBytes,
    Habit::Idle,
    Habit::Flicker,
];

/// The sender at the far end of one fibre.
pub struct Neighbour {
    n: usize,
    // The word that an honest idle node would send here.
    idle: (u8, u8),
    habit: Habit,
    k: (u8, u8),
    // What the parities of the next frame are made of.
    b1: u8,
    b2: Vec<u8>,
}

fn start(n: usize, frame: &mut [u8]) {
    frame[..3 * n].fill(0xF6);
    frame[3 * n..6 * n].fill(0x28);
}

// A pointer word of any kind: normal, with a new data flag, with bits inverted for a justification, of ones, of zeros, out of range,
// or by chance.
fn pointer(dice: &mut Dice) -> u16 {
    let value = dice.below(783) as u16;
    match dice.below(10) {
        0 => 0x9800 | value,
        1 => (0x6800 | value) ^ 0x02AA,
        2 => (0x6800 | value) ^ 0x0155,
        3 => 0xFFFF,
        4 => 0,
        5 => 0x6800 | (783 + dice.below(241) as u16),
        6 => dice.next() as u16,
        7 => 0x6800,
        _ => 0x6800 | value,
    }
}

impl Neighbour {
    pub fn new(n: usize, idle: (u8, u8)) -> Neighbour {
        Neighbour {
            n,
            idle,
            habit: Habit::Idle,
            k: idle,
            b1: 0,
            b2: vec![0; 3 * n],
        }
    }

    // A framed and scrambled frame with these K bytes.
    fn frame(&mut self, dice: &mut Dice, k: (u8, u8), frame: &mut [u8]) {
        let n = self.n;
        dice.fill(frame);
        start(n, frame);
        frame[270 * n] = self.b1;
        frame[1080 * n..1083 * n].copy_from_slice(&self.b2);
        (frame[1083 * n], frame[1086 * n]) = k;
        for au in 0..n {
            let [high, low] = pointer(dice).to_be_bytes();
            frame[810 * n + au] = high;
            frame[810 * n + 3 * n + au] = low;
        }
        bip_section(n, frame, &mut self.b2);
        scramble(n, frame);
        self.b1 = bip8(frame);
        // Now and then the next parities are wrong.
        if dice.below(8) == 0 {
            self.b2[0] ^= dice.next() as u8;
        }
    }

    fn change(&mut self, dice: &mut Dice) {
        if dice.below(6) == 0 {
            self.habit = dice.one_of(&HABITS);
        }
        if dice.below(4) == 0 {
            let nodes = dice.next() as u8;
            self.k = match self.habit {
                Habit::Words | Habit::Flicker => (
                    dice.one_of(&CODES) << 4 | self.idle.0 & 0xF,
                    self.idle.1 & 0xF0 | (nodes & 8) | dice.one_of(&MARKS),
                ),
                _ if dice.below(2) == 0 => (
                    dice.one_of(&CODES) << 4 | nodes & 0xF,
                    nodes & 0xF8 | dice.one_of(&MARKS),
                ),
                _ => (dice.next() as u8, dice.next() as u8),
            };
        }
    }

    /// Puts the next arrival after the others: a byte, 0 where nothing comes, and the bytes of a frame.
    pub fn put(&mut self, dice: &mut Dice, arrivals: &mut Vec<u8>) {
        self.change(dice);
        let from = arrivals.len();
        arrivals.resize(from + 1 + 2430 * self.n, 0);
        let (flag, frame) = arrivals[from..].split_at_mut(1);
        flag[0] = 1;
        match self.habit {
            Habit::Dark => flag[0] = 0,
            Habit::Noise => dice.fill(frame),
            Habit::NoiseInFrames => {
                dice.fill(frame);
                start(self.n, frame);
            }
            Habit::BadStart => {
                self.frame(dice, self.k, frame);
                let at = dice.below(6 * self.n as u64) as usize;
                frame[at] ^= 1 << dice.below(8);
            }
            Habit::Words | Habit::AnyBytes => self.frame(dice, self.k, frame),
            Habit::Idle => self.frame(dice, self.idle, frame),
            Habit::Flicker => {
                self.frame(dice, self.k, frame);
                flag[0] = dice.below(2) as u8;
            }
        }
    }
}

/// What is read of the frames that leave on one side, one after the other.
pub struct Reader {
    n: usize,
    last: Option<(u8, Vec<u8>)>,
}

impl Reader {
    pub fn new(n: usize) -> Reader {
        Reader { n, last: None }
    }

    /// The K bytes of the next frame, which is framed and has the parities of the one before.
    pub fn read(&mut self, frame: &[u8]) -> (u8, u8) {
        let n = self.n;
        let mut frame = frame.to_vec();
        assert!(frame[..3 * n].iter().all(|byte| *byte == 0xF6));
        assert!(frame[3 * n..6 * n].iter().all(|byte| *byte == 0x28));
        let b1 = bip8(&frame);
        scramble(n, &mut frame);
        if let Some((b1, b2)) = &self.last {
            assert!(frame[270 * n] == *b1, "B1");
            assert!(frame[1080 * n..1083 * n] == b2[..], "B2");
        }
        let mut b2 = vec![0; 3 * n];
        bip_section(n, &frame, &mut b2);
        self.last = Some((b1, b2));
        (frame[1083 * n], frame[1086 * n])
    }
}
