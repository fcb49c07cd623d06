//! A pointer interpreter and a generator (ITU-T G.707 clause 8.1).

#[derive(Clone, Copy, PartialEq, Eq)]
enum Mode {
    Norm,
    Ais,
    Lop,
}

enum Event {
    Ais,
    Bad,
    Ndf(u16),
    Same,
    Up,
    Down,
    New(u16),
}

#[derive(Clone, Copy, PartialEq, Eq)]
enum Action {
    Normal,
    New,
    Up,
    Down,
    Ais,
}

#[derive(Clone, Copy, PartialEq, Eq)]
struct Reading {
    mode: Mode,
    value: u16,
    ais: u8,
    bad: u8,
    candidate: u16,
    news: u8,
    since: u8,
}

struct Interpreter {
    reading: Reading,
    moved: bool,
}

struct Generator {
    sending: Option<u16>,
    word: u16,
    moved: bool,
}

fn one_up(value: u16) -> u16 {
    if value < 782 { value + 1 } else { 0 }
}

fn one_down(value: u16) -> u16 {
    if value > 0 { value - 1 } else { 782 }
}

impl Reading {
    fn settled(mode: Mode, value: u16, since: u8) -> Reading {
        Reading {
            mode,
            value,
            ais: 0,
            bad: 0,
            candidate: 0,
            news: 0,
            since,
        }
    }

    fn normal_event(&self, value: u16) -> Event {
        if self.mode == Mode::Norm {
            if value == self.value {
                return Event::Same;
            }
            let changed = value ^ self.value;
            let (i, d) = (
                (changed & 0x2AA).count_ones(),
                (changed & 0x155).count_ones(),
            );
            if self.since >= 3 && i >= 3 && d <= 2 {
                return Event::Up;
            }
            if self.since >= 3 && d >= 3 && i <= 2 {
                return Event::Down;
            }
        }
        if value <= 782 {
            Event::New(value)
        } else {
            Event::Bad
        }
    }

    fn event(&self, word: u16) -> Event {
        let (flag, value) = (word >> 12, word % 1024);
        if word == 0xFFFF {
            Event::Ais
        } else if (flag ^ 0b1001).count_ones() <= 1 {
            if value <= 782 {
                Event::Ndf(value)
            } else {
                Event::Bad
            }
        } else if (flag ^ 0b0110).count_ones() <= 1 {
            self.normal_event(value)
        } else {
            Event::Bad
        }
    }

    fn after_new(&self, value: u16, since: u8, waiting: Action) -> (Reading, Action) {
        let news = if self.news > 0 && self.candidate == value {
            self.news + 1
        } else {
            1
        };
        if news >= 3 {
            (Reading::settled(Mode::Norm, value, since), Action::New)
        } else {
            (
                Reading {
                    candidate: value,
                    news,
                    ..Reading::settled(self.mode, self.value, since)
                },
                waiting,
            )
        }
    }

    fn after(&self, event: Event) -> (Reading, Action) {
        let since = if self.mode == Mode::Norm {
            (self.since + 1).min(3)
        } else {
            0
        };
        let same = Reading::settled(self.mode, self.value, since);
        let waiting = if self.mode == Mode::Norm {
            Action::Normal
        } else {
            Action::Ais
        };
        match (self.mode, event) {
            (Mode::Norm, Event::Same) => (same, Action::Normal),
            (Mode::Norm, Event::Up) => (
                Reading::settled(Mode::Norm, one_up(self.value), 0),
                Action::Up,
            ),
            (Mode::Norm, Event::Down) => (
                Reading::settled(Mode::Norm, one_down(self.value), 0),
                Action::Down,
            ),
            (_, Event::Same | Event::Up | Event::Down) => (*self, Action::Ais),
            (Mode::Lop, Event::Ndf(_) | Event::Bad) => (same, Action::Ais),
            (_, Event::Ndf(value)) => (Reading::settled(Mode::Norm, value, 0), Action::New),
            (_, Event::New(value)) => self.after_new(value, since, waiting),
            (Mode::Ais, Event::Ais) => (same, Action::Ais),
            (_, Event::Ais) if self.ais >= 2 => {
                (Reading::settled(Mode::Ais, self.value, 0), Action::Ais)
            }
            (_, Event::Ais) => (
                Reading {
                    ais: self.ais + 1,
                    ..same
                },
                waiting,
            ),
            (_, Event::Bad) if self.bad >= 7 => {
                (Reading::settled(Mode::Lop, self.value, 0), Action::Ais)
            }
            (_, Event::Bad) => (
                Reading {
                    bad: self.bad + 1,
                    ..same
                },
                waiting,
            ),
        }
    }
}

impl Interpreter {
    fn step(&mut self, word: u16) -> Action {
        let (next, action) = self.reading.after(self.reading.event(word));
        self.moved = next != self.reading;
        self.reading = next;
        action
    }
}

impl Generator {
    fn step(&mut self, action: Action, value: u16) {
        self.word = match (self.sending, action) {
            (_, Action::Ais) => 0xFFFF,
            (Some(kept), Action::Normal) if value == kept => 0x6800 + value,
            (Some(kept), Action::Up) if value == one_up(kept) => 0x6800 + (kept ^ 0x2AA),
            (Some(kept), Action::Down) if value == one_down(kept) => 0x6800 + (kept ^ 0x155),
            _ => 0x9800 + value,
        };
        let next = if action == Action::Ais {
            None
        } else {
            Some(value)
        };
        self.moved = next != self.sending;
        self.sending = next;
    }
}

#[inline(never)]
pub fn pointers(words: &[u16], out: &mut [u16]) {
    let mut interpreter = Interpreter {
        reading: Reading::settled(Mode::Ais, 0, 0),
        moved: false,
    };
    let mut generator = Generator {
        sending: None,
        word: 0xFFFF,
        moved: false,
    };
    for (word, sent) in words.iter().zip(out) {
        let action = interpreter.step(*word);
        generator.step(action, interpreter.reading.value);
        *sent = generator.word;
    }
    std::hint::black_box((interpreter.moved, generator.moved));
}
