//! Whose bytes ports get, round by round, in rings of 2 to 8 nodes with as many circuits as find room, to which
//! anything happens in any round. The text of each port is one letter, so that what a port delivers is looked up by it.
//! The function is that of the static library `crates/sdh_bench_ring`.

use std::process::ExitCode;

unsafe extern "C" {
    fn sdh_bench_strangers(
        wait: u32,
        ids: *const i64,
        nodes: usize,
        wishes: *const u8,
        wishes_len: usize,
        letters: *const u8,
        letters_len: usize,
        events: *const u8,
        events_len: usize,
        out: *mut u8,
        out_len: usize,
    ) -> u32;
}

/// What is written of a port in a round, and of a round.
const PORT_SIZE: usize = 2354;
const PORTS: usize = 32;

/// A letter for each port, a before b; a circuit is named by that of its port a.
const LETTERS: &[u8] = b"aAbBcCdDeEfFgGhHiIjJkKlLmMnNoOpP";

/// A path's nine bytes of overhead stand so far apart among those of a payload.
const COLUMNS: usize = 261;

/// Numbers by chance, the same in each run.
struct Chance(u64);

impl Chance {
    fn below(&mut self, many: u64) -> u64 {
        self.0 ^= self.0 << 13;
        self.0 ^= self.0 >> 7;
        self.0 ^= self.0 << 17;
        (self.0 >> 11) % many
    }
}

/// What happens, four bytes each.
#[derive(Clone, Copy)]
enum Event {
    Round,
    /// The fibre that leaves a node on a side: 0 is clear, up to 12 degraded by so many bits, and 13 cut.
    Fibre(u8, u8, u8),
    /// 0 clears a side of a node, 1 forces it, 2 switches it by hand.
    Order(u8, u8, u8),
    /// Four slips more wait at a port, upwards where the last number is even.
    Slip(u8, u8, u8),
    Hold(u8, u8),
    Moment(u8),
}

impl Event {
    fn bytes(self) -> [u8; 4] {
        match self {
            Event::Round => [0, 0, 0, 0],
            Event::Fibre(at, side, condition) => [1, at, side, condition],
            Event::Order(at, side, command) => [2, at, side, command],
            Event::Slip(circuit, end, turn) => [3, circuit, end, turn],
            Event::Hold(at, turns) => [4, at, 0, turns],
            Event::Moment(later) => [5, 0, 0, later],
        }
    }
}

/// A ring of so many nodes, its circuits (from, to, slot), and what happens to it.
struct Episode {
    nodes: u8,
    wait: u32,
    circuits: Vec<[u8; 3]>,
    events: Vec<Event>,
}

/// What a port delivered in a round.
#[derive(Clone, Copy, PartialEq, Eq, Debug)]
enum Found {
    Ais,
    Ones,
    /// The bytes of the port of this number.
    Of(usize),
    Other,
}

/// A justification stands behind so many bytes of a payload, where H3 is: three bytes more or fewer, or three that are
/// nobody's where the chunk was taken in another form than it was put in.
const BEFORE_H3: usize = 783;
const AROUND_H3: usize = 6;

/// All bytes are this letter, but for a path's overhead.
fn is_all(part: &[u8], letter: u8) -> bool {
    let mut others = (0..part.len()).filter(|k| part[*k] != letter);
    let Some(first) = others.next() else {
        return true;
    };
    others.all(|k| k % COLUMNS == first % COLUMNS)
}

/// The letter of a chunk: it is one before H3 and behind it.
fn letter_of(chunk: &[u8]) -> Option<u8> {
    let letter = if chunk[0] == chunk[1] { chunk[0] } else { chunk[2] };
    let (front, rest) = (&chunk[..BEFORE_H3], &chunk[BEFORE_H3 + AROUND_H3..]);
    (is_all(front, letter) && is_all(rest, letter)).then_some(letter)
}

fn found(place: &[u8]) -> Found {
    let size = usize::from(u16::from_be_bytes([place[0], place[1]]));
    if size == 0 {
        return Found::Ais;
    }
    match letter_of(&place[2..2 + size]) {
        Some(255) => Found::Ones,
        Some(letter) => LETTERS.iter().position(|l| *l == letter).map_or(Found::Other, Found::Of),
        None => Found::Other,
    }
}

/// How many deliveries were what.
#[derive(Default)]
struct Counts {
    rounds: u64,
    own: u64,
    ais: u64,
    ones: u64,
    strangers: u64,
    /// Rounds in which some port met a stranger.
    met: u64,
}

impl Counts {
    /// The ports of one round, of so many circuits. A port's own customer is at the other end of its circuit.
    fn add(&mut self, circuits: usize, round: &[u8]) {
        let before = self.strangers;
        for port in 0..2 * circuits {
            match found(&round[port * PORT_SIZE..(port + 1) * PORT_SIZE]) {
                Found::Ais => self.ais += 1,
                Found::Ones => self.ones += 1,
                Found::Of(owner) if owner == port ^ 1 => self.own += 1,
                Found::Of(_) | Found::Other => self.strangers += 1,
            }
        }
        self.rounds += 1;
        self.met += u64::from(self.strangers > before);
    }
}

/// Runs an episode and counts.
fn run(episode: &Episode, counts: &mut Counts) {
    let ids: Vec<i64> = (0..i64::from(episode.nodes)).collect();
    let wishes: Vec<u8> = episode.circuits.concat();
    let events: Vec<u8> = episode.events.iter().flat_map(|event| event.bytes()).collect();
    let rounds = episode.events.iter().filter(|event| matches!(event, Event::Round)).count();
    let mut out = vec![0u8; rounds * PORTS * PORT_SIZE];
    // SAFETY: pointers and lengths are of one slice each, and the library's function asks nothing else.
    let ran = unsafe {
        sdh_bench_strangers(
            episode.wait,
            ids.as_ptr(),
            ids.len(),
            wishes.as_ptr(),
            wishes.len(),
            LETTERS.as_ptr(),
            LETTERS.len(),
            events.as_ptr(),
            events.len(),
            out.as_mut_ptr(),
            out.len(),
        )
    };
    assert_eq!(ran as usize, rounds, "no such ring, or no memory");
    for round in out.chunks_exact(PORTS * PORT_SIZE) {
        counts.add(episode.circuits.len(), round);
    }
}

/// In each of two slots arcs that lead round the whole ring one behind the other, from some nodes to the next of them;
/// one in eight is left out.
fn circuits(chance: &mut Chance, nodes: u8) -> Vec<[u8; 3]> {
    let mut circuits = Vec::new();
    for slot in 1..=2 {
        let ends: Vec<u8> = loop {
            let ends: Vec<u8> = (0..nodes).filter(|_| chance.below(3) != 0).collect();
            if ends.len() >= 2 {
                break ends;
            }
        };
        for (i, from) in ends.iter().enumerate() {
            if chance.below(8) != 0 {
                circuits.push([*from, ends[(i + 1) % ends.len()], slot]);
            }
        }
    }
    circuits
}

/// Anything but a held controller.
fn event(chance: &mut Chance, nodes: u8, circuits: usize) -> Event {
    let at = chance.below(u64::from(nodes)) as u8;
    let side = chance.below(2) as u8;
    match chance.below(10) {
        0..=3 => Event::Fibre(at, side, 13),
        4 | 5 => Event::Fibre(at, side, 0),
        6 => Event::Fibre(at, side, 1 + chance.below(12) as u8),
        7 => Event::Order(at, side, chance.below(3) as u8),
        8 => Event::Moment(1 + chance.below(3) as u8),
        _ => Event::Slip(chance.below(circuits.max(1) as u64) as u8, side, chance.below(2) as u8),
    }
}

/// Some hundred rounds, between any of which things may happen; now and then all fibres are mended.
fn episode(chance: &mut Chance) -> Episode {
    let nodes = 2 + chance.below(7) as u8;
    let circuits = circuits(chance, nodes);
    let mut events = Vec::new();
    for _ in 0..100 {
        if chance.below(24) == 0 {
            events.extend((0..2 * nodes).map(|fibre| Event::Fibre(fibre / 2, fibre % 2, 0)));
        }
        while chance.below(6) == 0 {
            events.push(event(chance, nodes, circuits.len()));
        }
        events.push(Event::Round);
    }
    Episode { nodes, wait: 2, circuits, events }
}

/// Both fibres of a span.
fn span(events: &mut Vec<Event>, span: u8, condition: u8) {
    events.push(Event::Fibre(span, 1, condition));
    events.push(Event::Fibre((span + 1) % 4, 0, condition));
}

/// The worked run of docs/STRANGERS.md: node 3 is held while it passes through. Two circuits meet in the last hundred
/// rounds.
fn held() -> Episode {
    let mut events = Vec::new();
    let rounds = |events: &mut Vec<Event>, many: usize| events.extend([Event::Round].repeat(many));
    span(&mut events, 0, 13);
    rounds(&mut events, 128);
    events.push(Event::Hold(2, 8));
    span(&mut events, 0, 0);
    span(&mut events, 1, 13);
    rounds(&mut events, 8);
    events.push(Event::Hold(3, 100));
    span(&mut events, 1, 0);
    rounds(&mut events, 12);
    span(&mut events, 0, 13);
    span(&mut events, 1, 13);
    rounds(&mut events, 100);
    Episode { nodes: 4, wait: 0, circuits: vec![[0, 1, 1], [1, 2, 1]], events }
}

fn main() -> ExitCode {
    let rounds: u64 = std::env::args().nth(1).and_then(|text| text.parse().ok()).unwrap_or(10_000);
    let mut chance = Chance(0x9E37_79B9_7F4A_7C15);
    let mut counts = Counts::default();
    let mut rings = 0;
    while counts.rounds < rounds {
        run(&episode(&mut chance), &mut counts);
        rings += 1;
    }
    println!(
        "{rings} rings, {} rounds: own {}, ais {}, ones {}, strangers {}",
        counts.rounds, counts.own, counts.ais, counts.ones, counts.strangers
    );
    let mut met = Counts::default();
    run(&held(), &mut met);
    println!("held: {} rounds, strangers in {} of them", met.rounds, met.met);
    // Node 3 has 88 turns left to miss when both spans are cut, and the ports meet from the second round after that on.
    if counts.strangers == 0 && counts.own > 0 && met.met == 87 { ExitCode::SUCCESS } else { ExitCode::FAILURE }
}
