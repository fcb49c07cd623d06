//! Looks by hill climbing for plans whose held controllers let a customer's port take another customer's bytes.
//!
//! Rings of K words alone are run, with the last three words of each side, local requests and held controllers, but
//! without frames: on each fibre lies what its protection AU-4s hold, told by the node that put it there and the far end
//! that this node had (for all slots and all maps of circuits at once). What a node p that is switched to the east with
//! far end F puts on protection is of circuits over all spans from p to F; what a node V that is switched to the west
//! with far end G takes from there, it takes for circuits over all spans from G to V. The two may be of different
//! customers exactly where these spans have none in common. Pointers are left out: whether frames come through in time
//! is seen by running the plan that is found (`bench/strangers climb` does).
//!
//! A climb begins with a plan by chance and keeps each change that scores no less. The score is how far content has come
//! that passed a held node, more where the word beside it would have it taken wrongly by the next node, and most where
//! a node takes it.

use std::env;
use std::process::ExitCode;
use std::time::{Duration, Instant};

/// Codes of requests.
const SF: u8 = 11;
const SD: u8 = 8;
const WTR: u8 = 5;
const RR: u8 = 1;

/// Sides: 0 is west, 1 is east.
type Side = usize;

/// A degradation of the least number of violations that counts, by the threshold of the plans that are written.
const THRESHOLD: u8 = 1;
/// No side waits to restore before a plan ends: the moment is never told.
const WAIT: u32 = 500;

/// Nodes of a ring at most.
const MOST: usize = 16;

/// Rounds that are run after changes at most; a ring that isn't calm by then is given up.
const ROUNDS: usize = 400;

struct Chance(u64);

impl Chance {
    fn below(&mut self, many: usize) -> usize {
        self.0 ^= self.0 << 13;
        self.0 ^= self.0 >> 7;
        self.0 ^= self.0 << 17;
        ((self.0 >> 11) % many as u64) as usize
    }
}

/// A K word without its mark, which nobody compares.
#[derive(Clone, Copy, PartialEq, Eq, Debug)]
struct Word {
    code: u8,
    to: usize,
    from: usize,
    long: bool,
}

#[derive(Clone, Copy, PartialEq, Eq, Debug)]
enum State {
    Idle,
    Pass,
    /// This side is switched, with its far end.
    Switched(Side, Option<usize>),
    Isolated,
}

/// What a protection AU-4 holds: put there by this node with this far end; over how many spans it has come since, and
/// whether a held node passed it on.
#[derive(Clone, Copy, PartialEq, Eq, Debug)]
struct Content {
    by: usize,
    far: usize,
    way: i64,
    passed_held: bool,
}

/// What lies on a fibre.
#[derive(Clone, Copy, PartialEq, Eq, Debug)]
struct Sent {
    word: Word,
    protection: Option<Content>,
}

#[derive(Clone, Copy, PartialEq, Eq, Debug)]
enum Condition {
    Clear,
    Degraded,
    Cut,
}

#[derive(Clone, Copy, PartialEq, Eq, Debug)]
enum Step {
    Fibre(usize, Side, Condition),
    /// The command's code, or 0 to clear.
    Order(usize, Side, u8),
}

/// What is done before the first settle step and before the second one, where controllers are held as well.
#[derive(Clone, Debug)]
struct Plan {
    nodes: usize,
    first: Vec<Step>,
    second: Vec<Step>,
    holds: Vec<(usize, u32)>,
}

#[derive(Clone)]
struct Node {
    brought: [[Option<Word>; 3]; 2],
    command: [u8; 2],
    defect: [u8; 2],
    waits: [bool; 2],
    held: u32,
    state: State,
    words: [Word; 2],
}

#[derive(Clone)]
struct Ring {
    n: usize,
    nodes: Vec<Node>,
    conditions: [[Condition; 2]; MOST],
    before: [[Condition; 2]; MOST],
    fibres: [[Option<Sent>; 2]; MOST],
    round: usize,
}

/// A stranger that may be taken: by node V with far end G, what p put in with far end F, in a round after the changes.
#[derive(Clone, Copy, Debug)]
struct Taken {
    node: usize,
    far: usize,
    content: Content,
    switched: Side,
    round: usize,
}

/// The spans from a node eastwards to another, as bits.
fn spans(n: usize, from: usize, to: usize) -> u32 {
    (0..(to + n - from) % n).fold(0, |all, i| all | 1 << ((from + i) % n))
}

/// Whether what `content` came from, moving away from side `e` of its sender, may be another's than what a node that is
/// switched on the other side takes it for.
fn is_strange(n: usize, e: Side, content: Content, node: usize, far: usize) -> bool {
    let (own, other) = if e == 1 {
        (spans(n, content.by, content.far), spans(n, far, node))
    } else {
        (spans(n, content.far, content.by), spans(n, node, far))
    };
    own & other == 0
}

fn heard(brought: &[Option<Word>; 3]) -> Option<Word> {
    if brought[0] == brought[1] && brought[1] == brought[2] { brought[2] } else { None }
}

impl Ring {
    fn new(n: usize) -> Ring {
        let nodes = (0..n)
            .map(|p| Node {
                brought: [[None; 3]; 2],
                command: [0; 2],
                defect: [0; 2],
                waits: [false; 2],
                held: 0,
                state: State::Idle,
                words: [nothing(n, p, 0), nothing(n, p, 1)],
            })
            .collect();
        Ring {
            n,
            nodes,
            conditions: [[Condition::Clear; 2]; MOST],
            before: [[Condition::Clear; 2]; MOST],
            fibres: [[None; 2]; MOST],
            round: 0,
        }
    }

    fn apply(&mut self, step: Step) {
        match step {
            Step::Fibre(p, d, condition) => self.conditions[p][d] = condition,
            Step::Order(p, d, code) => self.nodes[p].command[d] = code,
        }
    }

    /// The node that a fibre into a side leaves, and on which side.
    fn sender(&self, p: usize, d: Side) -> (usize, Side) {
        (neighbour(self.n, p, d), 1 - d)
    }

    /// Defects and words of a node; which of its sides fail, and what each asks for.
    fn receive(&mut self, p: usize, arrived: &[[Option<Sent>; 2]]) -> ([bool; 2], [u8; 2]) {
        let mut fails = [false; 2];
        let mut local = [0; 2];
        for d in 0..2 {
            let (q, e) = self.sender(p, d);
            let (now, then) = (self.conditions[q][e], self.before[q][e]);
            fails[d] = self.round >= 1 && now == Condition::Cut;
            let degraded = self.round >= 2 && now != Condition::Cut && then == Condition::Degraded;
            let sent = arrived[q][e];
            let node = &mut self.nodes[p];
            let defect = if fails[d] { SF } else if degraded { SD } else { 0 };
            if node.defect[d] > 0 && defect == 0 {
                node.waits[d] = true;
            }
            node.defect[d] = defect;
            local[d] = node.command[d].max(defect).max(if node.waits[d] && defect == 0 { WTR } else { 0 });
            let word = if fails[d] { None } else { sent.map(|s| s.word) };
            node.brought[d] = [node.brought[d][1], node.brought[d][2], word];
        }
        (fails, local)
    }

    /// One round; whether it was calm, and what was taken wrongly. The score of content under way is raised.
    fn run(&mut self, score: &mut i64, taken: &mut Option<Taken>) -> bool {
        let mut calm = self.round > 0;
        let arrived = self.fibres;
        for p in 0..self.n {
            let (fails, local) = self.receive(p, &arrived);
            let mut holds = false;
            if self.nodes[p].held > 0 {
                self.nodes[p].held -= 1;
                holds = true;
                calm = false;
            } else {
                let node = &self.nodes[p];
                let words = [heard(&node.brought[0]), heard(&node.brought[1])];
                let (state, sent) = step(self.n, p, local, words);
                let node = &mut self.nodes[p];
                calm &= node.state == state && node.words == sent;
                node.state = state;
                node.words = sent;
            }
            self.send(p, fails, holds, &arrived, score, taken);
        }
        self.before = self.conditions;
        self.round += 1;
        calm
    }

    /// What a node sends, and takes, in a round.
    fn send(
        &mut self,
        p: usize,
        fails: [bool; 2],
        holds: bool,
        arrived: &[[Option<Sent>; 2]],
        score: &mut i64,
        taken: &mut Option<Taken>,
    ) {
        let n = self.n;
        let node = &self.nodes[p];
        let came = |d: Side| {
            let q = neighbour(n, p, d);
            if fails[d] { None } else { arrived[q][1 - d].and_then(|s| s.protection) }
        };
        if let State::Switched(d, Some(far)) = node.state {
            // what moves towards side d came in on the other side, from a node that was switched on 1 - d's far side
            if let Some(content) = came(1 - d) {
                if is_strange(n, 1 - d, content, p, far) && taken.is_none() {
                    *taken = Some(Taken { node: p, far, content, switched: d, round: self.round });
                }
            }
        }
        for d in 0..2 {
            let e = 1 - d;
            let protection = match node.state {
                State::Pass => came(e).map(|content| Content {
                    way: content.way + 1,
                    passed_held: content.passed_held || holds,
                    ..content
                }),
                State::Switched(side, Some(far)) if side == e => Some(Content { by: p, far, way: 1, passed_held: false }),
                _ => None,
            };
            if let Some(content) = protection.filter(|content| content.passed_held) {
                let next = neighbour(n, p, d);
                let word = node.words[d];
                let is_near = word.long && word.code >= WTR && word.from != next && is_strange(n, e, content, next, word.from);
                *score = (*score).max(content.way + if is_near { 40 } else { 0 });
            }
            self.fibres[p][d] = Some(Sent { word: node.words[d], protection });
        }
    }

    /// Runs until as many calm rounds as a quiet window has.
    fn settle(&mut self, score: &mut i64, taken: &mut Option<Taken>) -> bool {
        let mut calm = 0;
        for _ in 0..ROUNDS {
            calm = if self.run(score, taken) { calm + 1 } else { 0 };
            if calm >= 3 * self.n {
                return true;
            }
        }
        false
    }
}

fn neighbour(n: usize, p: usize, d: Side) -> usize {
    if d == 1 { (p + 1) % n } else { (p + n - 1) % n }
}

fn nothing(n: usize, p: usize, d: Side) -> Word {
    Word { code: 0, to: neighbour(n, p, d), from: p, long: false }
}

/// The state and the words of a node, of what its sides ask for and hear.
fn step(n: usize, p: usize, local: [u8; 2], words: [Option<Word>; 2]) -> (State, [Word; 2]) {
    let next = [neighbour(n, p, 0), neighbour(n, p, 1)];
    let short = |d: Side| match words[d] {
        Some(w) if !w.long && w.to == p && w.from == next[d] && w.code >= WTR => w.code,
        _ => 0,
    };
    let shorts = [short(0), short(1)];
    let long = words.map(|word| word.filter(|w| w.long && w.code >= WTR));
    let weight = [local[0].max(shorts[0]), local[1].max(shorts[1])];
    let mut sent = [nothing(n, p, 0), nothing(n, p, 1)];
    let mut relayed = [false; 2];
    for d in 0..2 {
        let e = 1 - d;
        let own_short = Word {
            code: if local[d] >= shorts[d] { local[d] } else { RR },
            to: next[d],
            from: p,
            long: false,
        };
        let own_long = Word { code: weight[e], to: next[e], from: p, long: true };
        let relay = long[e].filter(|w| w.to != p && w.from != p);
        let passes = relay.map_or(0, |w| w.code);
        if weight[d] >= SF {
            sent[d] = own_short;
        } else if weight[e] >= SF {
            sent[d] = own_long;
        } else if weight[d] > 0 && weight[d] >= weight[e] && weight[d] >= passes {
            sent[d] = own_short;
        } else if weight[e] > 0 && weight[e] >= passes {
            sent[d] = own_long;
        } else if let Some(word) = relay {
            sent[d] = word;
            relayed[d] = true;
        }
    }
    let about = |d: Side| long[1 - d].is_some_and(|w| w.to == p && w.from == next[d]);
    let switches = |d: Side| {
        let mine = weight[d];
        if mine >= SF {
            return true;
        }
        if !(WTR..=SD).contains(&mine) || weight[1 - d] >= mine {
            return false;
        }
        let below = |word: Option<Word>| word.is_none_or(|w| w.code < mine);
        below(long[d]) && (about(d) || below(long[1 - d]))
    };
    let state = match (switches(0), switches(1)) {
        (true, true) => State::Isolated,
        (false, false) if relayed[0] && relayed[1] => State::Pass,
        (false, false) => State::Idle,
        (west, _) => {
            let d = if west { 0 } else { 1 };
            State::Switched(d, long[1 - d].map(|w| w.from).filter(|far| *far != p))
        }
    };
    (state, sent)
}

/// Which plans are looked at.
#[derive(Clone, Copy, PartialEq, Eq)]
enum Which {
    All,
    Others,
    Passing,
    One,
    Equal,
    Short,
    Near,
}

impl Which {
    fn of(word: &str) -> Option<Which> {
        Some(match word {
            "all" => Which::All,
            "others" => Which::Others,
            "passing" => Which::Passing,
            "one" => Which::One,
            "equal" => Which::Equal,
            "short" => Which::Short,
            "near" => Which::Near,
            _ => return None,
        })
    }

    /// Makes the holds of a plan such as are looked at, by the states of the quiet ring.
    fn fit(self, holds: &mut Vec<(usize, u32)>, nodes: &[Node]) {
        let passes = |p: usize| nodes[p].state == State::Pass;
        match self {
            Which::All => {}
            Which::Others => holds.retain(|(p, _)| !passes(*p)),
            Which::Passing => holds.retain(|(p, _)| passes(*p)),
            Which::One => holds.truncate(1),
            Which::Equal => {
                let turns = holds.first().map_or(0, |(_, turns)| *turns);
                holds.iter_mut().for_each(|hold| hold.1 = turns);
            }
            Which::Short => holds.iter_mut().for_each(|hold| hold.1 = hold.1.min(5)),
            Which::Near => {
                let least = holds.iter().map(|(_, turns)| *turns).min().unwrap_or(0);
                holds.iter_mut().filter(|(p, _)| passes(*p)).for_each(|hold| hold.1 = hold.1.min(least + 2));
            }
        }
    }
}

/// The ring of a plan as its first settle step leaves it; none where that isn't calm soon.
fn quiet(plan: &Plan) -> Option<Ring> {
    let mut ring = Ring::new(plan.nodes);
    let (mut none, mut early) = (0, None);
    plan.first.iter().for_each(|step| ring.apply(*step));
    ring.settle(&mut none, &mut early).then_some(ring)
}

/// The score of a plan from its quiet ring on, and what a node took wrongly.
fn tried(plan: &mut Plan, which: Which, quiet: &Option<Ring>) -> (i64, Option<Taken>) {
    let Some(mut ring) = quiet.clone() else {
        return (-1, None);
    };
    plan.second.iter().for_each(|step| ring.apply(*step));
    which.fit(&mut plan.holds, &ring.nodes);
    for (p, turns) in &plan.holds {
        ring.nodes[*p].held = *turns;
    }
    let begun = ring.round;
    let (mut score, mut taken) = (0, None);
    ring.settle(&mut score, &mut taken);
    if let Some(taken) = &mut taken {
        taken.round -= begun;
        score += 1000;
    }
    (score, taken)
}

fn step_by_chance(chance: &mut Chance, nodes: usize, mends: bool) -> Step {
    let (p, d) = (chance.below(nodes), chance.below(2));
    match chance.below(if mends { 7 } else { 5 }) {
        0 | 1 => Step::Fibre(p, d, Condition::Cut),
        2 => Step::Fibre(p, d, Condition::Degraded),
        3 => Step::Order(p, d, 13),
        4 => Step::Order(p, d, 6),
        5 => Step::Fibre(p, d, Condition::Clear),
        _ => Step::Order(p, d, 0),
    }
}

fn change(chance: &mut Chance, plan: &mut Plan) {
    let nodes = plan.nodes;
    let turns = |chance: &mut Chance| 1 + chance.below(2 * nodes.max(6)) as u32;
    match chance.below(8) {
        0 if plan.first.len() < 5 => plan.first.push(step_by_chance(chance, nodes, false)),
        1 if plan.second.len() < 5 => plan.second.push(step_by_chance(chance, nodes, true)),
        2 if plan.holds.len() < nodes => {
            let p = chance.below(nodes);
            if plan.holds.iter().all(|(q, _)| *q != p) {
                let turns = turns(chance);
                plan.holds.push((p, turns));
            }
        }
        3 if plan.first.len() > 1 => {
            let i = chance.below(plan.first.len());
            plan.first.remove(i);
        }
        4 if plan.second.len() > 1 => {
            let i = chance.below(plan.second.len());
            plan.second.remove(i);
        }
        5 if !plan.holds.is_empty() => {
            let i = chance.below(plan.holds.len());
            plan.holds[i].1 = turns(chance);
        }
        6 if !plan.second.is_empty() => {
            let i = chance.below(plan.second.len());
            plan.second[i] = step_by_chance(chance, nodes, true);
        }
        _ if plan.holds.len() > 1 => {
            let i = chance.below(plan.holds.len());
            plan.holds.remove(i);
        }
        _ => {}
    }
}

fn begun(chance: &mut Chance, nodes: usize) -> Plan {
    let mut plan = Plan { nodes, first: vec![], second: vec![], holds: vec![] };
    for _ in 0..1 + chance.below(3) {
        plan.first.push(step_by_chance(chance, nodes, false));
    }
    for _ in 0..1 + chance.below(3) {
        plan.second.push(step_by_chance(chance, nodes, true));
    }
    for _ in 0..1 + chance.below(3) {
        let p = chance.below(nodes);
        if plan.holds.iter().all(|(q, _)| *q != p) {
            plan.holds.push((p, 1 + chance.below(12) as u32));
        }
    }
    plan
}

/// The plan as a document, with a circuit that is put on protection and one that takes it.
fn document(plan: &Plan, taken: &Taken) -> String {
    let side = |d: Side| if d == 1 { "east" } else { "west" };
    let word = |step: &Step| match step {
        Step::Fibre(p, d, Condition::Cut) => format!("cut {p} {}", side(*d)),
        Step::Fibre(p, d, Condition::Degraded) => format!("degrade {p} {} 12", side(*d)),
        Step::Fibre(p, d, Condition::Clear) => format!("mend {p} {}", side(*d)),
        Step::Order(p, d, 13) => format!("forced {p} {}", side(*d)),
        Step::Order(p, d, 6) => format!("manual {p} {}", side(*d)),
        Step::Order(p, d, _) => format!("clear {p} {}", side(*d)),
    };
    let mut script: Vec<String> = plan.first.iter().map(word).collect();
    script.push("settle".into());
    script.extend(plan.second.iter().map(word));
    script.extend(plan.holds.iter().map(|(p, turns)| format!("hold {p} {turns}")));
    script.push("settle".into());
    let list = script.iter().map(|step| format!("\"{step}\"")).collect::<Vec<_>>().join(", ");
    let ids = (0..plan.nodes).map(|p| p.to_string()).collect::<Vec<_>>().join(", ");
    // what is switched to the west takes what moves west, put in by a node that is switched to the east
    let (put, took) = if taken.switched == 0 {
        ((taken.content.by, taken.content.far), (taken.far, taken.node))
    } else {
        ((taken.content.far, taken.content.by), (taken.node, taken.far))
    };
    let circuit = |name: &str, (from, to): (usize, usize)| {
        format!("[[circuit]]\nname = \"{name}\"\nfrom = {from}\nto = {to}\nslot = 1\ntext_a = \"{name}-a says this. \"\ntext_b = \"{name}-b has another text; \"\n")
    };
    format!(
        "rate = 4\nnodes = [{ids}]\nthreshold = {THRESHOLD}\nwait = {WAIT}\nlimit = 2048\nscript = [{list}]\n{}{}",
        circuit("put", put),
        circuit("took", took)
    )
}

fn main() -> ExitCode {
    let words: Vec<String> = env::args().skip(1).collect();
    let parsed = match &words[..] {
        [nodes, seconds, which] => nodes
            .parse::<usize>()
            .ok()
            .filter(|n| (2..=16).contains(n))
            .zip(seconds.parse::<u64>().ok())
            .zip(Which::of(which)),
        _ => None,
    };
    let Some(((nodes, seconds), which)) = parsed else {
        eprintln!("usage: climb NODES SECONDS all|others|passing|one|equal|short|near");
        return ExitCode::from(2);
    };
    let mut chance = Chance(0x9E37_79B9_7F4A_7C15 ^ (nodes as u64) << 32);
    let end = Instant::now() + Duration::from_secs(seconds);
    let (mut climbs, mut runs, mut found, mut best) = (0u64, 0u64, 0u64, 0i64);
    let mut least: Option<(usize, Plan, Taken)> = None;
    while Instant::now() < end {
        climbs += 1;
        let mut plan = begun(&mut chance, nodes);
        let mut ring = quiet(&plan);
        let (mut score, mut taken) = tried(&mut plan, which, &ring);
        let mut stale = 0;
        while taken.is_none() && stale < 1500 && Instant::now() < end {
            let mut other = plan.clone();
            for _ in 0..1 + chance.below(3) {
                change(&mut chance, &mut other);
            }
            runs += 1;
            let its_ring = if other.first == plan.first { None } else { Some(quiet(&other)) };
            let (its, took) = tried(&mut other, which, its_ring.as_ref().unwrap_or(&ring));
            stale = if its > score { 0 } else { stale + 1 };
            if its >= score {
                (plan, score, taken) = (other, its, took);
                if let Some(its_ring) = its_ring {
                    ring = its_ring;
                }
            }
        }
        best = best.max(score);
        if let Some(taken) = taken {
            found += 1;
            let size = plan.first.len() + plan.second.len() + 2 * plan.holds.len();
            if least.as_ref().is_none_or(|(had, _, _)| size < *had) {
                least = Some((size, plan, taken));
            }
        }
    }
    eprintln!("{nodes} nodes: {climbs} climbs, {runs} runs, {found} with strangers, best score {best}");
    match least {
        Some((_, plan, taken)) => {
            eprintln!("{taken:?}");
            print!("{}", document(&plan, &taken));
            ExitCode::SUCCESS
        }
        None => ExitCode::from(1),
    }
}
