//! Whole rings between hostile neighbours: each side of each node hears frames of any bytes, or nothing. Each ring runs twice.

use crate::neighbour::{Dice, Neighbour, Reader, is_word};
use crate::ours::run_told;

// The most bytes that arrive in a ring.
const MOST: usize = 64 << 20;

// A ring: its number of nodes, its rate, how many rounds it runs, and the steps before them.
struct Trial {
    n: usize,
    nodes: usize,
    rounds: usize,
    plan: String,
}

// The steps before the settle step: commands, moments, conditions, held controllers, and slips, of which no port gets more than 15.
fn steps(dice: &mut Dice, n: usize, nodes: usize) -> String {
    let mut steps = String::new();
    let mut moment = 0;
    for _ in 0..dice.below(6) {
        let node = dice.below(nodes as u64);
        let side = dice.one_of(&["west", "east"]);
        let step = match dice.below(8) {
            0 => format!("forced {node} {side}"),
            1 => format!("manual {node} {side}"),
            2 => format!("cut {node} {side}"),
            3 => format!("degrade {node} {side} {}", 1 + dice.below(3 * n as u64)),
            4 => format!("clear {node} {side}"),
            5 => format!("hold {node} {}", 1 + dice.below(100)),
            6 => {
                let slot = 1 + dice.below(n as u64 / 2);
                let end = dice.one_of(&["a", "b"]);
                let turn = dice.one_of(&["up", "down"]);
                let count = 1 + dice.below(3);
                format!("slip l{slot}-{node} {end} {turn} {count}")
            }
            _ => {
                moment += dice.below(100);
                format!("moment {moment}")
            }
        };
        steps.push_str(&format!("\"{step}\", "));
    }
    steps
}

fn trial(dice: &mut Dice, left: u64) -> Trial {
    let n = dice.one_of(&[4, 16]);
    let nodes = dice.one_of(&[2, 3, 4, 5, 8, 16]);
    let fitting = MOST / (2 * nodes * (1 + 2430 * n));
    let rounds = (100 + dice.below(200)).min(left).min(fitting as u64) as usize;
    let ids: Vec<String> = (0..nodes).map(|id| id.to_string()).collect();
    let mut plan = format!(
        "rate = {n}\nnodes = [{}]\nthreshold = {}\n",
        ids.join(", "),
        1 + dice.below(3 * n as u64)
    );
    plan.push_str(&format!(
        "wait = {}\nlimit = {rounds}\nscript = [{}\"settle\"]\n",
        dice.below(50),
        steps(dice, n, nodes)
    ));
    for slot in 1..=n / 2 {
        for from in 0..nodes {
            let to = (from + 1) % nodes;
            plan.push_str(&format!(
                "[[circuit]]\nname = \"l{slot}-{from}\"\nfrom = {from}\nto = {to}\nslot = {slot}\n"
            ));
            plan.push_str(&format!(
                "offset_a = {}\noffset_b = {}\ntext_a = \"ALPHA\"\ntext_b = \"BETA!\"\n",
                dice.below(783),
                dice.below(783)
            ));
        }
    }
    Trial {
        n,
        nodes,
        rounds,
        plan,
    }
}

// The arrivals of all rounds but round 0, by round and position, west before east.
fn arrivals(dice: &mut Dice, trial: &Trial) -> Vec<u8> {
    let nodes = trial.nodes;
    let mut neighbours: Vec<Neighbour> = (0..2 * nodes)
        .map(|side| {
            let at = side / 2;
            let from = if side % 2 == 0 {
                (at + nodes - 1) % nodes
            } else {
                (at + 1) % nodes
            };
            Neighbour::new(trial.n, (at as u8, (from as u8) << 4))
        })
        .collect();
    let mut arrivals = Vec::new();
    for _ in 1..trial.rounds {
        for neighbour in &mut neighbours {
            neighbour.put(dice, &mut arrivals);
        }
    }
    arrivals
}

// Every frame sent is framed, has right parities, and says a word.
fn read_all(trial: &Trial, sent: &[u8]) -> u64 {
    let mut readers: Vec<Reader> = (0..2 * trial.nodes).map(|_| Reader::new(trial.n)).collect();
    let mut frames = 0;
    for (at, frame) in sent.chunks_exact(2430 * trial.n).enumerate() {
        let (k1, k2) = readers[at % (2 * trial.nodes)].read(frame);
        assert!(
            is_word(k1, k2),
            "{k1:02x} {k2:02x} in frame {at} of\n{}",
            trial.plan
        );
        frames += 1;
    }
    frames
}

/// So many rounds in all, in rings of 2 to 16 nodes at both rates.
pub fn try_all(rounds: u64, seed: u64) {
    let mut dice = Dice::new(seed);
    let (mut rings, mut left, mut frames, mut received) = (0, rounds, 0, 0);
    while left > 0 {
        let trial = trial(&mut dice, left);
        let arrivals = arrivals(&mut dice, &trial);
        let size = trial.rounds * 2 * trial.nodes * 2430 * trial.n;
        let first = run_told(&trial.plan, trial.n, &arrivals, size);
        let ran = first.sent.len() / (2 * trial.nodes * 2430 * trial.n);
        match first.status {
            0 => assert!(first.text.ends_with("done\n"), "{}", trial.plan),
            7 => assert!(
                first.text == "unsettled 1\n" && ran == trial.rounds,
                "{}",
                trial.plan
            ),
            status => panic!("status {status} of\n{}", trial.plan),
        }
        frames += read_all(&trial, &first.sent);
        let second = run_told(&trial.plan, trial.n, &arrivals, size);
        assert!(
            first == second,
            "two runs of the same arrivals differ:\n{}",
            trial.plan
        );
        rings += 1;
        left -= ran as u64;
        received += arrivals.len() / (1 + 2430 * trial.n);
    }
    println!(
        "{rings} rings ran {rounds} rounds twice, with {received} arrivals; {frames} frames were sent, each of them framed, with right parities and a word that decodes, and the same in both runs"
    );
}
