//! Each place at which something can fail, one after the other.

use crate::ours::{Came, Command, KINDS, Kind, NOT_CALLED, Trial, call, sound};

// The smallest ordinary run, which is the program's stored run.
const SMALLEST: &str = include_str!("../../crates/sdhring/stdin");
const SMALLEST_TEXT: &str = include_str!("../../crates/sdhring/stdout");

const PIECES: [usize; 3] = [1, 7, 4096];

// Sixteen nodes at STM-16 with a circuit in each slot of each span: 128 circuits.
fn largest() -> String {
    let mut plan =
        String::from("rate = 16\nnodes = [0, 1, 2, 3, 4, 5, 6, 7, 8, 9, 10, 11, 12, 13, 14, 15]\n");
    plan.push_str("threshold = 3\nwait = 10\nlimit = 1000\nscript = [\"settle\"]\n");
    for slot in 1..=8 {
        for from in 0..16 {
            let to = (from + 1) % 16;
            plan.push_str(&format!(
                "[[circuit]]\nname = \"l{slot}-{from}\"\nfrom = {from}\nto = {to}\nslot = {slot}\n"
            ));
            plan.push_str("text_a = \"ALPHA\"\ntext_b = \"BETA!\"\n");
        }
    }
    plan
}

// What it writes: all nodes are idle, and each port delivers the other's text, which has five bytes.
fn largest_text() -> String {
    let mut text = String::from("settle 1 round 128\n");
    for node in 0..16 {
        let (west, east) = ((node + 15) % 16, (node + 1) % 16);
        text.push_str(&format!(
            "node {node} idle west 0{west:x} {node:x}0 east 0{east:x} {node:x}0\n"
        ));
    }
    for slot in 1..=8 {
        for from in 0..16 {
            text.push_str(&format!(
                "port l{slot}-{from} a norm 0 00424554412142455441214245544121\n"
            ));
            text.push_str(&format!(
                "port l{slot}-{from} b norm 0 00414c504841414c504841414c504841\n"
            ));
        }
    }
    text.push_str("done\n");
    text
}

fn is(came: &Came, status: u8, text: &str) -> bool {
    came.status == status && came.text == text
}

fn has_left_the_plant(came: &Came) -> bool {
    came.calls == [0; 4]
}

// No round has run.
fn has_run_nothing(came: &Came) -> bool {
    came.calls[Kind::Send as usize] == 0 && came.calls[Kind::Receive as usize] == 0
}

// Each allocation is refused: nothing is written and no round runs, or all is as with memory.
fn refuse_each_allocation(name: &str, command: Command, document: &str, status: u8, text: &str) {
    let whole = call(sound(command, document));
    assert!(is(&whole, status, text), "{name}: {whole:?}");
    let (mut refused, mut done, mut before) = (0, 0, 0);
    for allocation in 1..=whole.allocations {
        let came = call(Trial {
            allocation,
            ..sound(command, document)
        });
        match came.status {
            NOT_CALLED => before += 1,
            70 => {
                assert!(
                    came.text.is_empty() && has_run_nothing(&came),
                    "{name}, allocation {allocation}: {came:?}"
                );
                refused += 1;
            }
            _ => {
                assert!(
                    is(&came, status, text),
                    "{name}, allocation {allocation}: {came:?}"
                );
                done += 1;
            }
        }
    }
    let after = call(Trial {
        allocation: whole.allocations + 1,
        ..sound(command, document)
    });
    assert!(is(&after, status, text), "{name}: {after:?}");
    println!(
        "{name}: {} allocations refused in turn: 70 {refused} times, as with memory {done} times, before the call {before}",
        whole.allocations
    );
}

// Each read fails: the status line alone is written, and the plant is left alone.
fn fail_each_read(command: Command) -> u32 {
    let whole = call(sound(command, SMALLEST));
    let mut tried = 0;
    for piece in PIECES {
        let reads = SMALLEST.len().div_ceil(piece) as u32 + 1;
        for read in 1..=reads {
            let came = call(Trial {
                piece,
                read,
                ..sound(command, SMALLEST)
            });
            assert!(
                is(&came, 3, "read fault\n") && has_left_the_plant(&came),
                "{command:?}, read {read} of {piece}: {came:?}"
            );
        }
        let came = call(Trial {
            piece,
            read: reads + 1,
            ..sound(command, SMALLEST)
        });
        assert!(
            is(&came, whole.status, &whole.text),
            "{command:?}, no read fails: {came:?}"
        );
        tried += reads;
    }
    tried
}

// Each write fails: what the writes before it took is written.
fn fail_each_write(command: Command, read: u32) -> u32 {
    let whole = call(Trial {
        read,
        ..sound(command, SMALLEST)
    });
    let mut tried = 0;
    for piece in PIECES {
        let writes = whole.text.len().div_ceil(piece) as u32;
        for write in 1..=writes {
            let came = call(Trial {
                piece,
                read,
                write,
                ..sound(command, SMALLEST)
            });
            let front = &whole.text[..(write as usize - 1) * piece];
            assert!(
                is(&came, 4, front),
                "{command:?}, write {write} of {piece}: {came:?}"
            );
        }
        let came = call(Trial {
            piece,
            read,
            write: writes + 1,
            ..sound(command, SMALLEST)
        });
        assert!(
            is(&came, whole.status, &whole.text),
            "{command:?}, no write fails: {came:?}"
        );
        tried += writes;
    }
    tried
}

// A settle step: how many calls of each kind it takes for the step to end.
struct Settled {
    calls: [u64; 4],
    // The front of the text up to its report.
    front: usize,
}

// The settle steps of a script of three nodes, by the rounds that the reports tell: in each round but the first the nodes receive six
// frames, and in each they send six. `applies` says how many fibres were changed before each step.
fn settled(text: &str, applies: &[u64]) -> Vec<Settled> {
    let mut steps: Vec<Settled> = Vec::new();
    let mut front = 0;
    for line in text.split_inclusive('\n') {
        let words: Vec<&str> = line.split_whitespace().collect();
        if let ["settle", number, "round", round] = words[..] {
            let number: usize = number.parse().expect("a number");
            let round: u64 = round.parse().expect("a round");
            steps.push(Settled {
                calls: [1, applies[number - 1], 6 * (round + 1), 6 * round],
                front,
            });
        }
        front += line.len();
        if words[0] != "done"
            && let Some(step) = steps.last_mut()
        {
            step.front = front;
        }
    }
    steps
}

// The plan with other steps.
fn with_script(steps: &[&str]) -> String {
    let listed: Vec<String> = steps.iter().map(|step| format!("\"{step}\"")).collect();
    SMALLEST.replacen("[\"settle\"]", &format!("[{}]", listed.join(", ")), 1)
}

// Each call of the plant fails: the reports of the settle steps that ended before it are written, and no further call is made.
fn fail_each_call(name: &str, document: &str, first: &str, applies: &[u64]) {
    let whole = call(sound(Command::Run, document));
    assert!(
        whole.status == 0 && whole.text.starts_with(first),
        "{name}: {whole:?}"
    );
    let steps = settled(&whole.text, applies);
    assert!(
        steps.len() == applies.len() && steps.last().map(|step| step.calls) == Some(whole.calls),
        "{name}: {:?}",
        whole.calls
    );
    for piece in PIECES {
        let trial = Trial {
            piece,
            ..sound(Command::Run, document)
        };
        for kind in KINDS {
            let count = whole.calls[kind as usize];
            for number in 1..=count as u32 {
                let came = call(Trial {
                    kind,
                    number,
                    ..trial
                });
                let ended = steps.iter().take_while(|step| {
                    step.calls[kind as usize] < u64::from(number) && kind != Kind::Prepare
                });
                let front = ended.last().map_or(0, |step| step.front);
                let text = format!("{}plant fault\n", &whole.text[..front]);
                assert!(
                    is(&came, 8, &text),
                    "{name}, {kind:?} {number}, pieces of {piece}: {came:?}"
                );
                assert!(
                    came.calls[kind as usize] == u64::from(number),
                    "{name}, {kind:?} {number}: {:?}",
                    came.calls
                );
            }
            let came = call(Trial {
                kind,
                number: count as u32 + 1,
                ..trial
            });
            assert!(
                is(&came, 0, &whole.text),
                "{name}, no {kind:?} fails: {came:?}"
            );
        }
    }
    println!(
        "{name}: each of {:?} calls of prepare, apply, send and receive failed in turn, with pieces of {PIECES:?}",
        whole.calls
    );
}

pub fn try_all() {
    refuse_each_allocation(
        "run of three nodes",
        Command::Run,
        SMALLEST,
        0,
        SMALLEST_TEXT,
    );
    refuse_each_allocation(
        "check of three nodes",
        Command::Check,
        SMALLEST,
        0,
        "node 1 east slot 1 c1 1 2\nnode 2 west slot 1 c1 1 2\ndone\n",
    );
    refuse_each_allocation(
        "no words",
        Command::Nothing,
        SMALLEST,
        2,
        &call(sound(Command::Nothing, "")).text,
    );
    refuse_each_allocation(
        "run of sixteen nodes with 128 circuits",
        Command::Run,
        &largest(),
        0,
        &largest_text(),
    );

    let mut reads = 0;
    let mut writes = 0;
    for command in [Command::Run, Command::Check, Command::Drop] {
        reads += fail_each_read(command);
        writes += fail_each_write(command, 0) + fail_each_write(command, 1);
    }
    writes += fail_each_write(Command::Nothing, 0);
    println!("{reads} reads and {writes} writes failed in turn, with pieces of {PIECES:?}");

    let report = SMALLEST_TEXT.trim_end_matches("done\n");
    fail_each_call("a settle step", SMALLEST, report, &[0]);
    fail_each_call(
        "two settle steps",
        &with_script(&["settle", "settle"]),
        report,
        &[0, 0],
    );
    let script = [
        "settle",
        "cut 2 east",
        "cut 3 west",
        "settle",
        "mend 2 east",
        "degrade 3 west 3",
        "settle",
        "moment 20",
        "settle",
    ];
    fail_each_call(
        "four settle steps with changes",
        &with_script(&script),
        report,
        &[0, 2, 4, 4],
    );
}
