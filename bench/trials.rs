//! Tries the program's call at every place, and over hostile neighbours: `trials/run` says how.

#[path = "trials/hostile.rs"]
mod hostile;
#[path = "trials/memory.rs"]
mod memory;
#[path = "trials/neighbour.rs"]
mod neighbour;
#[path = "trials/ours.rs"]
mod ours;
#[path = "trials/places.rs"]
mod places;
#[allow(dead_code, unused_imports)]
mod plain;

fn number(words: &[String], at: usize, default: u64) -> u64 {
    words.get(at).map_or(default, |word| {
        word.parse()
            .unwrap_or_else(|_| panic!("{word} is no number"))
    })
}

fn main() {
    let words: Vec<String> = std::env::args().skip(1).collect();
    match words.first().map(String::as_str) {
        Some("places") => places::try_all(),
        Some("hostile") => hostile::try_all(number(&words, 1, 10_000), number(&words, 2, 1)),
        _ => {
            eprintln!("usage: bench/trials/run places | hostile [ROUNDS [SEED]]");
            std::process::exit(2);
        }
    }
}
