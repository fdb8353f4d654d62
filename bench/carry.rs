//! The loads and stores of `crates/drive_bench`, as loops written by hand: `carry <yardstick> <rounds>`.
//! `free` is a vector of words, as `Plain` has, and the compiler may do with the loop what it can, as it may with `drive`; `words` is the
//! same with each word loaded and stored by itself; `asked` has each ask as a value of an enum, taken apart by a function that is not
//! inlined; `atomics` makes each load and store sequentially consistent, as running threads would.
use std::hint::black_box;
use std::sync::atomic::{AtomicU64, Ordering::SeqCst};

const CARRIED: usize = 32_768;

#[derive(Clone, Copy)]
enum Ask {
    Load(u32),
    Store(u32, u64),
}

#[inline(never)]
fn perform(words: &mut [u64], ask: Ask) -> u64 {
    match ask {
        Ask::Load(word) => words[word as usize],
        Ask::Store(word, value) => {
            words[word as usize] = value;
            0
        }
    }
}

fn free(rounds: u32) -> Vec<u64> {
    let mut words = start();
    for _ in 0..black_box(rounds) {
        for next in 0..CARRIED {
            words[CARRIED + next] = words[next];
        }
    }
    words
}

fn words(rounds: u32) -> Vec<u64> {
    let mut words = start();
    for _ in 0..rounds {
        for next in 0..CARRIED {
            let word = black_box(words[black_box(next)]);
            words[CARRIED + next] = black_box(word);
        }
    }
    words
}

fn asked(rounds: u32) -> Vec<u64> {
    let mut words = start();
    for _ in 0..rounds {
        for next in 0..CARRIED as u32 {
            let word = perform(&mut words, Ask::Load(next));
            perform(&mut words, Ask::Store(CARRIED as u32 + next, word));
        }
    }
    words
}

fn atomics(rounds: u32) -> Vec<u64> {
    let words: Vec<AtomicU64> = start().into_iter().map(AtomicU64::new).collect();
    for _ in 0..rounds {
        for next in 0..CARRIED {
            let word = words[next].load(SeqCst);
            words[CARRIED + next].store(word, SeqCst);
        }
    }
    words.into_iter().map(AtomicU64::into_inner).collect()
}

fn start() -> Vec<u64> {
    let mut words = vec![5; CARRIED];
    words.resize(2 * CARRIED, 0);
    words
}

fn main() {
    let arguments: Vec<String> = std::env::args().collect();
    let rounds = arguments[2].parse().expect("a number of rounds");
    let words = match arguments[1].as_str() {
        "free" => free(rounds),
        "words" => words(rounds),
        "asked" => asked(rounds),
        "atomics" => atomics(rounds),
        other => panic!("no yardstick {other}"),
    };
    let sum = words.iter().fold(0u64, |sum, word| sum.wrapping_mul(31).wrapping_add(*word));
    println!("carry {rounds}: {sum}");
}
