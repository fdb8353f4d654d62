//! The steps on blocks of `crates/drive_bench`, as loops written by hand: `blocks <work> <yardstick> <rounds>`.
//! `fill` stores the 512 words of a block's content and loads each again, as a mark does on running threads; `pass` loads the 1,016
//! words of a full bitmap that have blocks of the data area, adds each to what was found, and looks whether a block of the area is left in it.
//! `atomics` makes each load and store sequentially consistent, as running threads would; `free` is a vector of words, and the compiler may
//! do with the loop what it can.
use std::hint::black_box;
use std::sync::atomic::{AtomicU64, Ordering::SeqCst};

const BLOCK: usize = 512;
const BITMAP: usize = 1_024;
/// The data area's blocks are those from 1 to this one.
const LAST: usize = 65_000;

/// The image of a header and one block, and the content that the block gets.
fn atomic_fill(rounds: u32) -> u64 {
    let words: Vec<AtomicU64> = (0..2 * BLOCK).map(|_| AtomicU64::new(0)).collect();
    let content = content();
    let mut marked = 0u64;
    for _ in 0..black_box(rounds) {
        for word in 0..BLOCK {
            words[BLOCK + word].store(content[word], SeqCst);
        }
        for word in 0..BLOCK {
            marked = marked.wrapping_add(words[BLOCK + word].load(SeqCst));
        }
    }
    black_box(marked);
    sum(words.into_iter().map(AtomicU64::into_inner))
}

fn free_fill(rounds: u32) -> u64 {
    let mut words = vec![0u64; 2 * BLOCK];
    let content = content();
    for _ in 0..black_box(rounds) {
        for word in 0..BLOCK {
            words[BLOCK + word] = content[word];
        }
        black_box(&mut words);
    }
    sum(words.into_iter())
}

fn content() -> Vec<u64> {
    let mut content = vec![0u64; BLOCK];
    content[0] = 5;
    content
}

/// The bits of the data area in a word of the bitmap.
fn area_bits(word: usize) -> u64 {
    let below = |end: usize| match end.saturating_sub(word * 64) {
        0 => 0,
        64.. => u64::MAX,
        bits => (1u64 << bits) - 1,
    };
    below(LAST + 1) - below(1)
}

/// How many passes found no block of the area left, and what was found.
fn atomic_pass(rounds: u32) -> u64 {
    let taken: Vec<AtomicU64> = (0..BITMAP).map(|_| AtomicU64::new(u64::MAX)).collect();
    let mut found = vec![0u64; BITMAP];
    let mut full = 0u64;
    for _ in 0..black_box(rounds) {
        let mut open = false;
        for word in 0..=LAST / 64 {
            let value = taken[word].load(SeqCst);
            found[word] |= value;
            open |= area_bits(word) & !value != 0;
        }
        full += u64::from(!open);
    }
    sum(found.into_iter()).wrapping_add(full)
}

fn free_pass(rounds: u32) -> u64 {
    let taken = vec![u64::MAX; BITMAP];
    let mut found = vec![0u64; BITMAP];
    let mut full = 0u64;
    for _ in 0..black_box(rounds) {
        let mut open = false;
        for word in 0..=LAST / 64 {
            let value = taken[word];
            found[word] |= value;
            open |= area_bits(word) & !value != 0;
        }
        black_box(&mut found);
        full += u64::from(!open);
    }
    sum(found.into_iter()).wrapping_add(full)
}

fn sum(words: impl Iterator<Item = u64>) -> u64 {
    words.fold(0u64, |sum, word| sum.wrapping_mul(31).wrapping_add(word))
}

fn main() {
    let arguments: Vec<String> = std::env::args().collect();
    let rounds = arguments[3].parse().expect("a number of rounds");
    let sum = match (arguments[1].as_str(), arguments[2].as_str()) {
        ("fill", "atomics") => atomic_fill(rounds),
        ("fill", "free") => free_fill(rounds),
        ("pass", "atomics") => atomic_pass(rounds),
        ("pass", "free") => free_pass(rounds),
        (work, other) => panic!("no yardstick {other} of {work}"),
    };
    println!("{} {rounds}: {sum}", arguments[1]);
}
