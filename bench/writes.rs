//! The writes and walks of `crates/drive_bench`, as loops written by hand: `writes <work> <yardstick> <rounds>`. Each round begins with
//! an image and a seat that are laid outside of what is timed; `fresh` is `write` by a seat that has to begin at the front of the log first, with
//! an empty table.
//! `write` pins, looks at the tail, takes a block, fills it with 4096 bytes (512 stores, and as many loads for the marks), puts an entry in by one
//! compare-and-exchange, keeps the table, and unpins. `walk` loads each word of a log of 65,000 entries from its first one on, and keeps the table.
//! `atomics` makes each load and store sequentially consistent, as running threads would; `free` is a vector of words, and the compiler may
//! do with the loop what it can; `cells` keeps what each image word held before, the marks and the floors, as a world does. Printed are what the rounds come to, and the nanoseconds of each.
use std::cell::Cell;
use std::hint::black_box;
use std::sync::atomic::{fence, AtomicU64, Ordering::SeqCst};
use std::time::Instant;

/// Words of a block, and the first one that is a slot.
const BLOCK: usize = 512;
const FIRST_SLOT: usize = 3;
/// Virtual blocks of a file.
const VIRTUAL: usize = 65_536;
const HEAD_WORD: usize = 3;
const LOG_KIND: u64 = 1 << 62;

trait Word {
    fn new(value: u64) -> Self;
    fn load(&self) -> u64;
    fn store(&self, value: u64);
    fn exchange(&self, old: u64, new: u64) -> u64;
    fn set_bits(&self, bits: u64) -> u64;
    fn fence();
}

impl Word for AtomicU64 {
    fn new(value: u64) -> Self {
        AtomicU64::new(value)
    }
    fn load(&self) -> u64 {
        self.load(SeqCst)
    }
    fn store(&self, value: u64) {
        self.store(value, SeqCst)
    }
    fn exchange(&self, old: u64, new: u64) -> u64 {
        match self.compare_exchange(old, new, SeqCst, SeqCst) {
            Ok(found) | Err(found) => found,
        }
    }
    fn set_bits(&self, bits: u64) -> u64 {
        self.fetch_or(bits, SeqCst)
    }
    fn fence() {
        fence(SeqCst)
    }
}

impl Word for Cell<u64> {
    fn new(value: u64) -> Self {
        Cell::new(value)
    }
    fn load(&self) -> u64 {
        self.get()
    }
    fn store(&self, value: u64) {
        self.set(value)
    }
    fn exchange(&self, old: u64, new: u64) -> u64 {
        let found = self.get();
        if found == old {
            self.set(new);
        }
        found
    }
    fn set_bits(&self, bits: u64) -> u64 {
        self.replace(self.get() | bits)
    }
    fn fence() {}
}

/// A memory of one seat.
trait Memory {
    fn new(words: &[u64], taken: &[u64]) -> Self;
    fn load(&self, word: usize) -> u64;
    fn store(&mut self, word: usize, value: u64);
    fn mark(&mut self, word: usize) -> u64;
    fn fence(&mut self);
    fn exchange(&mut self, word: usize, old: u64, new: u64) -> u64;
    fn store_pin(&mut self, value: u64);
    fn load_bits(&self, word: usize) -> u64;
    fn set_bits(&mut self, word: usize, bits: u64) -> u64;

    fn sum(&self, words: usize) -> u64 {
        (0..words).fold(0u64, |sum, word| sum.wrapping_mul(31).wrapping_add(self.load(word)))
    }
}

/// The words that seats share.
struct Shared<W> {
    words: Vec<W>,
    taken: Vec<W>,
    pins: Vec<W>,
}

impl<W: Word> Memory for Shared<W> {
    fn new(words: &[u64], taken: &[u64]) -> Self {
        let shared = |words: &[u64]| words.iter().map(|&word| W::new(word)).collect();
        Shared { words: shared(words), taken: shared(taken), pins: shared(&[0; 16]) }
    }
    fn load(&self, word: usize) -> u64 {
        self.words[word].load()
    }
    fn store(&mut self, word: usize, value: u64) {
        self.words[word].store(value);
    }
    fn mark(&mut self, word: usize) -> u64 {
        self.words[word].load()
    }
    fn fence(&mut self) {
        W::fence()
    }
    fn exchange(&mut self, word: usize, old: u64, new: u64) -> u64 {
        self.words[word].exchange(old, new)
    }
    fn store_pin(&mut self, value: u64) {
        self.pins[0].store(value)
    }
    fn load_bits(&self, word: usize) -> u64 {
        self.taken[word].load()
    }
    fn set_bits(&mut self, word: usize, bits: u64) -> u64 {
        self.taken[word].set_bits(bits)
    }
}

/// Words with what they held before.
struct Cells {
    words: Vec<u64>,
    taken: Vec<u64>,
    pin: u64,
    past: Vec<(u32, u64)>,
    floors: Vec<u64>,
    pending: Vec<(u8, u32, u64)>,
}

impl Memory for Cells {
    fn new(words: &[u64], taken: &[u64]) -> Self {
        Cells { words: words.to_vec(), taken: taken.to_vec(), pin: 0, past: Vec::with_capacity(2_000), floors: vec![0; words.len()], pending: Vec::with_capacity(2_000) }
    }
    fn load(&self, word: usize) -> u64 {
        self.words[word]
    }
    fn store(&mut self, word: usize, value: u64) {
        self.past.push((word as u32, self.words[word]));
        self.words[word] = value;
    }
    fn mark(&mut self, word: usize) -> u64 {
        self.pending.push((0, word as u32, self.past.len() as u64));
        self.words[word]
    }
    fn fence(&mut self) {
        for &(seat, word, time) in &self.pending {
            if seat == 0 {
                let floor = &mut self.floors[word as usize];
                *floor = time.max(*floor);
            }
        }
        self.pending.retain(|&(seat, _, _)| seat != 0);
    }
    fn exchange(&mut self, word: usize, old: u64, new: u64) -> u64 {
        let found = self.words[word];
        if found == old {
            self.store(word, new);
        }
        found
    }
    fn store_pin(&mut self, value: u64) {
        self.pin = value
    }
    fn load_bits(&self, word: usize) -> u64 {
        self.taken[word]
    }
    fn set_bits(&mut self, word: usize, bits: u64) -> u64 {
        let found = self.taken[word];
        self.taken[word] = found | bits;
        found
    }
}

/// What a seat keeps.
struct Seat {
    generation: u64,
    table: Vec<u16>,
    size: u64,
    position: u64,
    block: usize,
    slot: usize,
    found: Vec<u64>,
    content: Vec<u64>,
}

impl Seat {
    fn new(block: usize, bitmap: usize) -> Self {
        Seat { generation: 0, table: vec![0; VIRTUAL], size: 0, position: 0, block, slot: FIRST_SLOT, found: vec![0; bitmap], content: Vec::with_capacity(BLOCK) }
    }

    /// Takes in a direct entry.
    fn apply(&mut self, entry: u64) {
        let (virt, block, count, leftover) = (entry >> 2 & 0xffff, entry >> 18 & 0xffff, (entry >> 34 & 0xff) + 1, entry >> 42 & 0xfff);
        for k in 0..count {
            self.table[(virt + k) as usize] = (block + k) as u16;
        }
        self.size = self.size.max((virt + count) * 8 * BLOCK as u64 - leftover);
        self.position += 1;
        self.slot += 1;
    }
}

/// Words, a bitmap with these blocks, and the first log block of an image.
fn made(data: usize, log: usize) -> (Vec<u64>, Vec<u64>, usize) {
    let total = 1 + data + log + 2 * (data.div_ceil(BLOCK - 3) + 1) + 16;
    let first = 1 + data;
    let mut words = vec![0u64; total * BLOCK];
    words[0] = 3_552_576_303_075_180_877;
    words[1] = 1 | 12 << 16;
    words[2] = data as u64 | (log as u64) << 32;
    words[HEAD_WORD] = 1 << 32 | first as u64;
    words[first * BLOCK + 1] = LOG_KIND;
    let mut taken = vec![0u64; total.div_ceil(64)];
    taken[0] |= 1;
    taken[first / 64] |= 1 << (first % 64);
    (words, taken, first)
}

/// One write of a block by a seat, whose table is ready or not; whether it was put in.
fn write<M: Memory>(memory: &mut M, seat: &mut Seat, bytes: &[u8], last: usize, ready: bool) -> bool {
    loop {
        let generation = memory.load(HEAD_WORD) >> 32;
        memory.store_pin(generation);
        if memory.load(HEAD_WORD) >> 32 == generation {
            seat.generation = generation;
            break;
        }
    }
    if !ready {
        begin(memory, seat);
    }
    if memory.load(seat.block * BLOCK + seat.slot) != 0 {
        return false;
    }
    let mut block = 0;
    for word in 0..=last / 64 {
        let first = if word == 0 { 1 } else { 0 };
        let end = (last + 1 - word * 64).min(64);
        let area = if end == 64 { u64::MAX << first } else { ((1u64 << end) - 1) & u64::MAX << first };
        let value = memory.load_bits(word);
        seat.found[word] |= value & area;
        let open = area & !value;
        if open != 0 {
            let bit = open & open.wrapping_neg();
            if memory.set_bits(word, bit) & bit == 0 {
                block = word * 64 + bit.trailing_zeros() as usize;
                break;
            }
        }
    }
    if block == 0 {
        return false;
    }
    seat.content.clear();
    seat.content.extend(bytes.chunks_exact(8).map(|eight| u64::from_le_bytes(eight.try_into().unwrap())));
    for word in 0..BLOCK {
        memory.store(block * BLOCK + word, seat.content[word]);
    }
    let mut marked = 0u64;
    for word in 0..BLOCK {
        marked = marked.wrapping_add(memory.mark(block * BLOCK + word));
    }
    black_box(marked);
    memory.fence();
    let entry = 1 | (block as u64) << 18;
    if memory.exchange(seat.block * BLOCK + seat.slot, 0, entry) != 0 {
        return false;
    }
    seat.apply(entry);
    memory.store_pin(0);
    true
}

/// Begins at the first log block, with an empty table.
fn begin<M: Memory>(memory: &M, seat: &mut Seat) {
    seat.position = memory.load(seat.block * BLOCK + 1) & 0xff_ffff_ffff;
    seat.table.fill(0);
    seat.slot = FIRST_SLOT;
}

/// From the first log block to the tail; how many entries there are.
fn walk<M: Memory>(memory: &M, seat: &mut Seat) -> u64 {
    begin(memory, seat);
    loop {
        let place = if seat.slot == BLOCK { 0 } else { seat.slot };
        let word = memory.load(seat.block * BLOCK + place);
        if word == 0 {
            return seat.position;
        }
        if place == 0 {
            seat.block = word as u16 as usize;
            seat.slot = FIRST_SLOT;
        } else if word == 3 {
            seat.slot = BLOCK;
        } else if word & 3 == 2 {
            panic!("no indirect entry stands in the log");
        } else {
            seat.apply(word);
        }
    }
}

fn writes<M: Memory>(rounds: usize, ready: bool) -> (u64, Vec<u128>) {
    let (words, taken, log) = made(2, 1);
    let bytes = vec![7u8; 8 * BLOCK];
    let mut sum = 0;
    let mut times = Vec::with_capacity(rounds);
    for _ in 0..rounds {
        let mut memory = M::new(&words, &taken);
        let mut seat = Seat::new(log, taken.len());
        black_box((&mut memory, &mut seat, &bytes));
        let begun = Instant::now();
        let put = write(&mut memory, &mut seat, &bytes, 2, ready);
        times.push(begun.elapsed().as_nanos());
        assert!(put && seat.position == 1);
        black_box((&mut memory, &seat.table, seat.generation, &seat.found, seat.size));
        sum = memory.sum(words.len());
    }
    (sum, times)
}

fn walks<M: Memory>(rounds: usize) -> (u64, Vec<u128>) {
    let (data, log) = (65_000, 128);
    let (mut words, taken, first) = made(data, log);
    let slots = BLOCK - FIRST_SLOT;
    for entry in 0..data {
        let (block, slot) = (first + entry / slots, FIRST_SLOT + entry % slots);
        if slot == FIRST_SLOT {
            words[block * BLOCK + 1] = LOG_KIND | entry as u64;
            if block != first {
                words[(block - 1) * BLOCK] = block as u64;
            }
        }
        words[block * BLOCK + slot] = 1 | (entry as u64) << 2 | (entry as u64 + 1) << 18;
    }
    let mut memory = M::new(&words, &taken);
    let mut sum = 0;
    let mut times = Vec::with_capacity(rounds);
    for _ in 0..rounds {
        let mut seat = Seat::new(first, taken.len());
        black_box((&mut memory, &mut seat));
        let begun = Instant::now();
        let position = walk(&memory, &mut seat);
        times.push(begun.elapsed().as_nanos());
        black_box(&seat.table);
        sum = position.wrapping_mul(31).wrapping_add(seat.size).wrapping_mul(31).wrapping_add(u64::from(seat.table[data - 1]));
    }
    (sum, times)
}

fn main() {
    let arguments: Vec<String> = std::env::args().collect();
    let rounds = arguments[3].parse().expect("a number of rounds");
    let (sum, times) = match (arguments[1].as_str(), arguments[2].as_str()) {
        ("write", "atomics") => writes::<Shared<AtomicU64>>(rounds, true),
        ("write", "free") => writes::<Shared<Cell<u64>>>(rounds, true),
        ("fresh", "cells") => writes::<Cells>(rounds, false),
        ("walk", "atomics") => walks::<Shared<AtomicU64>>(rounds),
        ("walk", "free") => walks::<Shared<Cell<u64>>>(rounds),
        (work, other) => panic!("no yardstick {other} of {work}"),
    };
    print!("{} {rounds}: {sum}", arguments[1]);
    for took in times {
        print!(" {took}");
    }
    println!();
}
