//! The turns of `crates/drive_bench` on a world of sixteen seats, as loops written by hand over the same vectors:
//! `world <yardstick> <steps>`. `free` lets the compiler do with the loop what it can, so that it may leave out a load whose word it knows;
//! `each` makes each load and store of a word that seats share, as running threads would have to.
use std::env::args;
use std::hint::black_box;

const SEATS: usize = 16;
// of 40 data blocks and 4 log blocks of 64 bytes: 79 blocks of 8 words, and 2 words of 64 bits for the blocks
const WORDS: usize = 632;
const HEAD_WORD: usize = 3;
const HEAD: u64 = 1 << 32 | 41;

// what a crash could leave; no step here adds to it
#[allow(dead_code)]
struct Replaced {
    word: u32,
    value: u64,
}

#[allow(dead_code)]
struct Noted {
    seat: u8,
    word: u32,
    time: u64,
}

/// What a pin changes of a seat.
struct Seat {
    head: u64,
    pin: u32,
    generation: u32,
    valid: bool,
    ready: bool,
    kept: Vec<u64>,
}

/// A load of a shared word, made by itself where `EACH` says so.
fn load<const EACH: bool>(words: &[u64], place: usize) -> u64 {
    if EACH {
        unsafe { (&raw const words[place]).read_volatile() }
    } else {
        words[place]
    }
}

fn store<const EACH: bool>(words: &mut [u64], place: usize, word: u64) {
    if EACH {
        unsafe { (&raw mut words[place]).write_volatile(word) }
    } else {
        words[place] = word;
    }
}

fn find_head(seat: &mut Seat, word: u64) {
    let pin = seat.pin;
    seat.head = word;
    if u64::from(pin) == word >> 32 {
        if seat.generation != pin {
            seat.ready = false;
        }
        seat.generation = pin;
        seat.valid = true;
    }
}

fn store_pin(seat: &mut Seat, pin: u32) {
    seat.pin = pin;
    seat.valid = false;
    seat.kept.clear();
}

/// The sum of the generations that seats in turn pinned and gave up, with four steps for each; none where a pin takes more than three.
fn pinnings<const EACH: bool>(words: &[u64], pins: &mut [u64], seats: &mut [Seat], times: u32) -> Option<u64> {
    let mut sum = 0u64;
    for time in 0..times {
        let number = time as usize % SEATS;
        let seat = &mut seats[number];
        find_head(seat, load::<EACH>(words, HEAD_WORD));
        store::<EACH>(pins, number, seat.head >> 32);
        store_pin(seat, (seat.head >> 32) as u32);
        let word = load::<EACH>(words, HEAD_WORD);
        let generation = (word >> 32) as u32;
        let same = seat.pin == generation;
        find_head(seat, word);
        if !same {
            return None;
        }
        store::<EACH>(pins, number, 0);
        store_pin(seat, 0);
        sum = sum.wrapping_mul(31).wrapping_add(u64::from(generation));
    }
    Some(sum)
}

fn main() {
    let arguments: Vec<String> = args().collect();
    let steps: u32 = arguments[2].parse().expect("a number of steps");
    let mut words = vec![0u64; WORDS];
    words[HEAD_WORD] = HEAD;
    let mut pins = vec![0u64; SEATS];
    let taken = vec![0u64; WORDS.div_ceil(8 * 64)];
    let floors = vec![0u64; WORDS];
    let past: Vec<Replaced> = Vec::with_capacity(steps as usize);
    let notes: Vec<Noted> = Vec::with_capacity(steps as usize);
    let new_seat = |_| Seat { head: 0, pin: 0, generation: 0, valid: false, ready: false, kept: Vec::with_capacity(16) };
    let mut seats: Vec<Seat> = (0..SEATS).map(new_seat).collect();
    let sum = match arguments[1].as_str() {
        "free" => pinnings::<false>(&words, &mut pins, &mut seats, steps / 4),
        "each" => pinnings::<true>(&words, &mut pins, &mut seats, steps / 4),
        other => panic!("no yardstick {other}"),
    };
    black_box((&words, &pins, &taken, &floors, &past, &notes));
    for seat in &seats {
        black_box((seat.head, seat.generation, seat.valid, seat.ready));
    }
    println!("world {steps}: {}", sum.unwrap_or(0));
}
