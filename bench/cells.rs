//! The drawn steps of `crates/drive_bench` on the cells of a memory, as a loop written by hand over the same vectors: `cells <steps>`.
use std::env::args;

const WORDS: usize = 8_464_896;

// what a crash could leave; nothing here reads it
#[allow(dead_code)]
struct Replaced {
    word: u32,
    value: u64,
}

struct Noted {
    seat: u8,
    word: u32,
    time: u64,
}

fn main() {
    let steps: u32 = args().nth(1).and_then(|steps| steps.parse().ok()).unwrap_or(0);
    let mut words = vec![5u64; WORDS];
    // each is written first, so that no page is first touched within the steps
    let mut floors = vec![1u64; WORDS];
    std::hint::black_box(&mut floors).fill(0);
    let mut past: Vec<Replaced> = Vec::with_capacity(steps as usize);
    let mut notes: Vec<Noted> = Vec::with_capacity(steps as usize);
    let mut state = 1u64;
    let mut sum = 0u64;
    for _ in 0..steps {
        state = state.wrapping_mul(6_364_136_223_846_793_005).wrapping_add(1_442_695_040_888_963_407);
        let draw = state >> 16;
        let seat = (draw & 15) as u8;
        let word = ((draw >> 8) % WORDS as u64) as u32;
        let place = word as usize;
        let answer = match (draw >> 4) & 15 {
            0..=6 => {
                past.push(Replaced { word, value: words[place] });
                words[place] = draw;
                0
            }
            7..=10 => words[place],
            11..=13 => {
                notes.push(Noted { seat, word, time: past.len() as u64 });
                words[place]
            }
            14 => {
                let found = words[place];
                if found == 5 {
                    past.push(Replaced { word, value: found });
                    words[place] = draw;
                }
                found
            }
            _ => {
                for note in notes.iter().filter(|note| note.seat == seat) {
                    let floor = &mut floors[note.word as usize];
                    *floor = (*floor).max(note.time);
                }
                notes.retain(|note| note.seat != seat);
                0
            }
        };
        sum = sum.wrapping_mul(31).wrapping_add(answer);
    }
    std::hint::black_box((&floors, &past, &notes));
    println!("cells {steps}: {sum}");
}
