//! The plain twin of `madfs - generate <number> <seats> <calls>`: the same text in ordinary Rust, with no proof. Built by `rustc -O`, no crates.

use std::io::Write;
use std::process::ExitCode;

const DIGITS: &[u8; 16] = b"0123456789abcdef";

/// So many bytes in hexadecimal digits, each one more than the one before it.
fn rising(out: &mut Vec<u8>, first: u64, count: u64) {
    for at in 0..count {
        let byte = (first + at) as u8;
        out.push(DIGITS[usize::from(byte >> 4)]);
        out.push(DIGITS[usize::from(byte & 15)]);
    }
}

fn main() -> ExitCode {
    let words: Vec<u64> = std::env::args().skip(3).map(|word| word.parse().unwrap()).collect();
    let [number, seats, calls] = words.as_slice() else {
        return ExitCode::from(2);
    };
    let mut out = Vec::new();
    for line in 1..=*calls {
        let (seat, turn) = ((line - 1) % seats, (line - 1) / seats);
        let draw = (number * 40503 + line * 2_654_435_761) % (1 << 32);
        let upper = draw / 65536;
        let offset = seat * 65536 + draw % 63488;
        match turn % 8 {
            0..=3 => {
                write!(out, "{seat} pwrite {offset} ").unwrap();
                rising(&mut out, number + line, 1 + upper % 2048);
            }
            4 => {
                write!(out, "{seat} append ").unwrap();
                rising(&mut out, number + line, 1 + upper % 256);
            }
            5 => write!(out, "{seat} pread {offset} {}", 1 + upper % 2048).unwrap(),
            6 => write!(out, "{seat} {}", if turn % 16 == 14 { "sync" } else { "size" }).unwrap(),
            _ => write!(out, "{seat} {}", if turn % 512 == 511 { "collect" } else { "size" }).unwrap(),
        }
        out.push(b'\n');
    }
    if std::io::stdout().lock().write_all(&out).is_err() {
        return ExitCode::from(6);
    }
    ExitCode::SUCCESS
}
