//! The plain twin of `madfs - try <data> <log> <block bytes> 1`: the same job in ordinary Rust, with no proof. Built by `rustc -O`, no crates.

// a plain file has room for each write
#[allow(dead_code)]
mod calls;

use calls::{jobs, report, Call, Op, Reply};
use std::io::{Read, Write};
use std::process::ExitCode;

fn main() -> ExitCode {
    let words: Vec<String> = std::env::args().skip(2).collect();
    let [name, _, _, block, seats] = words.as_slice() else {
        return ExitCode::from(2);
    };
    if name != "try" || seats != "1" {
        return ExitCode::from(2);
    }
    let block: u64 = block.parse().unwrap();
    let longest = (block / 8 - 1).min(256);
    let limit = 65536 * block;
    let mut text = Vec::new();
    if std::io::stdin().lock().read_to_end(&mut text).is_err() {
        return ExitCode::from(5);
    }
    let jobs = match jobs(&text) {
        Ok(jobs) => jobs,
        Err(line) => {
            eprintln!("madfs: trace: BadLine {line}");
            return ExitCode::from(4);
        }
    };
    drop(text);
    let mut file: Vec<u8> = Vec::new();
    let mut position = 0u64;
    let mut calls = Vec::with_capacity(jobs.len());
    for job in jobs {
        let reply = match &job.op {
            Op::Pwrite { offset, bytes } if !bytes.is_empty() => {
                let length = bytes.len() as u64;
                let end = u128::from(*offset) + u128::from(length);
                let blocks = (offset % block + length - 1) / block + 1;
                if blocks > longest {
                    Reply::TooLong(blocks)
                } else if end > u128::from(limit) {
                    Reply::TooLarge(end)
                } else {
                    let (offset, end) = (*offset as usize, end as usize);
                    if file.len() < end {
                        file.resize(end, 0);
                    }
                    file[offset..end].copy_from_slice(bytes);
                    position += 1;
                    Reply::Wrote(length)
                }
            }
            Op::Pwrite { .. } => Reply::Wrote(0),
            Op::Pread { offset, length } => {
                let size = file.len() as u64;
                let start = (*offset).min(size);
                let end = start + (*length).min(size - start);
                Reply::Bytes(file[start as usize..end as usize].to_vec())
            }
        };
        calls.push(Call { position, number: job.number, op: job.op, reply });
    }
    let out = report(&calls, position, file.len());
    if std::io::stdout().lock().write_all(&out).is_err() {
        return ExitCode::from(6);
    }
    ExitCode::SUCCESS
}
