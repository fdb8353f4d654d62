//! The command `replay 1` of the twin: it runs a trace on an image, prints the report, and puts the image after it in its place.

use crate::calls::{jobs, report, Call, Job, Op, Reply};
use crate::{open, replace, Image, Walked, MOST_POSITIONS};
use std::fs;
use std::io::{self, Read, Write};
use std::process::ExitCode;

/// The longest trace, in bytes.
const LONGEST_TRACE: usize = 67_108_864;

/// An image that one caller runs on: its bytes, its map, which blocks are taken, and where its chain ends.
struct Engine {
    image: Image,
    walked: Walked,
    tail: usize,
    /// The tail's next slot, or the words of a block where it has none left.
    slot: usize,
    /// No data block before this one is free.
    first_free: usize,
}

impl Engine {
    /// Clears the tail of an image that was opened: where it is a slot, each word after it in its block, and the link.
    fn new(mut image: Image, walked: Walked) -> Engine {
        let tail = *walked.chain.last().expect("a chain has a block");
        let found = image.slots(tail).find(|(_, word)| *word == 0 || *word == 3);
        let slot = match found {
            Some((slot, 0)) => {
                let own = image.block_mut(tail);
                own[8 * slot..].fill(0);
                own[..8].fill(0);
                slot
            }
            _ => image.shape.block_words(),
        };
        Engine { image, walked, tail, slot, first_free: 1 }
    }

    fn size(&self) -> usize {
        self.walked.size
    }

    fn read(&self, offset: u64, length: u64) -> Vec<u8> {
        let block_bytes = self.image.shape.block_bytes;
        let size = self.size() as u64;
        let start = offset.min(size) as usize;
        let end = start + length.min(size - start as u64) as usize;
        let mut bytes = Vec::with_capacity(end - start);
        let mut place = start;
        while place < end {
            let from = place % block_bytes;
            let count = (block_bytes - from).min(end - place);
            match self.walked.map[place / block_bytes] {
                0 => bytes.resize(bytes.len() + count, 0),
                block => bytes.extend_from_slice(&self.image.block(usize::from(block))[from..from + count]),
            }
            place += count;
        }
        bytes
    }

    /// The least free data block, if so many from it on are free.
    fn least_free(&mut self, count: usize) -> Option<usize> {
        let end = self.image.shape.data + 1;
        let free = self.walked.named[self.first_free..end].iter().position(|taken| !taken);
        self.first_free = free.map_or(end, |far| self.first_free + far);
        let first = self.first_free;
        (first + count <= end && !self.walked.named[first..first + count].contains(&true)).then_some(first)
    }

    /// Composes the new blocks of a write: the present bytes of its virtual blocks, and its own over them.
    fn compose(&mut self, offset: usize, bytes: &[u8], block: usize, count: usize) {
        let block_bytes = self.image.shape.block_bytes;
        let virt = offset / block_bytes;
        let first = block * block_bytes;
        for place in 0..count {
            let new = first + place * block_bytes;
            match usize::from(self.walked.map[virt + place]) {
                0 => self.image.bytes[new..new + block_bytes].fill(0),
                old => self.image.bytes.copy_within(old * block_bytes..(old + 1) * block_bytes, new),
            }
        }
        let from = first + offset % block_bytes;
        self.image.bytes[from..from + bytes.len()].copy_from_slice(bytes);
    }

    /// Makes a slot for the next entry: where the tail has none left, the least free log block becomes the tail.
    fn make_slot(&mut self) -> Option<()> {
        let shape = self.image.shape;
        if self.slot == shape.block_words() {
            let first = shape.data + 1;
            let next = first + self.walked.named[first..first + shape.log].iter().position(|taken| !taken)?;
            self.image.block_mut(next).fill(0);
            self.image.put(next, 1, 1 << 62 | self.walked.position);
            self.image.put(self.tail, 0, next as u64);
            self.walked.named[next] = true;
            (self.tail, self.slot) = (next, 3);
        }
        Some(())
    }

    /// Writes, or names the area that has no space.
    fn write(&mut self, offset: usize, bytes: &[u8], count: usize) -> Result<(), &'static str> {
        let block_bytes = self.image.shape.block_bytes;
        let virt = offset / block_bytes;
        let block = self.least_free(count).ok_or("data")?;
        self.compose(offset, bytes, block, count);
        self.make_slot().ok_or("log")?;
        let end = offset + bytes.len();
        let leftover = (virt + count) * block_bytes - end;
        let entry = 1 | virt << 2 | block << 18 | (count - 1) << 34 | leftover << 42;
        self.image.put(self.tail, self.slot, entry as u64);
        self.slot += 1;
        self.walked.named[block..block + count].fill(true);
        self.walked.lay(virt, block, count);
        self.walked.size = self.walked.size.max(end);
        self.walked.position += 1;
        Ok(())
    }

    fn pwrite(&mut self, offset: u64, bytes: &[u8]) -> Reply {
        let shape = self.image.shape;
        let length = bytes.len() as u64;
        if length == 0 {
            return Reply::Wrote(0);
        }
        let block_bytes = shape.block_bytes as u64;
        let count = (offset % block_bytes + length - 1) / block_bytes + 1;
        let end = u128::from(offset) + u128::from(length);
        if count > shape.longest() as u64 {
            Reply::TooLong(count)
        } else if end > shape.limit() as u128 {
            Reply::TooLarge(end)
        } else if self.walked.position + 1 == MOST_POSITIONS {
            Reply::PositionLimit
        } else {
            match self.write(offset as usize, bytes, count as usize) {
                Ok(()) => Reply::Wrote(length),
                Err(area) => Reply::NoSpace(area),
            }
        }
    }

    fn call(&mut self, job: Job) -> Call {
        let reply = match &job.op {
            Op::Pwrite { offset, bytes } => self.pwrite(*offset, bytes),
            Op::Pread { offset, length } => Reply::Bytes(self.read(*offset, *length)),
        };
        Call { position: self.walked.position, number: job.number, op: job.op, reply }
    }
}

impl Image {
    fn block_mut(&mut self, block: usize) -> &mut [u8] {
        let block_bytes = self.shape.block_bytes;
        &mut self.bytes[block * block_bytes..(block + 1) * block_bytes]
    }

    /// Puts a word at a place of a block.
    fn put(&mut self, block: usize, place: usize, word: u64) {
        self.block_mut(block)[8 * place..8 * place + 8].copy_from_slice(&word.to_le_bytes());
    }
}

/// The calls of the trace on standard input, or the status that is due.
fn read_trace() -> Result<Vec<Job>, ExitCode> {
    let mut text = Vec::new();
    let limit = LONGEST_TRACE as u64 + 1;
    io::stdin().lock().take(limit).read_to_end(&mut text).map_err(|_| ExitCode::from(5))?;
    if text.len() > LONGEST_TRACE {
        eprintln!("madfs: trace: TooLong");
        return Err(ExitCode::from(4));
    }
    jobs(&text).map_err(|line| {
        eprintln!("madfs: trace: BadLine {line}");
        ExitCode::from(4)
    })
}

fn run(name: &str) -> Result<(), ExitCode> {
    let bytes = fs::read(name).map_err(|_| ExitCode::from(5))?;
    let (image, walked) = open(bytes).map_err(|bad| {
        eprintln!("madfs: image: {bad}");
        ExitCode::from(3)
    })?;
    let jobs = read_trace()?;
    let mut engine = Engine::new(image, walked);
    let calls: Vec<Call> = jobs.into_iter().map(|job| engine.call(job)).collect();
    let text = report(&calls, engine.walked.position, engine.size());
    drop(calls);
    let mut out = io::stdout().lock();
    let written = out.write_all(&text).and_then(|()| out.flush()).and_then(|()| replace(name, &engine.image.bytes));
    written.map_err(|_| ExitCode::from(6))
}

/// Runs the trace on standard input on an image.
pub fn replay(name: &str) -> ExitCode {
    run(name).err().unwrap_or(ExitCode::SUCCESS)
}
