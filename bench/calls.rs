//! Traces and reports, for the twins of the commands that run a trace: read and printed in ordinary Rust, with no proof.

use std::io::Write;

/// What a call asks.
pub enum Op {
    Pwrite { offset: u64, bytes: Vec<u8> },
    Pread { offset: u64, length: u64 },
}

/// A call that a line of a trace asks.
pub struct Job {
    pub number: u32,
    pub op: Op,
}

/// What a call is answered.
pub enum Reply {
    Wrote(u64),
    TooLong(u64),
    TooLarge(u128),
    PositionLimit,
    NoSpace(&'static str),
    Bytes(Vec<u8>),
}

/// A call that was made.
pub struct Call {
    pub position: u64,
    pub number: u32,
    pub op: Op,
    pub reply: Reply,
}

fn number(text: &[u8]) -> Option<u64> {
    if text.is_empty() {
        return None;
    }
    let mut value = 0u64;
    for digit in text {
        if !digit.is_ascii_digit() {
            return None;
        }
        value = value.checked_mul(10)?.checked_add(u64::from(digit - b'0'))?;
    }
    Some(value)
}

/// The value of each hexadecimal digit, in either case, and 255 for every other character.
const VALUES: [u8; 256] = {
    let mut values = [255; 256];
    let mut value = 0;
    while value < 16 {
        values[DIGITS[value] as usize] = value as u8;
        values[DIGITS[value].to_ascii_uppercase() as usize] = value as u8;
        value += 1;
    }
    values
};

const DIGITS: &[u8; 16] = b"0123456789abcdef";

fn bytes(text: &[u8]) -> Option<Vec<u8>> {
    if text == b"-" {
        return Some(Vec::new());
    }
    if text.is_empty() || text.len() % 2 != 0 {
        return None;
    }
    let mut seen = 0;
    let bytes = text.chunks_exact(2).map(|pair| {
        let (high, low) = (VALUES[usize::from(pair[0])], VALUES[usize::from(pair[1])]);
        seen |= high | low;
        high << 4 | low
    });
    let bytes = bytes.collect();
    (seen < 16).then_some(bytes)
}

/// The call of a line, or none where it is passed over.
fn job(line: &[u8]) -> Result<Option<Op>, ()> {
    let mut fields = line.split(|b| *b == b' ' || *b == b'\t').filter(|field| !field.is_empty());
    let Some(seat) = fields.next().filter(|field| field[0] != b'#') else {
        return Ok(None);
    };
    let name = fields.next().ok_or(())?;
    let (offset, last) = (fields.next().ok_or(())?, fields.next().ok_or(())?);
    if fields.next().is_some() || number(seat) != Some(0) {
        return Err(());
    }
    let offset = number(offset).ok_or(())?;
    match name {
        b"pwrite" => Ok(Some(Op::Pwrite { offset, bytes: bytes(last).ok_or(())? })),
        b"pread" => {
            let length = number(last).filter(|length| *length <= 1_048_576).ok_or(())?;
            Ok(Some(Op::Pread { offset, length }))
        }
        _ => Err(()),
    }
}

/// The calls of a trace, or the number of its first bad line.
pub fn jobs(text: &[u8]) -> Result<Vec<Job>, u64> {
    let mut jobs = Vec::new();
    let mut rest = text;
    let mut total = 0u64;
    let mut line = 0;
    while !rest.is_empty() {
        line += 1;
        let end = rest.iter().position(|b| *b == b'\n');
        let text = match end {
            Some(end) => rest[..end].strip_suffix(b"\r").unwrap_or(&rest[..end]),
            None => rest,
        };
        rest = end.map_or(&[], |end| &rest[end + 1..]);
        let Some(op) = job(text).map_err(|()| line)? else {
            continue;
        };
        if let Op::Pread { length, .. } = op {
            total += length;
            if total > 268_435_456 {
                return Err(line);
            }
        }
        jobs.push(Job { number: jobs.len() as u32 + 1, op });
    }
    Ok(jobs)
}

fn hex(out: &mut Vec<u8>, bytes: &[u8]) {
    if bytes.is_empty() {
        out.push(b'-');
    }
    let start = out.len();
    out.resize(start + 2 * bytes.len(), 0);
    for (pair, byte) in out[start..].chunks_exact_mut(2).zip(bytes) {
        pair[0] = DIGITS[usize::from(byte >> 4)];
        pair[1] = DIGITS[usize::from(byte & 15)];
    }
}

/// The report of calls of one seat, in their order.
pub fn report(calls: &[Call], position: u64, size: usize) -> Vec<u8> {
    let mut out = Vec::new();
    for call in calls {
        write!(out, "{} 0 {} ", call.position, call.number).unwrap();
        match &call.op {
            Op::Pwrite { offset, bytes } => write!(out, "pwrite {offset} {} = ", bytes.len()).unwrap(),
            Op::Pread { offset, length } => write!(out, "pread {offset} {length} = ").unwrap(),
        }
        match &call.reply {
            Reply::Wrote(length) => write!(out, "{length}").unwrap(),
            Reply::TooLong(blocks) => write!(out, "TooLong {blocks}").unwrap(),
            Reply::TooLarge(end) => write!(out, "TooLarge {end}").unwrap(),
            Reply::PositionLimit => write!(out, "PositionLimit").unwrap(),
            Reply::NoSpace(area) => write!(out, "NoSpace {area}").unwrap(),
            Reply::Bytes(bytes) => hex(&mut out, bytes),
        }
        out.push(b'\n');
    }
    writeln!(out, "end {position} {size}").unwrap();
    out
}
