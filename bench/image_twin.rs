//! The plain twin of `madfs <image> mkfs <data> <log> <block bytes>`, `cat`, `dump` and `replay 1`: the same job in ordinary Rust, with
//! no proof. Built by `rustc -O`, no crates.

mod calls;
mod replay_twin;

use std::fmt;
use std::io::{BufWriter, Write};
use std::process::ExitCode;
use std::{env, fs, io};

const MAGIC: u64 = u64::from_le_bytes(*b"MADFSIM1");
const PLACES: usize = 65_536;
const MOST_POSITIONS: u64 = 1 << 40;

/// Bits `low` to `high` of a word.
fn bits(word: u64, low: u32, high: u32) -> usize {
    (word << (63 - high) >> (63 - high + low)) as usize
}

#[derive(Clone, Copy)]
struct Shape {
    data: usize,
    log: usize,
    block_bytes: usize,
}

impl Shape {
    fn new(data: usize, log: usize, block_bytes: usize) -> Option<Shape> {
        let shape = Shape { data, log, block_bytes };
        let sound = [64, 512, 4096].contains(&block_bytes) && data > 0 && log > 0;
        (sound && data < PLACES && log < PLACES && shape.total() <= 65_535).then_some(shape)
    }

    fn block_words(&self) -> usize {
        self.block_bytes / 8
    }

    fn spare(&self) -> usize {
        2 * (self.data.div_ceil(self.block_words() - 3) + 1) + 16
    }

    fn total(&self) -> usize {
        1 + self.data + self.log + self.spare()
    }

    fn bytes(&self) -> usize {
        self.total() * self.block_bytes
    }

    fn longest(&self) -> usize {
        (self.block_words() - 1).min(256)
    }

    fn limit(&self) -> usize {
        PLACES * self.block_bytes
    }

    /// Whether so many blocks from this one on are of the data area.
    fn has_data(&self, block: usize, count: usize) -> bool {
        block >= 1 && block + count <= self.data + 1
    }

    fn has_log(&self, block: usize) -> bool {
        block > self.data && block < self.total()
    }
}

enum Bad {
    Short(usize),
    Long(usize),
    Magic,
    Version(usize),
    Geometry,
    Head(u64),
    Link(usize, u64),
    Base(usize, u64),
    Entry(usize, usize, u64),
    Share(usize),
    Slack(usize),
}

impl fmt::Display for Bad {
    fn fmt(&self, f: &mut fmt::Formatter<'_>) -> fmt::Result {
        match self {
            Bad::Short(bytes) => write!(f, "Short {bytes}"),
            Bad::Long(bytes) => write!(f, "Long {bytes}"),
            Bad::Magic => write!(f, "BadMagic"),
            Bad::Version(value) => write!(f, "BadVersion {value}"),
            Bad::Geometry => write!(f, "BadGeometry"),
            Bad::Head(word) => write!(f, "BadHead {word}"),
            Bad::Link(block, word) => write!(f, "BadLink {block} {word}"),
            Bad::Base(block, word) => write!(f, "BadBase {block} {word}"),
            Bad::Entry(block, slot, word) => write!(f, "BadEntry {block} {slot} {word}"),
            Bad::Share(block) => write!(f, "BadShare {block}"),
            Bad::Slack(block) => write!(f, "BadSlack {block}"),
        }
    }
}

/// An image whose header was checked.
struct Image {
    bytes: Vec<u8>,
    shape: Shape,
}

fn word_at(bytes: &[u8], place: usize) -> u64 {
    u64::from_le_bytes(bytes[8 * place..8 * place + 8].try_into().unwrap())
}

enum Entry {
    Direct { virt: usize, block: usize, count: usize, leftover: usize },
    Indirect { block: usize },
    Seal,
}

impl Entry {
    fn of(word: u64) -> Option<Entry> {
        match word & 3 {
            1 if word >> 54 == 0 => Some(Entry::Direct {
                virt: bits(word, 2, 17),
                block: bits(word, 18, 33),
                count: bits(word, 34, 41) + 1,
                leftover: bits(word, 42, 53),
            }),
            2 if word >> 18 == 0 => Some(Entry::Indirect { block: bits(word, 2, 17) }),
            3 if word == 3 => Some(Entry::Seal),
            _ => None,
        }
    }
}

/// The words of an indirect block.
struct Spread {
    virt: usize,
    count: usize,
    leftover: usize,
    runs: Vec<(usize, usize)>,
}

impl Image {
    fn new(bytes: Vec<u8>) -> Result<Image, Bad> {
        let length = bytes.len();
        if length < 32 {
            return Err(Bad::Short(length));
        }
        let words = [0, 1, 2, 3].map(|place| word_at(&bytes, place));
        if words[0] != MAGIC {
            return Err(Bad::Magic);
        }
        if bits(words[1], 0, 15) != 1 {
            return Err(Bad::Version(bits(words[1], 0, 15)));
        }
        let power = words[1] >> 16;
        if ![6, 9, 12].contains(&power) {
            return Err(Bad::Geometry);
        }
        let shape = Shape::new(bits(words[2], 0, 31), bits(words[2], 32, 63), 1 << power).ok_or(Bad::Geometry)?;
        if length < shape.bytes() {
            return Err(Bad::Short(length));
        }
        if length > shape.bytes() {
            return Err(Bad::Long(length));
        }
        let head = words[3];
        if head >> 32 == 0 || bits(head, 16, 31) != 0 || !shape.has_log(bits(head, 0, 15)) {
            return Err(Bad::Head(head));
        }
        Ok(Image { bytes, shape })
    }

    fn block(&self, block: usize) -> &[u8] {
        &self.bytes[block * self.shape.block_bytes..(block + 1) * self.shape.block_bytes]
    }

    /// The slots of a block, from 3 on, each with its word.
    fn slots(&self, block: usize) -> impl Iterator<Item = (usize, u64)> + '_ {
        let words = self.block(block).chunks_exact(8).map(|word| u64::from_le_bytes(word.try_into().unwrap()));
        words.enumerate().skip(3)
    }

    /// What an indirect block says, or none where it breaks a rule.
    fn spread(&self, block: usize) -> Option<Spread> {
        let shape = &self.shape;
        let own = self.block(block);
        let first = word_at(own, 0);
        let (count, places) = (bits(first, 16, 31), bits(first, 32, 47));
        let sound = first >> 60 == 0 && (1..=shape.longest()).contains(&count) && (1..shape.block_words()).contains(&places);
        if !sound {
            return None;
        }
        let mut spread = Spread { virt: bits(first, 0, 15), count, leftover: bits(first, 48, 59), runs: Vec::with_capacity(places) };
        if spread.leftover >= shape.block_bytes || spread.virt + count > PLACES {
            return None;
        }
        let mut sum = 0;
        for place in 1..shape.block_words() {
            let word = word_at(own, place);
            if place > places {
                if word != 0 {
                    return None;
                }
                continue;
            }
            let (first, length) = (bits(word, 0, 15), bits(word, 16, 31));
            if word >> 32 != 0 || length == 0 || !shape.has_data(first, length) {
                return None;
            }
            sum += length;
            spread.runs.push((first, length));
        }
        (sum == count).then_some(spread)
    }
}

/// What the walk of a chain came to.
struct Walked {
    chain: Vec<usize>,
    /// The block of each virtual block, 0 for none.
    map: Vec<u16>,
    /// Whether a block is of the chain, or named by it.
    named: Vec<bool>,
    position: u64,
    size: usize,
}

impl Walked {
    fn name(&mut self, block: usize, count: usize) -> Result<(), Bad> {
        for block in block..block + count {
            if std::mem::replace(&mut self.named[block], true) {
                return Err(Bad::Share(block));
            }
        }
        Ok(())
    }

    fn lay(&mut self, virt: usize, block: usize, count: usize) {
        for place in 0..count {
            self.map[virt + place] = (block + place) as u16;
        }
    }

    /// Takes a direct entry in. `None` where it is out of range.
    fn take_direct(&mut self, shape: &Shape, virt: usize, block: usize, count: usize) -> Option<Result<(), Bad>> {
        if virt + count > PLACES || !shape.has_data(block, count) {
            return None;
        }
        let named = self.name(block, count);
        self.lay(virt, block, count);
        Some(named)
    }

    fn snapshot(&mut self, image: &Image, block: usize, count: usize) -> Result<(), Bad> {
        for (slot, word) in image.slots(block) {
            let bad = Bad::Entry(block, slot, word);
            if slot - 3 >= count {
                if word != 0 {
                    return Err(bad);
                }
                continue;
            }
            let Some(Entry::Direct { virt, block, count, leftover: 0 }) = Entry::of(word) else {
                return Err(bad);
            };
            self.take_direct(&image.shape, virt, block, count).ok_or(bad)??;
        }
        Ok(())
    }

    /// Takes the slots of a log block in, and says whether it is full or sealed.
    fn log(&mut self, image: &Image, own: usize) -> Result<bool, Bad> {
        let shape = &image.shape;
        let mut sealed = false;
        for (slot, word) in image.slots(own) {
            let bad = Bad::Entry(own, slot, word);
            if word == 0 {
                return Ok(sealed);
            }
            if sealed {
                return Err(bad);
            }
            let (virt, count, leftover) = match Entry::of(word) {
                Some(Entry::Seal) if slot > 3 => {
                    sealed = true;
                    continue;
                }
                Some(Entry::Direct { virt, block, count, leftover }) => {
                    if count > shape.longest() || leftover >= shape.block_bytes || self.position + 1 == MOST_POSITIONS {
                        return Err(bad);
                    }
                    self.take_direct(shape, virt, block, count).ok_or(bad)??;
                    (virt, count, leftover)
                }
                Some(Entry::Indirect { block }) => {
                    if !shape.has_data(block, 1) || self.position + 1 == MOST_POSITIONS {
                        return Err(bad);
                    }
                    let spread = image.spread(block).ok_or(bad)?;
                    self.name(block, 1)?;
                    let mut virt = spread.virt;
                    for (first, length) in &spread.runs {
                        self.name(*first, *length)?;
                        self.lay(virt, *first, *length);
                        virt += length;
                    }
                    (spread.virt, spread.count, spread.leftover)
                }
                _ => return Err(bad),
            };
            self.position += 1;
            self.size = self.size.max((virt + count) * shape.block_bytes - leftover);
        }
        Ok(true)
    }
}

/// Walks the chain of an image, and checks each block of it.
fn walk(image: &Image) -> Result<Walked, Bad> {
    let shape = &image.shape;
    let mut walked = Walked { chain: Vec::new(), map: vec![0; PLACES], named: vec![false; shape.total()], position: 0, size: 0 };
    let mut next = Some(bits(word_at(&image.bytes, 3), 0, 15));
    let mut in_logs = false;
    while let Some(block) = next {
        let own = image.block(block);
        let (link, second, third) = (word_at(own, 0), word_at(own, 1), word_at(own, 2));
        let (kind, base) = (second >> 62, second & (MOST_POSITIONS - 1));
        let first = walked.chain.is_empty();
        let is_snapshot = kind == 2;
        let due = (kind == 1 || (is_snapshot && !in_logs)) && bits(second, 40, 61) == 0;
        if !due || (base != walked.position && !(is_snapshot && first)) {
            return Err(Bad::Base(block, second));
        }
        walked.position = base;
        let (size, count) = (bits(third, 0, 47), bits(third, 48, 63));
        let bad_third = if is_snapshot {
            count > shape.block_words() - 3 || size > shape.limit() || (!first && size != walked.size)
        } else {
            third != 0
        };
        if bad_third {
            return Err(Bad::Base(block, third));
        }
        walked.chain.push(block);
        walked.named[block] = true;
        let follows = if is_snapshot {
            walked.size = size;
            walked.snapshot(image, block, count)?;
            true
        } else {
            in_logs = true;
            walked.log(image, block)? && link != 0
        };
        next = None;
        if follows {
            if link >= PLACES as u64 || !shape.has_log(link as usize) || walked.named[link as usize] {
                return Err(Bad::Link(block, link));
            }
            next = Some(link as usize);
        }
    }
    Ok(walked)
}

fn check_slack(image: &Image, walked: &Walked) -> Result<(), Bad> {
    let block_bytes = image.shape.block_bytes;
    for (virt, &block) in walked.map.iter().enumerate().skip(walked.size / block_bytes) {
        let past = walked.size.saturating_sub(virt * block_bytes);
        if block != 0 && image.block(usize::from(block))[past..].iter().any(|byte| *byte != 0) {
            return Err(Bad::Slack(usize::from(block)));
        }
    }
    Ok(())
}

fn open(bytes: Vec<u8>) -> Result<(Image, Walked), Bad> {
    let image = Image::new(bytes)?;
    let walked = walk(&image)?;
    check_slack(&image, &walked)?;
    Ok((image, walked))
}

fn cat(image: &Image, walked: &Walked, out: &mut impl Write) -> io::Result<()> {
    let block_bytes = image.shape.block_bytes;
    let zeros = vec![0; block_bytes];
    for (virt, &block) in walked.map.iter().enumerate().take(walked.size.div_ceil(block_bytes)) {
        let count = block_bytes.min(walked.size - virt * block_bytes);
        let content = if block == 0 { &zeros } else { image.block(usize::from(block)) };
        out.write_all(&content[..count])?;
    }
    Ok(())
}

fn dump_slot(image: &Image, slot: usize, word: u64, out: &mut impl Write) -> io::Result<()> {
    match Entry::of(word) {
        Some(Entry::Direct { virt, block, count, leftover }) => {
            writeln!(out, "slot {slot} direct virt {virt} block {block} count {count} leftover {leftover}")
        }
        Some(Entry::Indirect { block }) => {
            let spread = image.spread(block).expect("opening checked the block");
            write!(out, "slot {slot} indirect {block} virt {} count {} leftover {}", spread.virt, spread.count, spread.leftover)?;
            for (block, length) in spread.runs {
                write!(out, " run {block} {length}")?;
            }
            writeln!(out)
        }
        Some(Entry::Seal) => writeln!(out, "slot {slot} seal"),
        None => Ok(()),
    }
}

fn dump(image: &Image, walked: &Walked, out: &mut impl Write) -> io::Result<()> {
    let shape = &image.shape;
    let head = word_at(&image.bytes, 3);
    writeln!(out, "image data {} log {} spare {} block {}", shape.data, shape.log, shape.spare(), shape.block_bytes)?;
    writeln!(out, "head generation {} block {}", head >> 32, bits(head, 0, 15))?;
    for &block in &walked.chain {
        let own = image.block(block);
        let (second, third) = (word_at(own, 1), word_at(own, 2));
        let base = second & (MOST_POSITIONS - 1);
        if second >> 62 == 2 {
            writeln!(out, "snapshot {block} base {base} count {} size {}", bits(third, 48, 63), bits(third, 0, 47))?;
        } else {
            writeln!(out, "log {block} base {base}")?;
        }
        for (slot, word) in image.slots(block).take_while(|(_, word)| *word != 0) {
            dump_slot(image, slot, word, out)?;
        }
    }
    writeln!(out, "end {} {}", walked.position, walked.size)
}

/// Writes a new image beside the image's name, and puts it in its place.
fn replace(name: &str, bytes: &[u8]) -> io::Result<()> {
    let fresh = format!("{name}.new");
    fs::write(&fresh, bytes)?;
    fs::rename(fresh, name)
}

/// Makes a just-made image.
fn mkfs(name: &str, shape: &Shape, out: &mut impl Write) -> io::Result<()> {
    let mut bytes = vec![0; shape.bytes()];
    let first = shape.data + 1;
    let power = shape.block_bytes.trailing_zeros() as u64;
    let header = [MAGIC, 1 | power << 16, shape.data as u64 | (shape.log as u64) << 32, first as u64 | 1 << 32];
    for (place, word) in header.into_iter().enumerate() {
        bytes[8 * place..8 * place + 8].copy_from_slice(&word.to_le_bytes());
    }
    let second = first * shape.block_bytes + 8;
    bytes[second..second + 8].copy_from_slice(&(1u64 << 62).to_le_bytes());
    writeln!(out, "blocks {} bytes {}", shape.total(), shape.bytes())?;
    out.flush()?;
    replace(name, &bytes)
}

fn show(name: &str, command: &str) -> ExitCode {
    let Ok(bytes) = fs::read(name) else {
        return ExitCode::from(5);
    };
    let (image, walked) = match open(bytes) {
        Ok(opened) => opened,
        Err(bad) => {
            eprintln!("madfs: image: {bad}");
            return ExitCode::from(3);
        }
    };
    let mut out = BufWriter::with_capacity(1 << 16, io::stdout().lock());
    let written = if command == "cat" { cat(&image, &walked, &mut out) } else { dump(&image, &walked, &mut out) };
    match written.and_then(|()| out.flush()) {
        Ok(()) => ExitCode::SUCCESS,
        Err(_) => ExitCode::from(6),
    }
}

fn main() -> ExitCode {
    let words: Vec<String> = env::args().skip(1).collect();
    let words: Vec<&str> = words.iter().map(String::as_str).collect();
    match words.as_slice() {
        [name, command @ ("cat" | "dump")] => show(name, command),
        [name, "replay", "1"] => replay_twin::replay(name),
        [name, "mkfs", data, log, block] => {
            let parsed: Result<Vec<usize>, _> = [data, log, block].iter().map(|text| text.parse()).collect();
            let Some(shape) = parsed.ok().and_then(|number| Shape::new(number[0], number[1], number[2])) else {
                return ExitCode::from(2);
            };
            match mkfs(name, &shape, &mut io::stdout().lock()) {
                Ok(()) => ExitCode::SUCCESS,
                Err(_) => ExitCode::from(6),
            }
        }
        _ => ExitCode::from(2),
    }
}
