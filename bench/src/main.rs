//! `plain`: the plain heap behind the shell's protocol. Reads requests from standard input, answers on standard output.

use heap::{get_order, Heap, PageInfo, Refusal, Region, Word, MAX_ORDER, NO_PAGE};
use std::io::{self, ErrorKind, Read, Write};

/// The longest line that is read, its newline not counted; a longer one answers `bad`.
const MAX_LINE: usize = 200;
const MAX_WORDS: u64 = 8192;
const MAX_PARTS: usize = 4;

/// A line that is no request.
struct Bad;

impl From<io::Error> for Bad {
    fn from(_: io::Error) -> Bad {
        unreachable!("writing to a Vec does not fail")
    }
}

struct Shell {
    region: Region,
    words: Vec<u64>,
}

fn number(part: &[u8]) -> Result<u64, Bad> {
    if part.is_empty() || part.len() > 20 || !part.iter().all(u8::is_ascii_digit) {
        return Err(Bad);
    }
    let digits = std::str::from_utf8(part).map_err(|_| Bad)?;
    digits.parse().map_err(|_| Bad)
}

fn hexadecimal(part: &[u8]) -> Result<u64, Bad> {
    if part.is_empty() || part.len() > 16 {
        return Err(Bad);
    }
    part.iter().try_fold(0, |value, digit| match digit {
        b'0'..=b'9' => Ok(value << 4 | u64::from(digit - b'0')),
        b'a'..=b'f' => Ok(value << 4 | u64::from(digit - b'a' + 10)),
        _ => Err(Bad),
    })
}

fn is_blank(byte: &u8) -> bool {
    matches!(byte, b' ' | b'\t' | b'\n' | b'\r' | 0x0b | 0x0c)
}

/// The 64-bit FNV-1a hash of the words' little-endian bytes.
fn fnv1a(words: &[u64]) -> u64 {
    words
        .iter()
        .flat_map(|word| word.to_le_bytes())
        .fold(0xcbf2_9ce4_8422_2325, |hash, byte| (hash ^ u64::from(byte)).wrapping_mul(0x100_0000_01b3))
}

struct PageOrNone(u64);

impl std::fmt::Display for PageOrNone {
    fn fmt(&self, f: &mut std::fmt::Formatter<'_>) -> std::fmt::Result {
        match self.0 {
            NO_PAGE => f.write_str("-"),
            page => page.fmt(f),
        }
    }
}

/// Writes `ok` and what `values` adds, or the refusal.
fn reply<T>(
    out: &mut Vec<u8>,
    answer: Result<T, Refusal>,
    values: impl FnOnce(&mut Vec<u8>, T) -> io::Result<()>,
) -> Result<(), Bad> {
    match answer {
        Ok(value) => {
            out.extend_from_slice(b"ok");
            values(out, value)?;
            out.push(b'\n');
        }
        Err(refusal) => match refusal.parts() {
            (number, None) => writeln!(out, "no {number}")?,
            (number, Some(value)) => writeln!(out, "no {number} {value}")?,
        },
    }
    Ok(())
}

fn one(out: &mut Vec<u8>, value: u64) -> io::Result<()> {
    write!(out, " {value}")
}

fn none(_: &mut Vec<u8>, (): ()) -> io::Result<()> {
    Ok(())
}

impl Shell {
    fn heap(&mut self) -> Heap<'_> {
        Heap::new(&mut self.region, &mut self.words)
    }

    /// Answers one line, or says that it is no request and changes nothing.
    fn answer(&mut self, line: &[u8], out: &mut Vec<u8>) -> Result<(), Bad> {
        let mut parts: [&[u8]; MAX_PARTS] = [&[]; MAX_PARTS];
        let mut count = 0;
        for part in line.split(is_blank).filter(|part| !part.is_empty()) {
            *parts.get_mut(count).ok_or(Bad)? = part;
            count += 1;
        }
        match (parts[0], &parts[1..count.max(1)]) {
            (b"words", [count]) => self.lend(number(count)?, out),
            (b"setup", [start, pages, boot]) => {
                let (start, pages, boot) = (number(start)?, number(pages)?, number(boot)?);
                reply(out, self.heap().setup(start, pages, boot), none)
            }
            (b"alloc", [order]) => reply(out, self.heap().allocate(number(order)?), one),
            (b"file", []) => reply(out, self.heap().allocate_file(), one),
            (b"slab", [item]) => reply(out, self.heap().allocate_slab(number(item)?), one),
            (b"free", [address]) => reply(out, self.heap().free(number(address)?), none),
            (b"get", [address]) => reply(out, self.heap().get(number(address)?), one),
            (b"put", [address]) => reply(out, self.heap().put(number(address)?), one),
            (b"lookup", [address]) => {
                let answer = self.heap().lookup(number(address)?);
                reply(out, answer, |out, (size, align)| write!(out, " {size} {align}"))
            }
            (b"report", []) => reply(out, self.heap().report(), |out, (blocks, free)| {
                blocks.iter().chain(&free).try_for_each(|count| write!(out, " {count}"))
            }),
            (b"audit", []) => reply(out, self.heap().audit(), none),
            (b"print", []) => self.print(out),
            (b"lists", []) => self.lists(out),
            (b"state", []) => self.state(out),
            (b"word", [index]) => {
                match self.word_at(number(index)?) {
                    Some(word) => writeln!(out, "{word:x}")?,
                    None => writeln!(out, "out")?,
                }
                Ok(())
            }
            (b"poke", [index, word]) => {
                let (index, word) = (number(index)?, hexadecimal(word)?);
                match self.word_at(index) {
                    Some(place) => {
                        *place = word;
                        writeln!(out, "ok")?;
                    }
                    None => writeln!(out, "out")?,
                }
                Ok(())
            }
            (b"field", [name, index, value]) => {
                *self.field(name, number(index)?)? = number(value)?;
                writeln!(out, "ok")?;
                Ok(())
            }
            (b"encode", [kind, a, b]) => {
                match Word::encode(number(kind)?, number(a)?, number(b)?) {
                    Some(word) => writeln!(out, "ok {:x}", word.0)?,
                    None => writeln!(out, "no")?,
                }
                Ok(())
            }
            (b"decode", [word]) => {
                match Word(hexadecimal(word)?).decode() {
                    Some(PageInfo::Free { order, next }) => writeln!(out, "free {order} {}", PageOrNone(next))?,
                    Some(PageInfo::Allocated { order }) => writeln!(out, "allocated {order}")?,
                    Some(PageInfo::Slab { item }) => writeln!(out, "slab {item}")?,
                    Some(PageInfo::Compound { order }) => writeln!(out, "compound {order}")?,
                    Some(PageInfo::File { count }) => writeln!(out, "file {count}")?,
                    Some(PageInfo::Reserved) => writeln!(out, "reserved")?,
                    None => writeln!(out, "no")?,
                }
                Ok(())
            }
            (b"order", [size]) => {
                writeln!(out, "ok {}", get_order(number(size)?))?;
                Ok(())
            }
            _ => Err(Bad),
        }
    }

    fn lend(&mut self, count: u64, out: &mut Vec<u8>) -> Result<(), Bad> {
        if count > MAX_WORDS {
            return Err(Bad);
        }
        self.words.clear();
        self.words.resize(count as usize, Word::RESERVED.0);
        self.region = Region::EMPTY;
        writeln!(out, "ok")?;
        Ok(())
    }

    fn word_at(&mut self, index: u64) -> Option<&mut u64> {
        self.words.get_mut(usize::try_from(index).ok()?)
    }

    fn field(&mut self, name: &[u8], index: u64) -> Result<&mut u64, Bad> {
        let region = &mut self.region;
        match (name, index) {
            (b"nr", 0..=5) => Ok(&mut region.nr_pages[index as usize]),
            (b"free", 0..=5) => Ok(&mut region.free_pages[index as usize]),
            (b"head", 0..=5) => Ok(&mut region.next_page[index as usize]),
            (b"start", 0) => Ok(&mut region.start),
            (b"pages", 0) => Ok(&mut region.page_count),
            (b"boot", 0) => Ok(&mut region.allocated),
            _ => Err(Bad),
        }
    }

    fn print(&mut self, out: &mut Vec<u8>) -> Result<(), Bad> {
        let (blocks, free) = match self.heap().report() {
            Ok(counts) => counts,
            Err(refusal) => return reply(out, Err(refusal), none),
        };
        for order in 0..MAX_ORDER {
            let (blocks, free) = (blocks[order], free[order]);
            writeln!(out, "Order-{order:02}: total pages: {blocks:5} free pages: {free:5}")?;
        }
        let kib =
            |counts: [u64; MAX_ORDER]| -> u64 { (0..MAX_ORDER).map(|order| counts[order] * (4 << order)).sum() };
        writeln!(out, "Total memory: {}KiB free memory: {}KiB", kib(blocks), kib(free))?;
        Ok(())
    }

    fn lists(&mut self, out: &mut Vec<u8>) -> Result<(), Bad> {
        let heap = self.heap();
        if let Err(refusal) = heap.audit() {
            return reply(out, Err(refusal), none);
        }
        for order in 0..MAX_ORDER {
            write!(out, "list {order}:")?;
            for page in heap.list(order) {
                write!(out, " {page}")?;
            }
            out.push(b'\n');
        }
        Ok(())
    }

    fn state(&mut self, out: &mut Vec<u8>) -> Result<(), Bad> {
        let region = &self.region;
        write!(out, "{} {} {} |", region.start, region.page_count, region.allocated)?;
        for counts in [region.nr_pages, region.free_pages] {
            for count in counts {
                write!(out, " {count}")?;
            }
            out.extend_from_slice(b" |");
        }
        for head in region.next_page {
            write!(out, " {}", PageOrNone(head))?;
        }
        writeln!(out, " | {:016x}", fnv1a(&self.words))?;
        Ok(())
    }
}

/// Cuts the input into lines of bounded length and answers each.
struct Session {
    shell: Shell,
    /// What came of the current line, up to one byte beyond the longest.
    line: Vec<u8>,
    out: Vec<u8>,
}

impl Session {
    fn take(&mut self, mut chunk: &[u8]) {
        while let Some(end) = chunk.iter().position(|&byte| byte == b'\n') {
            self.grow(&chunk[..end]);
            self.finish();
            chunk = &chunk[end + 1..];
        }
        self.grow(chunk);
    }

    fn grow(&mut self, piece: &[u8]) {
        let room = MAX_LINE + 1 - self.line.len();
        self.line.extend_from_slice(&piece[..piece.len().min(room)]);
    }

    fn finish(&mut self) {
        let fits = self.line.len() <= MAX_LINE;
        if !fits || self.shell.answer(&self.line, &mut self.out).is_err() {
            self.out.extend_from_slice(b"bad\n");
        }
        self.line.clear();
    }

    fn flush(&mut self) -> io::Result<()> {
        let mut stdout = io::stdout().lock();
        stdout.write_all(&self.out)?;
        stdout.flush()?;
        self.out.clear();
        Ok(())
    }
}

fn main() -> io::Result<()> {
    if std::env::args().len() > 1 {
        println!("usage: plain < SCRIPT > ANSWERS\n\nThe plain Rust heap behind the shell's protocol.");
        return Ok(());
    }
    let shell = Shell { region: Region::EMPTY, words: Vec::new() };
    let mut session = Session { shell, line: Vec::new(), out: Vec::new() };
    let mut stdin = io::stdin().lock();
    let mut chunk = vec![0; 1 << 16];
    loop {
        match stdin.read(&mut chunk) {
            Ok(0) => break,
            Ok(length) => session.take(&chunk[..length]),
            Err(error) if error.kind() == ErrorKind::Interrupted => continue,
            Err(error) => return Err(error),
        }
        session.flush()?;
    }
    if !session.line.is_empty() {
        session.finish();
    }
    session.flush()
}
