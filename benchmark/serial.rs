//! An ordinary serial server over `BTreeMap`s, unproved: what `waffd plain` is measured against.
//! It gives the same bytes for the same input, at the default geometry; another one is given when this is compiled, by
//! the environment (AGGREGATES=4 VOLUMES=8 ..). benchmark/serve/server.rs takes its messages from here.

use std::collections::{BTreeMap, BTreeSet};
use std::io::{self, BufRead, BufReader, BufWriter, Write};

const AGGREGATES: u16 = chosen(option_env!("AGGREGATES"), 1);
const VOLUMES: u16 = chosen(option_env!("VOLUMES"), 4);
const STRIPES: u16 = chosen(option_env!("STRIPES"), 4);
const WIDTH: u16 = chosen(option_env!("WIDTH"), 4);
const FILES: u16 = chosen(option_env!("FILES"), 16);
const BLOCKS: u16 = chosen(option_env!("BLOCKS"), 64);
const QUOTA: u16 = chosen(option_env!("QUOTA"), 64);

const fn chosen(said: Option<&str>, otherwise: u16) -> u16 {
    let Some(digits) = said else {
        return otherwise;
    };
    let mut value = 0;
    let mut i = 0;
    while i < digits.len() {
        value = value * 10 + (digits.as_bytes()[i] - b'0') as u16;
        i += 1;
    }
    value
}

#[derive(Default)]
pub struct Server {
    made: BTreeSet<(u16, u16)>,
    sealed: BTreeSet<(u16, u16)>,
    labels: BTreeMap<(u16, u16), [u8; 32]>,
    files: BTreeSet<(u16, u16, u16)>,
    blocks: BTreeMap<(u16, u16, u16, u16), [u8; 512]>,
    used: BTreeMap<(u16, u16, usize), u16>,
}

fn number(word: &[u8]) -> Option<u16> {
    if word.is_empty() || word.len() > 5 || (word.len() > 1 && word[0] == b'0') {
        return None;
    }
    let mut value = 0u32;
    for digit in word {
        if !digit.is_ascii_digit() {
            return None;
        }
        value = value * 10 + u32::from(digit - b'0');
    }
    u16::try_from(value).ok()
}

/// The value of each byte as a hexadecimal digit, and `NO_DIGIT` where it is none.
static DIGITS: [u8; 256] = digits();

const NO_DIGIT: u8 = 255;

const fn digits() -> [u8; 256] {
    let mut values = [NO_DIGIT; 256];
    let mut value = 0;
    while value < 16 {
        let digit = b"0123456789abcdef"[value];
        values[digit as usize] = value as u8;
        values[digit.to_ascii_uppercase() as usize] = value as u8;
        value += 1;
    }
    values
}

fn bytes<const N: usize>(word: &[u8]) -> Option<[u8; N]> {
    if word.len() % 2 != 0 || word.len() < 2 || word.len() > 2 * N {
        return None;
    }
    let mut block = [0; N];
    let mut all = 0;
    for (byte, pair) in block.iter_mut().zip(word.chunks_exact(2)) {
        let (high, low) = (DIGITS[usize::from(pair[0])], DIGITS[usize::from(pair[1])]);
        all |= high | low;
        *byte = high << 4 | low;
    }
    (all < 16).then_some(block)
}

/// The numbers that the words give, where there are just so many.
pub fn numbers<'a, const N: usize>(words: &mut impl Iterator<Item = &'a [u8]>) -> Option<[u16; N]> {
    let mut all = [0; N];
    for n in &mut all {
        *n = number(words.next()?)?;
    }
    Some(all)
}

type Refusal = &'static [u8];

/// A keyword and bytes as digits, up to the last byte that isn't 0.
fn shown(keyword: &[u8], content: &[u8], out: &mut impl Write) -> io::Result<()> {
    let len = content.iter().rposition(|x| *x != 0).map_or(1, |i| i + 1);
    let mut text = [0; 1031];
    let mut at = keyword.len();
    text[..at].copy_from_slice(keyword);
    for byte in &content[..len] {
        text[at] = b"0123456789abcdef"[usize::from(byte >> 4)];
        text[at + 1] = b"0123456789abcdef"[usize::from(byte & 15)];
        at += 2;
    }
    text[at] = b'\n';
    out.write_all(&text[..at + 1])
}

impl Server {
    fn volume(&self, [a, v]: [u16; 2]) -> Result<(), Refusal> {
        if a >= AGGREGATES || v >= VOLUMES {
            return Err(b"error range\n");
        }
        if !self.made.contains(&(a, v)) {
            return Err(b"error volume\n");
        }
        Ok(())
    }

    fn open_volume(&self, [a, v]: [u16; 2]) -> Result<(), Refusal> {
        self.volume([a, v])?;
        if self.sealed.contains(&(a, v)) {
            return Err(b"error sealed\n");
        }
        Ok(())
    }

    fn file(&self, [a, v, f]: [u16; 3]) -> Result<(), Refusal> {
        if f >= FILES {
            return Err(b"error range\n");
        }
        self.open_volume([a, v])?;
        if !self.files.contains(&(a, v, f)) {
            return Err(b"error file\n");
        }
        Ok(())
    }

    fn make_volume(&mut self, [a, v]: [u16; 2]) -> Result<(), Refusal> {
        if a >= AGGREGATES || v >= VOLUMES {
            return Err(b"error range\n");
        }
        if !self.made.insert((a, v)) {
            return Err(b"error exists\n");
        }
        self.labels.insert((a, v), [0; 32]);
        Ok(())
    }

    fn drop_volume(&mut self, [a, v]: [u16; 2]) -> Result<(), Refusal> {
        self.open_volume([a, v])?;
        let blocks: Vec<_> = self.blocks.range((a, v, 0, 0)..(a, v + 1, 0, 0)).map(|e| *e.0).collect();
        for key in blocks {
            self.clear(key);
        }
        let files: Vec<_> = self.files.range((a, v, 0)..(a, v + 1, 0)).copied().collect();
        for key in files {
            self.files.remove(&key);
        }
        self.made.remove(&(a, v));
        self.labels.remove(&(a, v));
        Ok(())
    }

    fn seal(&mut self, [a, v]: [u16; 2]) -> Result<(), Refusal> {
        self.volume([a, v])?;
        self.sealed.insert((a, v));
        Ok(())
    }

    fn unseal(&mut self, [a, v]: [u16; 2]) -> Result<(), Refusal> {
        self.volume([a, v])?;
        self.sealed.remove(&(a, v));
        Ok(())
    }

    fn set_label(&mut self, [a, v]: [u16; 2], label: [u8; 32]) -> Result<(), Refusal> {
        self.open_volume([a, v])?;
        self.labels.insert((a, v), label);
        Ok(())
    }

    fn create(&mut self, [a, v, f]: [u16; 3]) -> Result<(), Refusal> {
        if f >= FILES {
            return Err(b"error range\n");
        }
        self.open_volume([a, v])?;
        if !self.files.insert((a, v, f)) {
            return Err(b"error exists\n");
        }
        Ok(())
    }

    fn delete(&mut self, [a, v, f]: [u16; 3]) -> Result<(), Refusal> {
        self.file([a, v, f])?;
        let blocks: Vec<_> = self.blocks.range((a, v, f, 0)..(a, v, f + 1, 0)).map(|e| *e.0).collect();
        for key in blocks {
            self.clear(key);
        }
        self.files.remove(&(a, v, f));
        Ok(())
    }

    fn clear(&mut self, (a, v, f, b): (u16, u16, u16, u16)) {
        if self.blocks.remove(&(a, v, f, b)).is_some() {
            *self.used.entry((a, v, stripe_of(f, b))).or_insert(1) -= 1;
        }
    }

    fn write(&mut self, [a, v, f, b]: [u16; 4], content: [u8; 512]) -> Result<(), Refusal> {
        if b >= BLOCKS {
            return Err(b"error range\n");
        }
        self.file([a, v, f])?;
        let used = self.used.entry((a, v, stripe_of(f, b))).or_insert(0);
        if !self.blocks.contains_key(&(a, v, f, b)) {
            if *used >= QUOTA {
                return Err(b"error space\n");
            }
            *used += 1;
        }
        self.blocks.insert((a, v, f, b), content);
        Ok(())
    }

    fn punch(&mut self, [a, v, f, b]: [u16; 4]) -> Result<(), Refusal> {
        if b >= BLOCKS {
            return Err(b"error range\n");
        }
        self.file([a, v, f])?;
        self.clear((a, v, f, b));
        Ok(())
    }

    fn read(&self, [a, v, f, b]: [u16; 4], out: &mut impl Write) -> io::Result<()> {
        let found = if f >= FILES || b >= BLOCKS {
            Err(b"error range\n".as_slice())
        } else {
            self.volume([a, v])
        };
        if let Err(refusal) = found {
            return out.write_all(refusal);
        }
        if !self.files.contains(&(a, v, f)) {
            return out.write_all(b"error file\n");
        }
        match self.blocks.get(&(a, v, f, b)) {
            Some(content) => shown(b"block ", content, out),
            None => out.write_all(b"hole\n"),
        }
    }

    /// `list`, `usage` and `label`, which ask of a volume.
    fn ask(&self, keyword: &[u8], [a, v]: [u16; 2], out: &mut impl Write) -> io::Result<()> {
        if let Err(refusal) = self.volume([a, v]) {
            return out.write_all(refusal);
        }
        let files = self.files.range((a, v, 0)..(a, v + 1, 0));
        match keyword {
            b"list" => {
                out.write_all(b"files")?;
                for (_, _, f) in files {
                    write!(out, " {f}")?;
                }
                out.write_all(b"\n")
            }
            b"usage" => {
                let blocks: u16 = self.used.range((a, v, 0)..(a, v + 1, 0)).map(|e| *e.1).sum();
                let state = if self.sealed.contains(&(a, v)) { "sealed" } else { "open" };
                writeln!(out, "usage {} {blocks} {state}", files.count())
            }
            _ => shown(b"label ", &self.labels[&(a, v)], out),
        }
    }

    fn summary(&self, out: &mut impl Write) -> io::Result<()> {
        writeln!(out, "summary {} {} {}", self.made.len(), self.files.len(), self.blocks.len())
    }

    /// Carries out a message that changes something; `None` where the words are no such message.
    fn change<'a>(&mut self, keyword: &[u8], words: &mut impl Iterator<Item = &'a [u8]>) -> Option<Result<(), Refusal>> {
        match keyword {
            b"makevol" => only(words).map(|n| self.make_volume(n)),
            b"dropvol" => only(words).map(|n| self.drop_volume(n)),
            b"create" => only(words).map(|n| self.create(n)),
            b"delete" => only(words).map(|n| self.delete(n)),
            b"punch" => only(words).map(|n| self.punch(n)),
            b"seal" => only(words).map(|n| self.seal(n)),
            b"unseal" => only(words).map(|n| self.unseal(n)),
            b"write" => {
                let n = numbers(words)?;
                let content = bytes(words.next()?)?;
                words.next().is_none().then(|| self.write(n, content))
            }
            b"setlabel" => {
                let n = numbers(words)?;
                let label = bytes(words.next()?)?;
                words.next().is_none().then(|| self.set_label(n, label))
            }
            _ => None,
        }
    }

    pub fn answer(&mut self, line: &[u8], out: &mut impl Write) -> io::Result<()> {
        let mut words = line.split(|c| *c == b' ');
        let keyword = words.next().unwrap_or(b"");
        match keyword {
            b"read" => {
                if let Some(n) = only(&mut words) {
                    return self.read(n, out);
                }
            }
            b"list" | b"usage" | b"label" => {
                if let Some(n) = only(&mut words) {
                    return self.ask(keyword, n, out);
                }
            }
            b"summary" => {
                if words.next().is_none() {
                    return self.summary(out);
                }
            }
            _ => {
                if let Some(end) = self.change(keyword, &mut words) {
                    return out.write_all(end.err().unwrap_or(b"done\n"));
                }
            }
        }
        out.write_all(b"error line\n")
    }
}

/// The numbers, where no further word follows.
fn only<'a, const N: usize>(words: &mut impl Iterator<Item = &'a [u8]>) -> Option<[u16; N]> {
    let n = numbers(words)?;
    words.next().is_none().then_some(n)
}

/// The stripe of its volume on which a block lies.
pub fn stripe_of(f: u16, b: u16) -> usize {
    usize::from((f + b / WIDTH) % STRIPES)
}

/// The number of a volume among those of all aggregates, where there is such a volume.
pub fn volume_number(a: u16, v: u16) -> Option<usize> {
    (a < AGGREGATES && v < VOLUMES).then(|| usize::from(a * VOLUMES + v))
}

/// How many volumes there can be, and how many stripes each has.
pub const SIZES: [usize; 2] = [(AGGREGATES * VOLUMES) as usize, STRIPES as usize];

fn main() -> io::Result<()> {
    let mut input = BufReader::with_capacity(1 << 16, io::stdin().lock());
    let mut out = BufWriter::with_capacity(1 << 16, io::stdout().lock());
    let mut server = Server::default();
    let mut line = Vec::new();
    while input.read_until(b'\n', &mut line)? > 0 {
        if line.last() == Some(&b'\n') {
            line.pop();
        }
        if line.len() > 1100 {
            out.write_all(b"error line\n")?;
        } else {
            server.answer(&line, &mut out)?;
        }
        line.clear();
    }
    out.flush()
}
