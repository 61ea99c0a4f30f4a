//! An ordinary durable server, unproved: what `waffd serve` is measured beside. It has its messages of
//! benchmark/serial.rs, and a log of the lines that changed something, which it reads again at its start. It takes as
//! many lines as may be outstanding, as far as they are there, runs them, makes one write and one sync of the changes
//! among them, and replies. It makes no checkpoints, so its log holds all changes.
//!
//!     server make LOG BYTES          makes a log for so many bytes
//!     server batch LOG LINES         serves with so many outstanding lines
//!     server once LOG LINES          the same, but a change keeps its stripe until it is logged
//!     server twice LOG LINES         the same, and the head of a batch is written and synced behind its lines, as
//!                                    `waffd` does with its records and gates
//!     server floor DEVICE            what opening a device has to do at least: microseconds of reading half of it,
//!                                    writing that back, and five syncs

#[path = "../serial.rs"]
#[allow(dead_code)] // the serial server has words and a `main` of its own
mod serial;

use serial::{SIZES, Server, numbers, stripe_of, volume_number};
use std::collections::VecDeque;
use std::fs::{File, OpenOptions};
use std::io::{self, BufRead, BufReader, BufWriter, Read, Stdin, StdoutLock, Write};
use std::os::unix::fs::FileExt;
use std::time::Instant;

/// How many bytes of a batch have its length and its sum.
const HEAD: usize = 16;

struct Log {
    file: File,
    at: u64,
    size: u64,
    batch: Vec<u8>,
    /// Whether the head of a batch is written behind its lines, each with a sync of its own.
    is_twice: bool,
}

/// A checksum, by which a batch that is not whole is known.
fn sum(bytes: &[u8]) -> [u8; 8] {
    let mut sum = 0x9e37_79b9_7f4a_7c15u64;
    for chunk in bytes.chunks(8) {
        let mut word = [0; 8];
        word[..chunk.len()].copy_from_slice(chunk);
        sum = (sum ^ u64::from_le_bytes(word)).wrapping_mul(0xff51_afd7_ed55_8ccd).rotate_left(29);
    }
    sum.to_le_bytes()
}

impl Log {
    /// Opens a log, and runs what it holds.
    fn open(path: &str, server: &mut Server) -> io::Result<Log> {
        let file = OpenOptions::new().read(true).write(true).open(path)?;
        let size = file.metadata()?.len();
        let mut log = Log { file, at: 0, size, batch: Vec::new(), is_twice: false };
        while log.read_batch()? {
            for line in log.batch[HEAD..].split(|byte| *byte == b'\n') {
                server.answer(line, &mut io::sink())?;
            }
            log.at += log.batch.len() as u64;
        }
        log.begin();
        Ok(log)
    }

    /// Reads the next batch: whether there is one that is whole.
    fn read_batch(&mut self) -> io::Result<bool> {
        let mut head = [0; HEAD];
        if self.at + HEAD as u64 > self.size {
            return Ok(false);
        }
        self.file.read_exact_at(&mut head, self.at)?;
        let len = u64::from_le_bytes(head[..8].try_into().unwrap());
        if len == 0 || len > self.size - self.at - HEAD as u64 {
            return Ok(false);
        }
        self.batch.resize(HEAD + len as usize, 0);
        self.file.read_exact_at(&mut self.batch, self.at)?;
        Ok(self.batch[8..HEAD] == sum(&self.batch[HEAD..]))
    }

    fn begin(&mut self) {
        self.batch.clear();
        self.batch.resize(HEAD, 0);
    }

    fn add(&mut self, line: &[u8]) {
        self.batch.extend_from_slice(line);
        self.batch.push(b'\n');
    }

    /// Writes and syncs what was added: whether there was anything.
    fn commit(&mut self) -> io::Result<bool> {
        if self.batch.len() == HEAD {
            return Ok(false);
        }
        if self.batch.len() as u64 > self.size - self.at {
            return Err(io::Error::other("the log is full"));
        }
        let sum = sum(&self.batch[HEAD..]);
        let len = (self.batch.len() - HEAD) as u64;
        self.batch[..8].copy_from_slice(&len.to_le_bytes());
        self.batch[8..HEAD].copy_from_slice(&sum);
        if self.is_twice {
            self.file.write_all_at(&self.batch[HEAD..], self.at + HEAD as u64)?;
            self.file.sync_data()?;
            self.file.write_all_at(&self.batch[..HEAD], self.at)?;
        } else {
            self.file.write_all_at(&self.batch, self.at)?;
        }
        self.file.sync_data()?;
        self.at += self.batch.len() as u64;
        self.begin();
        Ok(true)
    }
}

struct Ends {
    input: BufReader<Stdin>,
    out: BufWriter<StdoutLock<'static>>,
}

impl Ends {
    fn has_line(&self) -> bool {
        self.input.buffer().contains(&b'\n')
    }

    /// The next line, if there is one. Before a read that may wait all replies are written.
    fn next(&mut self, line: &mut Vec<u8>) -> io::Result<bool> {
        if !self.has_line() {
            self.out.flush()?;
        }
        line.clear();
        self.input.read_until(b'\n', line)?;
        if line.last() == Some(&b'\n') {
            line.pop();
            return Ok(true);
        }
        Ok(!line.is_empty())
    }
}

/// Answers a line, and adds it to the log where it has changed something: whether it has.
fn carry_out(server: &mut Server, log: &mut Log, line: &[u8], reply: &mut Vec<u8>) -> io::Result<bool> {
    let from = reply.len();
    if line.len() > 1100 {
        reply.extend_from_slice(b"error line\n");
    } else {
        server.answer(line, reply)?;
    }
    let has_changed = reply[from..] == *b"done\n";
    if has_changed {
        log.add(line);
    }
    Ok(has_changed)
}

fn serve_batches(server: &mut Server, log: &mut Log, ends: &mut Ends, open: usize) -> io::Result<()> {
    let (mut line, mut replies) = (Vec::new(), Vec::new());
    while ends.next(&mut line)? {
        carry_out(server, log, &line, &mut replies)?;
        for _ in 1..open {
            if !ends.has_line() || !ends.next(&mut line)? {
                break;
            }
            carry_out(server, log, &line, &mut replies)?;
        }
        let has_synced = log.commit()?;
        ends.out.write_all(&replies)?;
        replies.clear();
        if has_synced {
            ends.out.flush()?;
        }
    }
    ends.out.flush()
}

/// What a line works on.
#[derive(Clone, Copy)]
enum Place {
    None,
    Stripe(usize, usize),
    Volume(usize),
    All,
}

fn place_of(line: &[u8]) -> Place {
    let mut words = line.split(|byte| *byte == b' ');
    let place = match words.next().unwrap_or_default() {
        b"summary" => Some(Place::All),
        b"write" | b"read" | b"punch" => numbers::<4>(&mut words)
            .and_then(|[a, v, f, b]| Some(Place::Stripe(volume_number(a, v)?, stripe_of(f, b)))),
        _ => numbers::<2>(&mut words).and_then(|[a, v]| Some(Place::Volume(volume_number(a, v)?))),
    };
    place.unwrap_or(Place::None)
}

/// What may not be worked on before the next sync.
struct Kept {
    some: bool,
    all: bool,
    some_of_volume: Vec<bool>,
    volumes: Vec<bool>,
    stripes: Vec<bool>,
}

impl Kept {
    fn new() -> Kept {
        let [volumes, stripes] = SIZES;
        let (row, stripes) = (vec![false; volumes], vec![false; volumes * stripes]);
        Kept { some: false, all: false, some_of_volume: row.clone(), volumes: row, stripes }
    }

    fn clear(&mut self) {
        (self.some, self.all) = (false, false);
        self.some_of_volume.fill(false);
        self.volumes.fill(false);
        self.stripes.fill(false);
    }

    fn has(&self, place: Place) -> bool {
        match place {
            Place::None => false,
            Place::All => self.some,
            Place::Volume(v) => self.all || self.some_of_volume[v],
            Place::Stripe(v, s) => self.all || self.volumes[v] || self.stripes[v * SIZES[1] + s],
        }
    }

    fn keep(&mut self, place: Place) {
        match place {
            Place::None => return,
            Place::All => self.all = true,
            Place::Volume(v) => (self.volumes[v], self.some_of_volume[v]) = (true, true),
            Place::Stripe(v, s) => {
                self.stripes[v * SIZES[1] + s] = true;
                self.some_of_volume[v] = true;
            }
        }
        self.some = true;
    }
}

/// A line that was read and isn't answered in the output. Its reply is empty until it has run.
struct Open {
    line: Vec<u8>,
    place: Place,
    reply: Vec<u8>,
}

/// Runs each outstanding line that no earlier one blocks.
fn run_open(server: &mut Server, log: &mut Log, row: &mut VecDeque<Open>, kept: &mut Kept) -> io::Result<()> {
    kept.clear();
    for open in row {
        if !open.reply.is_empty() {
            continue;
        }
        if kept.has(open.place) || carry_out(server, log, &open.line, &mut open.reply)? {
            kept.keep(open.place);
        }
    }
    Ok(())
}

fn serve_stripes(server: &mut Server, log: &mut Log, ends: &mut Ends, open: usize) -> io::Result<()> {
    let (mut row, mut spare, mut kept) = (VecDeque::<Open>::new(), Vec::<Open>::new(), Kept::new());
    loop {
        while row.len() < open && (row.is_empty() || ends.has_line()) {
            let mut next = spare.pop().unwrap_or(Open { line: Vec::new(), place: Place::None, reply: Vec::new() });
            if !ends.next(&mut next.line)? {
                break;
            }
            next.place = place_of(&next.line);
            row.push_back(next);
        }
        if row.is_empty() {
            return ends.out.flush();
        }
        run_open(server, log, &mut row, &mut kept)?;
        let has_synced = log.commit()?;
        while row.front().is_some_and(|open| !open.reply.is_empty()) {
            let mut said = row.pop_front().unwrap();
            ends.out.write_all(&said.reply)?;
            said.reply.clear();
            spare.push(said);
        }
        if has_synced {
            ends.out.flush()?;
        }
    }
}

fn make(path: &str, size: u64) -> io::Result<()> {
    let mut file = File::create(path)?;
    io::copy(&mut io::repeat(0).take(size), &mut file)?;
    file.sync_all()
}

fn floor(path: &str) -> io::Result<()> {
    let start = Instant::now();
    let file = OpenOptions::new().read(true).write(true).open(path)?;
    file.sync_data()?;
    let mut image = vec![0; file.metadata()?.len() as usize / 2];
    file.read_exact_at(&mut image, 0)?;
    for _ in 0..3 {
        file.write_all_at(&image[..1], 0)?;
        file.sync_data()?;
    }
    file.write_all_at(&image, 0)?;
    file.sync_data()?;
    println!("{}", start.elapsed().as_micros());
    Ok(())
}

fn main() -> io::Result<()> {
    let words: Vec<String> = std::env::args().skip(1).collect();
    let words: Vec<&str> = words.iter().map(String::as_str).collect();
    let (how, path, open) = match words.as_slice() {
        ["floor", path] => return floor(path),
        ["make", path, size] => return make(path, size.parse().unwrap()),
        [how, path, open] => (*how, *path, open.parse().unwrap()),
        _ => return Err(io::Error::other("server make|batch|once|twice|floor FILE [NUMBER]")),
    };
    let mut server = Server::default();
    let mut log = Log::open(path, &mut server)?;
    log.is_twice = how == "twice";
    let input = BufReader::with_capacity(1 << 20, io::stdin());
    let mut ends = Ends { input, out: BufWriter::with_capacity(1 << 16, io::stdout().lock()) };
    match how {
        "once" | "twice" => serve_stripes(&mut server, &mut log, &mut ends, open),
        _ => serve_batches(&mut server, &mut log, &mut ends, open),
    }
}
