//! Writes lines of input for the benchmark of `waffd serve`: `lines MIX COUNT GEOMETRY`. The same lines each time.
//! MIX is `fill`, which makes all that the others use and ignores COUNT; `write`: full blocks, uniformly over all
//! stripes; `ordered`: full blocks, one file from its first block to its last, again and again; `stripe`: full blocks of
//! one stripe; `read`: full blocks; or `mixed`. GEOMETRY is `default` or `greatest`.

#[path = "../random.rs"]
mod random;

use random::Random;
use std::io::{self, BufWriter, Write};

/// What is used of a geometry: these files fill each stripe of each volume just up to its quota.
struct Places {
    aggregates: u16,
    volumes: u16,
    files: &'static [u16],
    blocks: u16,
    /// Adjacent blocks of a file that lie in one stripe.
    width: u16,
}

static DEFAULT: Places = Places { aggregates: 1, volumes: 4, files: &[0, 1, 2, 3], blocks: 64, width: 4 };

static GREATEST: Places = Places { aggregates: 4, volumes: 8, files: &[0, 4], blocks: 256, width: 64 };

type Place = [u16; 4];

impl Places {
    fn any(&self, random: &mut Random) -> Place {
        let f = self.files[random.below(self.files.len() as u64) as usize];
        let mut below = |n: u16| random.below(u64::from(n)) as u16;
        [below(self.aggregates), below(self.volumes), f, below(self.blocks)]
    }

    /// The place of line `n` of a mix.
    fn of(&self, mix: &str, n: u64, random: &mut Random) -> Place {
        match mix {
            "ordered" => [0, 0, self.files[0], (n % u64::from(self.blocks)) as u16],
            "stripe" => [0, 0, self.files[0], random.below(u64::from(self.width)) as u16],
            _ => self.any(random),
        }
    }
}

fn write_line(random: &mut Random, [a, v, f, b]: Place, out: &mut impl Write) -> io::Result<()> {
    write!(out, "write {a} {v} {f} {b} ")?;
    // The last byte isn't 0, so that a block is read as long as it was written.
    for i in 0..512 {
        write!(out, "{:02x}", random.below(255) + i / 511)?;
    }
    writeln!(out)
}

fn fill(places: &Places, random: &mut Random, out: &mut impl Write) -> io::Result<()> {
    for a in 0..places.aggregates {
        for v in 0..places.volumes {
            writeln!(out, "makevol {a} {v}")?;
            for f in places.files {
                writeln!(out, "create {a} {v} {f}")?;
            }
        }
    }
    // The volumes in turn, so that those that follow each other can run at once.
    for b in 0..places.blocks {
        for f in places.files {
            for v in 0..places.aggregates * places.volumes {
                write_line(random, [v / places.volumes, v % places.volumes, *f, b], out)?;
            }
        }
    }
    Ok(())
}

fn line(mix: &str, place: Place, random: &mut Random, out: &mut impl Write) -> io::Result<()> {
    let [a, v, f, b] = place;
    let share = random.below(100);
    match mix {
        "write" | "ordered" | "stripe" => write_line(random, place, out),
        "mixed" if share < 45 => write_line(random, place, out),
        "mixed" if share < 50 => writeln!(out, "usage {a} {v}"),
        _ => writeln!(out, "read {a} {v} {f} {b}"),
    }
}

fn main() -> io::Result<()> {
    let words: Vec<String> = std::env::args().skip(1).collect();
    let [mix, count, geometry] = words.as_slice() else {
        return Err(io::Error::other("lines MIX COUNT GEOMETRY"));
    };
    let places = if geometry == "greatest" { &GREATEST } else { &DEFAULT };
    let mut out = BufWriter::with_capacity(1 << 16, io::stdout().lock());
    let mut random = Random::new();
    if mix == "fill" {
        fill(places, &mut random, &mut out)?;
        return out.flush();
    }
    for n in 0..count.parse().unwrap_or(20_000u64) {
        let place = places.of(mix, n, &mut random);
        line(mix, place, &mut random, &mut out)?;
    }
    out.flush()
}
