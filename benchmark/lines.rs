//! Writes lines of input for the benchmark: `lines MIX COUNT`. The same lines each time.
//! MIX is `write`, `read`, `metadata`, `churn` or `mixed`.

mod random;

use random::Random;
use std::io::{self, BufWriter, Write};

/// A volume, a file and a block. Four files of a volume fill its stripes just up to their quota.
type Place = (u64, u64, u64);

fn write_line(random: &mut Random, (v, f, b): Place, out: &mut impl Write) -> io::Result<()> {
    write!(out, "write 0 {v} {f} {b} ")?;
    for _ in 0..1 + random.below(512) {
        write!(out, "{:02x}", random.below(256))?;
    }
    writeln!(out)
}

fn metadata_line(random: &mut Random, (v, f, _): Place, out: &mut impl Write) -> io::Result<()> {
    match random.below(12) {
        0 => writeln!(out, "makevol 0 {v}"),
        1 => writeln!(out, "create 0 {v} {}", f + 4),
        2 => writeln!(out, "delete 0 {v} {}", f + 4),
        3 => writeln!(out, "seal 0 {v}"),
        4 | 5 => writeln!(out, "unseal 0 {v}"),
        6 => writeln!(out, "setlabel 0 {v} {:016x}", random.below(u64::MAX)),
        7 => writeln!(out, "label 0 {v}"),
        8 => writeln!(out, "usage 0 {v}"),
        9 => writeln!(out, "summary"),
        10 => writeln!(out, "read 0 {v} {} 0", f + 14),
        _ => writeln!(out, "list 0 {v}"),
    }
}

fn churn_line(random: &mut Random, place: Place, out: &mut impl Write) -> io::Result<()> {
    let (v, f, b) = place;
    match random.below(40) {
        0 => writeln!(out, "dropvol 0 {v}\nmakevol 0 {v}\ncreate 0 {v} {f}"),
        1 | 2 => writeln!(out, "delete 0 {v} {f}\ncreate 0 {v} {f}"),
        3..=12 => writeln!(out, "punch 0 {v} {f} {b}"),
        13 => writeln!(out, "create 0 {v} {f}"),
        _ => write_line(random, place, out),
    }
}

fn line(mix: &str, random: &mut Random, out: &mut impl Write) -> io::Result<()> {
    let place = (random.below(4), random.below(4), random.below(64));
    let (v, f, b) = place;
    let share = random.below(100);
    match mix {
        "metadata" => metadata_line(random, place, out),
        "churn" => churn_line(random, place, out),
        "write" if share < 90 => write_line(random, place, out),
        "mixed" if share < 45 => write_line(random, place, out),
        "read" if share < 5 => write_line(random, place, out),
        "mixed" if share < 50 => writeln!(out, "usage 0 {v}"),
        "mixed" if share < 52 => writeln!(out, "write 0 {v} {f} {b}"),
        _ => writeln!(out, "read 0 {v} {f} {b}"),
    }
}

fn main() -> io::Result<()> {
    let mut words = std::env::args().skip(1);
    let mix = words.next().unwrap_or_default();
    let count = words.next().and_then(|n| n.parse().ok()).unwrap_or(1_000_000u64);
    let mut out = BufWriter::with_capacity(1 << 16, io::stdout().lock());
    let mut random = Random::new();
    for v in 0..4 {
        writeln!(out, "makevol 0 {v}")?;
        for f in 0..4 {
            writeln!(out, "create 0 {v} {f}")?;
            for b in 0..64 {
                write_line(&mut random, (v, f, b), &mut out)?;
            }
        }
    }
    for _ in 0..count {
        line(&mix, &mut random, &mut out)?;
    }
    out.flush()
}
