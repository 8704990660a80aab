//! Records what the original `compute_anf` answers: every table of up to 4 flags in small.bin, and samples of 5 to 16
//! flags in samples.bin; and wrong answers in wrong_small.bin and wrong_samples.bin. The formats are in the README beside
//! the recorded files.
//! The tables come from a fixed sequence of numbers and from formulas; the coefficients come from the original alone.

use std::fs;
use std::io;
use std::path::Path;

use original::ir::anf_transform::compute_anf;

use crate::random::Random;

/// How many samples of each flag count, from 5 on: fewer of the large ones, which take up to 16,385 bytes, and never
/// fewer than there are different kinds.
const SAMPLES: [usize; 12] = [300, 300, 200, 100, 64, 32, 24, 17, 13, 11, 11, 11];

/// The kinds of table, taken in turn, so that the first samples of each flag count differ in kind.
const KINDS: [fn(usize, &mut Random) -> Vec<u64>; 13] = [
    random, sparse, dense, threshold, parity, minterm, blocks, symmetric, one_flag, zero, one,
    random, sparse,
];

pub fn record(folder: &Path) -> io::Result<()> {
    fs::write(folder.join("small.bin"), small(4))?;
    fs::write(folder.join("samples.bin"), samples())?;
    fs::write(folder.join("wrong_small.bin"), wrong_small())?;
    fs::write(folder.join("wrong_samples.bin"), wrong_samples())
}

/// Every table of up to so many flags.
fn small(flags: u32) -> Vec<u8> {
    let mut bytes = Vec::new();
    for n in 0..=flags {
        let settings = 1usize << n;
        for bits in 0..1u64 << settings {
            let table: Vec<u64> = (0..settings).map(|s| bits >> s & 1).collect();
            let word = compute_anf(&table, n).word(0);
            bytes.extend([word as u8, (word >> 8) as u8]);
        }
    }
    bytes
}

fn samples() -> Vec<u8> {
    let mut random = Random::new(1);
    let mut bytes = Vec::new();
    for (i, count) in SAMPLES.iter().enumerate() {
        let n = i + 5;
        for k in 0..*count {
            let table = KINDS[k % KINDS.len()](n, &mut random);
            bytes.extend(item(n, &table, &answer(n, &table)));
        }
    }
    bytes
}

/// The tables of up to 2 flags, of which the third has a wrong coefficient; the others are missing.
fn wrong_small() -> Vec<u8> {
    let mut bytes = small(2);
    bytes[4] ^= 2;
    bytes
}

/// A right answer, and then what differs from it in one bit each: a coefficient, the first, the last, one of the second
/// word; and the table.
fn wrong_samples() -> Vec<u8> {
    let table = random(7, &mut Random::new(7));
    let right = answer(7, &table);
    let mut bytes = item(7, &table, &right);
    for m in [0, 127, 70] {
        let mut wrong = right.clone();
        wrong[m] = !wrong[m];
        bytes.extend(item(7, &table, &wrong));
    }
    let mut other = table.clone();
    other[100] ^= 1;
    bytes.extend(item(7, &other, &right));
    bytes
}

fn answer(n: usize, table: &[u64]) -> Vec<bool> {
    let coefficients = compute_anf(table, n as u32);
    (0..1usize << n).map(|m| coefficients.get(m) != 0).collect()
}

fn item(n: usize, table: &[u64], coefficients: &[bool]) -> Vec<u8> {
    let mut bytes = vec![n as u8];
    bytes.extend(packed(1 << n, |s| table[s] & 1 != 0));
    bytes.extend(packed(1 << n, |m| coefficients[m]));
    bytes
}

/// Bit i mod 8 of byte i div 8 is bit i.
fn packed(count: usize, bit: impl Fn(usize) -> bool) -> Vec<u8> {
    let mut bytes = vec![0; count.div_ceil(8)];
    for i in (0..count).filter(|&i| bit(i)) {
        bytes[i / 8] |= 1 << (i % 8);
    }
    bytes
}

fn of(n: usize, bit: impl Fn(usize) -> bool) -> Vec<u64> {
    (0..1usize << n).map(|s| u64::from(bit(s))).collect()
}

fn random(n: usize, random: &mut Random) -> Vec<u64> {
    (0..1usize << n).map(|_| random.next() >> 63).collect()
}

/// A few ones, from two up to one in sixteen settings.
fn sparse(n: usize, random: &mut Random) -> Vec<u64> {
    let mut table = vec![0; 1 << n];
    let ones = 2 + random.below((1usize << n) / 16);
    for _ in 0..ones {
        table[random.below(1 << n)] = 1;
    }
    table
}

fn dense(n: usize, random: &mut Random) -> Vec<u64> {
    sparse(n, random).iter().map(|bit| 1 - bit).collect()
}

/// One at the settings with at least so many flags on: as often as not, more than half of them (the majority).
fn threshold(n: usize, random: &mut Random) -> Vec<u64> {
    let least = if random.below(2) == 0 {
        n / 2 + 1
    } else {
        1 + random.below(n)
    };
    of(n, |s| s.count_ones() as usize >= least)
}

/// The parity of all flags, or of some of them, or its opposite.
fn parity(n: usize, random: &mut Random) -> Vec<u64> {
    let flags = if random.below(2) == 0 {
        (1 << n) - 1
    } else {
        1 + random.below((1 << n) - 1)
    };
    let turned = random.below(2) as u32;
    of(n, |s| ((s & flags).count_ones() + turned) % 2 == 1)
}

fn minterm(n: usize, random: &mut Random) -> Vec<u64> {
    let only = random.below(1 << n);
    of(n, |s| s == only)
}

/// Blocks of zeros and ones in turn, of one length that need not be a power of two.
fn blocks(n: usize, random: &mut Random) -> Vec<u64> {
    let length = 1 + random.below(1 << (n - 1));
    of(n, |s| s / length % 2 == 1)
}

/// A table whose bit depends on the count of flags that are on.
fn symmetric(n: usize, random: &mut Random) -> Vec<u64> {
    let counts = random.next();
    of(n, |s| counts >> s.count_ones() & 1 == 1)
}

fn one_flag(n: usize, random: &mut Random) -> Vec<u64> {
    let flag = random.below(n);
    of(n, |s| s >> flag & 1 == 1)
}

fn zero(n: usize, _: &mut Random) -> Vec<u64> {
    of(n, |_| false)
}

fn one(n: usize, _: &mut Random) -> Vec<u64> {
    of(n, |_| true)
}
