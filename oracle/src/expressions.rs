//! Records what the original `build_anf_expr` makes of a table: every table of up to 4 flags in small.bin, and samples of 5 and 6 flags in
//! samples.bin; and wrong answers in wrong_small.bin and wrong_samples.bin. The formats are in the README beside the recorded files.
//! The tables come from a fixed sequence of numbers and from formulas; records and costs come from the original alone.

use std::fs;
use std::io;
use std::path::Path;

use original::ir::anf_cleanup::{anf_expr_cost, build_anf_expr, emit_raw_anf, AnfForm};
use original::ir::anf_transform::compute_anf;

use crate::postfix::{codes, nibbles, number};
use crate::random::Random;

/// How many samples there are of each flag count, 5 and 6.
const SAMPLES: usize = 2400;

pub fn record(folder: &Path) -> io::Result<()> {
    fs::write(folder.join("small.bin"), small(4))?;
    fs::write(folder.join("samples.bin"), samples())?;
    fs::write(folder.join("wrong_small.bin"), wrong_small())?;
    fs::write(folder.join("wrong_samples.bin"), wrong_samples())
}

/// Every table of up to so many flags.
fn small(flags: u32) -> Vec<u8> {
    let mut bytes = Vec::new();
    for n in 0..=flags {
        for table in 0..1u64 << (1 << n) {
            bytes.extend(answer(n, table));
        }
    }
    bytes
}

fn samples() -> Vec<u8> {
    let mut random = Random::new(2);
    let mut bytes = Vec::new();
    for n in [5, 6] {
        for k in 0..SAMPLES {
            let table = table(n, k, &mut random);
            bytes.push(n as u8);
            bytes.extend(table.to_le_bytes());
            bytes.extend(answer(n, table));
        }
    }
    bytes
}

/// The tables of up to 2 flags, of which the third has a wrong cost; the others are missing.
fn wrong_small() -> Vec<u8> {
    let mut bytes = small(2);
    bytes[14] ^= 8;
    bytes
}

/// A right answer, and then what differs from it in one thing each: the cost, the raw cost, a record, the last record left out, one record more.
fn wrong_samples() -> Vec<u8> {
    let (n, table) = (5, 0x1234_5678);
    let (cost, raw, records) = made(n, table);
    let mut another = records.clone();
    another[0] ^= 1;
    let more: Vec<u8> = records.iter().copied().chain([13]).collect();
    let answers = [
        item(cost, raw, &records),
        item(cost + 1, raw, &records),
        item(cost, raw + 1, &records),
        item(cost, raw, &another),
        item(cost, raw, &records[..records.len() - 1]),
        item(cost, raw, &more),
    ];
    answers.iter().flat_map(|answer| [&[n as u8][..], &table.to_le_bytes(), answer].concat()).collect()
}

/// The cost, the raw cost and the records.
fn made(n: u32, table: u64) -> (usize, usize, Vec<u8>) {
    let entries: Vec<u64> = (0..1u32 << n).map(|s| table >> s & 1).collect();
    let coefficients = compute_anf(&entries, n);
    let tree = build_anf_expr(&coefficients, n);
    let raw = emit_raw_anf(&AnfForm::from_anf_coeffs(&coefficients, n));
    (anf_expr_cost(&tree) as usize, anf_expr_cost(&raw) as usize, codes(&tree))
}

fn answer(n: u32, table: u64) -> Vec<u8> {
    let (cost, raw, records) = made(n, table);
    item(cost, raw, &records)
}

/// Cost, raw cost and number of records, two bytes each, and the records.
fn item(cost: usize, raw: usize, records: &[u8]) -> Vec<u8> {
    let mut bytes = Vec::new();
    bytes.extend(number(cost));
    bytes.extend(number(raw));
    bytes.extend(number(records.len()));
    bytes.extend(nibbles(records));
    bytes
}

/// The kinds of table in turn: random, sparse, dense, few and many coefficients, symmetric, threshold, one-hot, parity of some flags.
fn table(n: u32, k: usize, random: &mut Random) -> u64 {
    let settings = 1usize << n;
    let all = if n == 6 { u64::MAX } else { (1 << settings) - 1 };
    let some = |count: usize, random: &mut Random| (0..count).fold(0u64, |word, _| word | 1 << random.below(settings));
    let ones = |f: &dyn Fn(usize) -> bool| (0..settings).filter(|&s| f(s)).fold(0u64, |word, s| word | 1 << s);
    match k % 10 {
        0 | 1 => random.next() & all,
        2 => some(1 + random.below(6), random),
        3 => all & !some(1 + random.below(6), random),
        4 => values(n, some(1 + random.below(8), random)),
        5 => values(n, all & !some(1 + random.below(8), random)),
        6 => {
            let picked = random.next();
            ones(&|s| picked >> s.count_ones() & 1 != 0)
        }
        7 => {
            let least = random.below(n as usize + 1) as u32;
            let flags = random.below(settings);
            ones(&|s| (s & flags).count_ones() >= least)
        }
        8 => {
            let flags = random.below(settings);
            ones(&|s| (s & flags).count_ones() == 1)
        }
        _ => {
            let flags = random.below(settings);
            ones(&|s| (s & flags).count_ones() % 2 == 1)
        }
    }
}

/// The table whose coefficients are the bits of a word: the transform undoes itself.
fn values(n: u32, coefficients: u64) -> u64 {
    let entries: Vec<u64> = (0..1u32 << n).map(|m| coefficients >> m & 1).collect();
    compute_anf(&entries, n).word(0)
}
