//! How the time of each of the library's calls grows with its input: with the number of flags, and with the number of records.

use std::hint::black_box;
use std::time::Instant;

use crate::{calls, mean, table, Random, ROUNDS};

/// Nanoseconds of one call: the least of several rounds.
fn time(repeat: usize, mut call: impl FnMut()) -> f64 {
    (0..ROUNDS)
        .map(|_| {
            let start = Instant::now();
            (0..repeat).for_each(|_| call());
            start.elapsed().as_nanos() as f64 / repeat as f64
        })
        .fold(f64::MAX, f64::min)
}

fn row(call: &str, over: &str, sizes: &[usize], times: &[f64]) {
    let cells: Vec<String> = sizes.iter().zip(times).map(|(n, t)| format!("{n}: {t:.0}")).collect();
    println!("| {call} | {over} | {} |", cells.join(", "));
}

/// The mean over random tables of each number of flags.
fn over_flags(call: &str, sizes: &[usize], random: &mut Random, mut one: impl FnMut(usize, &[u64])) {
    let times: Vec<f64> = sizes
        .iter()
        .map(|&n| {
            let tables: Vec<Vec<u64>> = (0..if n > 6 { 2 } else { 40 }).map(|_| table(n, "random", random)).collect();
            let repeat = if n > 10 { 4 } else { 40 };
            mean(&tables.iter().map(|t| time(repeat, || one(n, black_box(t)))).collect::<Vec<f64>>())
        })
        .collect();
    row(call, "flags", sizes, &times);
}

/// Of an expression with that many records: a flag, and NO or AN with a flag in turn.
fn expression(records: usize) -> Vec<u8> {
    let mut bytes = b"VA\x00".to_vec();
    let mut count = 1;
    while count < records {
        if count + 2 <= records && count % 3 != 0 {
            bytes.extend([b'V', b'A', (count % 6) as u8, b'A', b'N']);
            count += 2;
        } else {
            bytes.extend(b"NO");
            count += 1;
        }
    }
    bytes
}

/// The mean over random tables of six flags, with an expression of that many records.
fn over_records(call: &str, random: &mut Random, mut one: impl FnMut(&[u64], &[u8])) {
    let sizes = [1, 25, 49, 97, 193, 385];
    let t = table(6, "random", random);
    let times: Vec<f64> = sizes
        .iter()
        .map(|&records| {
            let bytes = expression(records);
            time(400, || one(black_box(&t), black_box(&bytes)))
        })
        .collect();
    row(call, "records", &sizes, &times);
}

pub fn print(random: &mut Random) {
    println!("| Call | Over | Nanoseconds a call at each size |");
    println!("|---|---|---|");
    let (mut bytes, mut words, mut masks, mut entries) = ([0u8; 963], vec![0u64; 1024], vec![0u32; 1 << 16], vec![0u64; 1 << 16]);
    over_flags("compile", &[0, 1, 2, 3, 4, 5, 6], random, |n, t| {
        black_box(calls::compile(n, t, &mut bytes));
    });
    let wide = [6, 8, 10, 12, 14, 16];
    over_flags("transform", &wide, random, |n, t| {
        black_box(calls::transform(n, t, &mut words));
    });
    // A table's entries are random bits, so its first words, packed, serve as coefficients.
    let packed = |n: usize, t: &[u64]| -> Vec<u64> { t.chunks(64).map(|c| c.iter().rev().fold(0, |w, b| w << 1 | b)).take((1 << n) / 64).collect() };
    over_flags("way back, with its input packed", &wide, random, |n, t| {
        let w = packed(n, t);
        black_box(calls::way_back(n, &w, &mut entries));
    });
    over_flags("listing, with its input packed", &wide, random, |n, t| {
        let w = packed(n, t);
        black_box(calls::listing(n, &w, &mut masks));
    });
    // The last record of more than one is an operator, of two bytes.
    over_records("reading the last record", random, |_, b| {
        black_box(calls::read(6, b, if b.len() > 3 { b.len() - 2 } else { 0 }));
    });
    over_records("costing", random, |_, b| {
        black_box(calls::cost(6, b));
    });
    over_records("evaluation", random, |_, b| {
        black_box(calls::evaluate(6, b, 37));
    });
    over_records("64 stars", random, |t, b| {
        black_box(calls::evaluate_stars(6, &t[..6], b));
    });
    over_records("examination", random, |t, b| {
        black_box(calls::examine(6, t, b));
    });
}
