//! Runs the original Rust and the library on the same inputs in one process and prints, for each call, the original's time over ours.
//! It rests on the crate `original`, which `oracle/build.sh` makes of the sources handed to it, and on the library's calls (`calls`).

use std::hint::black_box;
use std::sync::Arc;
use std::time::Instant;

mod calls;
mod growth;
mod packages;
mod raw_costs;
mod stars;

use original::core::expr::{Expr, Kind};
use original::core::expr_cost::compute_cost;
use original::ir::anf_cleanup::{anf_expr_cost, build_anf_expr, AnfForm};
use original::ir::anf_transform::compute_anf;
use original::ir::packed_anf::PackedAnf;

/// SplitMix64 of Steele, Lea and Flood (2014).
struct Random(u64);

impl Random {
    fn next(&mut self) -> u64 {
        self.0 = self.0.wrapping_add(0x9E37_79B9_7F4A_7C15);
        let mut z = self.0;
        z = (z ^ (z >> 30)).wrapping_mul(0xBF58_476D_1CE4_E5B9);
        z = (z ^ (z >> 27)).wrapping_mul(0x94D0_49BB_1331_11EB);
        z ^ (z >> 31)
    }
}

/// Tables of a kind: random, few ones, few zeros, or few coefficients.
fn table(n: usize, kind: &str, random: &mut Random) -> Vec<u64> {
    let settings = 1usize << n;
    let mut bits: Vec<u64> = (0..settings).map(|_| random.next() & 1).collect();
    match kind {
        "sparse" => bits.iter_mut().for_each(|b| *b = (random.next() % 8 == 0) as u64),
        "dense" => bits.iter_mut().for_each(|b| *b = (random.next() % 8 != 0) as u64),
        "few coefficients" => {
            let words: Vec<u64> = (0..settings).map(|_| (random.next() % 8 == 0) as u64).collect();
            let anf = compute_anf(&words, n as u32);
            bits = (0..settings).map(|m| anf.get(m) as u64).collect();
        }
        _ => {}
    }
    bits
}

/// The postfix bytes of a tree.
fn written(tree: &Expr, out: &mut Vec<u8>) {
    for child in &tree.children {
        written(child, out);
    }
    match &tree.kind {
        Kind::Constant(value) => out.extend([b'C', b'O', *value as u8]),
        Kind::Variable(index) => out.extend([b'V', b'A', *index as u8]),
        Kind::And => out.extend(b"AN"),
        Kind::Or => out.extend(b"OR"),
        Kind::Xor => out.extend(b"XO"),
        Kind::Not => out.extend(b"NO"),
        other => panic!("a rule has no {other:?}"),
    }
}

/// A tree's value at a setting, over the original's tree.
fn value(tree: &Expr, setting: u64) -> u64 {
    match &tree.kind {
        Kind::Constant(value) => *value,
        Kind::Variable(index) => setting >> index & 1,
        Kind::And => value(&tree.children[0], setting) & value(&tree.children[1], setting),
        Kind::Or => value(&tree.children[0], setting) | value(&tree.children[1], setting),
        Kind::Xor => value(&tree.children[0], setting) ^ value(&tree.children[1], setting),
        Kind::Not => 1 ^ value(&tree.children[0], setting),
        other => panic!("a rule has no {other:?}"),
    }
}

const ROUNDS: usize = 25;

/// Nanoseconds of one call on each input: the least of several rounds, the two sides in turn.
fn measure(inputs: usize, repeat: usize, mut original: impl FnMut(usize), mut ours: impl FnMut(usize)) -> (Vec<f64>, Vec<f64>) {
    let (mut a, mut b) = (vec![f64::MAX; inputs], vec![f64::MAX; inputs]);
    for _ in 0..ROUNDS {
        for i in 0..inputs {
            let start = Instant::now();
            (0..repeat).for_each(|_| original(i));
            a[i] = a[i].min(start.elapsed().as_nanos() as f64 / repeat as f64);
            let start = Instant::now();
            (0..repeat).for_each(|_| ours(i));
            b[i] = b[i].min(start.elapsed().as_nanos() as f64 / repeat as f64);
        }
    }
    (a, b)
}

fn mean(times: &[f64]) -> f64 {
    times.iter().sum::<f64>() / times.len() as f64
}

/// The mean of the slowest tenth.
fn slowest(times: &[f64]) -> f64 {
    let mut sorted = times.to_vec();
    sorted.sort_by(f64::total_cmp);
    mean(&sorted[sorted.len() - sorted.len().div_ceil(10)..])
}

fn row(call: &str, inputs: &str, (a, b): (Vec<f64>, Vec<f64>)) {
    println!(
        "| {call} | {inputs} | {:.0} | {:.0} | {:.1} | {:.1} |",
        mean(&a),
        mean(&b),
        mean(&a) / mean(&b),
        slowest(&a) / slowest(&b)
    );
}

/// Of 1,000 random tables, the 60 that the library takes longest to compile.
fn worst(n: usize, random: &mut Random) -> Vec<Vec<u64>> {
    let mut out = [0u8; 963];
    let mut timed: Vec<(u128, Vec<u64>)> = (0..1000)
        .map(|_| {
            let t = table(n, "random", random);
            let least = (0..5)
                .map(|_| {
                    let start = Instant::now();
                    black_box(calls::compile(n, &t, &mut out));
                    start.elapsed().as_nanos()
                })
                .min();
            (least.unwrap_or(0), t)
        })
        .collect();
    timed.sort();
    timed.into_iter().rev().take(60).map(|(_, t)| t).collect()
}

fn compiling(random: &mut Random) {
    for n in 3..=6usize {
        for kind in ["random", "sparse", "dense", "few coefficients", "worst"] {
            let tables: Vec<Vec<u64>> = match kind {
                "worst" => worst(n, random),
                _ => (0..60).map(|_| table(n, kind, random)).collect(),
            };
            let mut out = [0u8; 963];
            let repeat = [200, 60, 12, 3][n - 3];
            let times = measure(
                tables.len(),
                repeat,
                |i| {
                    black_box(build_anf_expr(&compute_anf(black_box(&tables[i]), n as u32), n as u32));
                },
                |i| {
                    let t = black_box(&tables[i]);
                    black_box(calls::compile(n, t, &mut out));
                },
            );
            row(&format!("compile, {n} flags"), kind, times);
        }
    }
}

fn transforming(random: &mut Random) {
    for n in [6usize, 10, 16] {
        let tables: Vec<Vec<u64>> = (0..8).map(|_| table(n, "random", random)).collect();
        let repeat = [2000, 200, 4][[6, 10, 16].iter().position(|&m| m == n).unwrap()];
        let mut words = vec![0u64; 1024];
        let times = measure(
            tables.len(),
            repeat,
            |i| {
                black_box(compute_anf(black_box(&tables[i]), n as u32));
            },
            |i| {
                let t = black_box(&tables[i]);
                black_box(calls::transform(n, t, &mut words));
            },
        );
        row(&format!("transform, {n} flags"), "random", times);
        let coefficients: Vec<PackedAnf> = tables.iter().map(|t| compute_anf(t, n as u32)).collect();
        let mut entries = vec![0u64; 1 << n];
        let mut back = vec![0u64; 1 << n];
        let times = measure(
            tables.len(),
            repeat,
            |i| {
                // The original has no way back: its transform of the coefficients, unpacked, is the same XOR over subsets.
                let words = black_box(&coefficients[i]);
                for (m, entry) in entries.iter_mut().enumerate() {
                    *entry = words.get(m) as u64;
                }
                let values = compute_anf(&entries, n as u32);
                for (s, entry) in entries.iter_mut().enumerate() {
                    *entry = values.get(s) as u64;
                }
                black_box(&entries);
            },
            |i| {
                let w = black_box(coefficients[i].words());
                black_box(calls::way_back(n, w, &mut back));
            },
        );
        row(&format!("way back, {n} flags"), "random", times);
    }
}

fn listing(random: &mut Random) {
    let n = 16usize;
    for kind in ["random", "few coefficients"] {
        let forms: Vec<PackedAnf> = (0..6).map(|_| compute_anf(&table(n, kind, random), n as u32)).collect();
        let mut out = vec![0u32; 1 << n];
        let times = measure(
            forms.len(),
            3,
            |i| {
                black_box(AnfForm::from_anf_coeffs(black_box(&forms[i]), n as u32));
            },
            |i| {
                let w = black_box(forms[i].words());
                black_box(calls::listing(n, w, &mut out));
            },
        );
        row("listing, 16 flags", kind, times);
    }
}

fn expressions(random: &mut Random) {
    for n in 3..=6usize {
        let tables: Vec<Vec<u64>> = (0..60).map(|_| table(n, "random", random)).collect();
        let trees: Vec<Arc<Expr>> = tables.iter().map(|t| build_anf_expr(&compute_anf(t, n as u32), n as u32)).collect();
        let bytes: Vec<Vec<u8>> = trees
            .iter()
            .map(|t| {
                let mut out = Vec::new();
                written(t, &mut out);
                out
            })
            .collect();
        let repeat = 400;
        let times = measure(
            trees.len(),
            repeat,
            |i| {
                let t = black_box(&trees[i]);
                black_box((anf_expr_cost(t), compute_cost(t)));
            },
            |i| {
                let b = black_box(&bytes[i]);
                black_box(calls::cost(n, b));
            },
        );
        row(&format!("costing, {n} flags"), "random tables' expressions", times);
        let times = measure(
            trees.len(),
            repeat,
            |i| {
                black_box(value(black_box(&trees[i]), i as u64 & ((1 << n) - 1)));
            },
            |i| {
                let b = black_box(&bytes[i]);
                black_box(calls::evaluate(n, b, i & ((1 << n) - 1)));
            },
        );
        row(&format!("evaluation, {n} flags"), "random tables' expressions", times);
        let times = measure(
            trees.len(),
            repeat / 8,
            |i| {
                let (t, bits) = (black_box(&trees[i]), black_box(&tables[i]));
                black_box((0..1u64 << n).all(|s| value(t, s) == bits[s as usize]));
            },
            |i| {
                let (b, t) = (black_box(&bytes[i]), black_box(&tables[i]));
                black_box(calls::examine(n, t, b));
            },
        );
        row(&format!("examination, {n} flags"), "random tables' expressions", times);
    }
}

fn main() {
    let mut random = Random(11);
    match std::env::args().nth(1).as_deref() {
        Some("growth") => return growth::print(&mut random),
        Some("stars") => return stars::print(&mut random),
        Some("raw_costs") => return raw_costs::print(&mut random),
        Some("packages") => return packages::print(&mut random),
        _ => {}
    }
    println!("| Call | Inputs | Original, ns | Ours, ns | Ratio of means | Ratio of slowest tenths |");
    println!("|---|---|---|---|---|---|");
    compiling(&mut random);
    transforming(&mut random);
    listing(&mut random);
    expressions(&mut random);
}
