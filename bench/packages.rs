//! Reading a full package beside examining its expressions alone, and writing its rules. It rests on the benchmark's measure and on the library's calls.

use std::hint::black_box;

use original::ir::anf_cleanup::build_anf_expr;
use original::ir::anf_transform::compute_anf;

use crate::{calls, mean, measure, table, written, Random};

const LIMIT: usize = 65536;

/// A rule with its table as entries and as a word.
struct Rule {
    flags: usize,
    entries: Vec<u64>,
    word: u64,
    bytes: Vec<u8>,
}

impl Rule {
    fn new(flags: usize, random: &mut Random) -> Self {
        let entries = table(flags, "random", random);
        let word = entries.iter().rev().fold(0, |w, bit| w << 1 | bit);
        let mut bytes = Vec::new();
        written(&build_anf_expr(&compute_anf(&entries, flags as u32), flags as u32), &mut bytes);
        Rule { flags, entries, word, bytes }
    }
}

/// Rules of random tables, as many as a package has room for, and the package that the library writes of them.
fn full(flags: impl Fn(&mut Random) -> usize, random: &mut Random) -> (Vec<Rule>, Vec<u8>) {
    let (mut rules, mut package) = (Vec::new(), Vec::new());
    loop {
        let n = flags(random);
        let rule = Rule::new(n, random);
        if package.len() + 13 + rule.bytes.len() > LIMIT {
            return (rules, package);
        }
        let mut out = [0u8; 976];
        let length = calls::package_write(rule.flags, rule.word, &rule.bytes, &mut out) as usize;
        package.extend(&out[..length]);
        rules.push(rule);
    }
}

/// All rules of a package, one after the other: their number.
fn read(package: &[u8]) -> usize {
    let (mut place, mut count) = (0, 0);
    while let Some((_, next)) = calls::package_read(package, place) {
        (place, count) = (next, count + 1);
    }
    count
}

fn row(name: &str, flags: impl Fn(&mut Random) -> usize, random: &mut Random) {
    let (rules, package) = full(flags, random);
    assert_eq!(read(&package), rules.len());
    let examined = |_: usize| {
        for rule in &rules {
            black_box(calls::examine(rule.flags, black_box(&rule.entries), black_box(&rule.bytes)));
        }
    };
    let mut out = [0u8; 976];
    let (a, b) = measure(1, 3, examined, |_| _ = black_box(read(black_box(&package))));
    let (c, _) = measure(
        1,
        3,
        |_| {
            for rule in &rules {
                black_box(calls::package_write(rule.flags, rule.word, black_box(&rule.bytes), &mut out));
            }
        },
        |_| {},
    );
    let speed = |t: f64| package.len() as f64 * 1000.0 / t;
    let (a, b, c) = (mean(&a), mean(&b), mean(&c));
    println!(
        "| {name} | {} | {:.0} | {:.0} | {:.2} | {:.0} | {:.0} |",
        rules.len(),
        speed(a),
        speed(b),
        b / a,
        b / rules.len() as f64,
        c / rules.len() as f64
    );
}

pub fn print(random: &mut Random) {
    println!("| Rules | Their number | Examining alone, MB/s | Reading, MB/s | Reading over examining, times | Reading, ns a rule | Writing, ns a rule |");
    println!("|---|---|---|---|---|---|---|");
    (0..=6).for_each(|n| row(&format!("{n} flags"), |_| n, random));
    row("1 to 6 flags", |r| 1 + (r.next() % 6) as usize, random);
}
