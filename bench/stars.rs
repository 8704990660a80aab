//! Sixty-four stars in one call, beside 64 single evaluations of the library and beside the original's tree evaluated 64 times. These two have each
//! star's setting at hand; it need not be gathered from the words of the flags. It rests on the benchmark's measure and on the library's calls.

use std::hint::black_box;
use std::sync::Arc;

use original::core::expr::Expr;
use original::ir::anf_cleanup::build_anf_expr;
use original::ir::anf_transform::compute_anf;

use crate::{calls, mean, measure, table, value, written, Random};

const STARS: usize = 64;

/// A rule with words of stars, and the setting of each star.
struct Asked {
    tree: Arc<Expr>,
    bytes: Vec<u8>,
    words: Vec<u64>,
    settings: Vec<u64>,
}

impl Asked {
    fn new(n: usize, random: &mut Random) -> Self {
        let tree = build_anf_expr(&compute_anf(&table(n, "random", random), n as u32), n as u32);
        let mut bytes = Vec::new();
        written(&tree, &mut bytes);
        let words: Vec<u64> = (0..n).map(|_| random.next()).collect();
        let settings = (0..STARS).map(|j| words.iter().enumerate().map(|(i, w)| (w >> j & 1) << i).sum()).collect();
        Asked { tree, bytes, words, settings }
    }

    /// All stars' values, each told by its setting.
    fn values(&self, one: impl Fn(u64) -> u64) -> u64 {
        black_box(&self.settings).iter().rev().fold(0, |w, &s| w << 1 | one(s))
    }
}

fn row(n: usize, random: &mut Random) {
    let asked: Vec<Asked> = (0..60).map(|_| Asked::new(n, random)).collect();
    let original = |i: usize| {
        let tree = black_box(&asked[i].tree);
        black_box(asked[i].values(|s| value(tree, s)))
    };
    let single = |i: usize| {
        let bytes = black_box(&asked[i].bytes);
        black_box(asked[i].values(|s| calls::value(n, bytes, s)))
    };
    let stars = |i: usize| black_box(calls::evaluate_stars(n, black_box(&asked[i].words), black_box(&asked[i].bytes)));
    for i in 0..asked.len() {
        assert_eq!((stars(i), single(i)), (original(i), original(i)), "the original's tree has other values");
    }
    let (a, b) = measure(asked.len(), 50, |i| _ = original(i), |i| _ = stars(i));
    let (c, d) = measure(asked.len(), 50, |i| _ = single(i), |i| _ = stars(i));
    let (a, b, c, d) = (mean(&a), mean(&b), mean(&c), mean(&d));
    println!("| {n} | {a:.0} | {c:.0} | {:.0} | {:.1} | {:.1} |", b.min(d), a / b, c / d);
}

pub fn print(random: &mut Random) {
    println!("| Flags | Original's tree 64 times, ns | 64 single evaluations, ns | One call, ns | Original over one call | Single over one call |");
    println!("|---|---|---|---|---|---|");
    (1..=6).for_each(|n| row(n, random));
}
