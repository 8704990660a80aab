//! Records what the original `is_better` answers: for pairs of sizes and depths, and for pairs of trees with the costs that `compute_cost` gives
//! them, in choices.bin; and wrong answers in wrong_choices.bin. The format is in the README beside the recorded files.

use std::fs;
use std::io;
use std::path::Path;

use original::core::expr::Expr;
use original::core::expr_cost::{compute_cost, is_better, ExprCost};

use crate::costs::tree;
use crate::postfix::{codes, nibbles, number};
use crate::random::Random;

const SIZES: [u32; 8] = [1, 2, 3, 384, 385, 65535, 65536, u32::MAX];
const DEPTHS: [u32; 5] = [1, 2, 3, 385, u32::MAX];

/// How many pairs of trees, each in both orders.
const PAIRS: usize = 500;

pub fn record(folder: &Path) -> io::Result<()> {
    fs::write(folder.join("choices.bin"), [costs(), trees()].concat())?;
    fs::write(folder.join("wrong_choices.bin"), wrong())
}

/// Every pair of a size and a depth with every other and with itself.
fn costs() -> Vec<u8> {
    let all: Vec<ExprCost> = SIZES.iter().flat_map(|&size| DEPTHS.map(|depth| cost(size, depth))).collect();
    all.iter().flat_map(|first| all.iter().flat_map(|second| head(first, second, is_better(second, first)))).collect()
}

/// The second tree has as many records as the first, one more, one less, or any number.
fn trees() -> Vec<u8> {
    let mut random = Random::new(6);
    let mut bytes = Vec::new();
    for k in 0..PAIRS {
        let records = 2 + random.below([6, 20, 60, 380][k % 4]);
        let others = [records, records + 1, records - 1, 1 + random.below(60)][k / 4 % 4];
        let first = tree(records, 1 + k % 6, k % 3, &mut random);
        let second = tree(others, 1 + k % 6, k / 3 % 3, &mut random);
        bytes.extend(choice(&first, &second));
        bytes.extend(choice(&second, &first));
    }
    bytes
}

/// A right answer, and then wrong ones: of two costs that tie, that differ in size, that differ in depth; and of two trees where the head is
/// right and the trees have changed over.
fn wrong() -> Vec<u8> {
    let turned = |first: ExprCost, second: ExprCost| head(&first, &second, !is_better(&second, &first));
    let (one, other) = (Expr::variable(0), Expr::not(Expr::variable(0)));
    let (first, second) = (compute_cost(&one).cost, compute_cost(&other).cost);
    [
        choice(&other, &one),
        turned(cost(3, 2), cost(3, 2)),
        turned(cost(3, 2), cost(2, 2)),
        turned(cost(2, 2), cost(3, 2)),
        turned(cost(3, 2), cost(3, 1)),
        turned(cost(3, 1), cost(3, 2)),
        item(&first, &second, &other, &one),
        item(&second, &first, &one, &other),
    ]
    .concat()
}

fn cost(size: u32, depth: u32) -> ExprCost {
    ExprCost {
        weighted_size: size,
        nonlinear_mul_count: 0,
        max_depth: depth,
    }
}

fn choice(first: &Expr, second: &Expr) -> Vec<u8> {
    item(&compute_cost(first).cost, &compute_cost(second).cost, first, second)
}

/// Both costs, the answer, and no records.
fn head(first: &ExprCost, second: &ExprCost, better: bool) -> Vec<u8> {
    let numbers = [first.weighted_size, first.max_depth, second.weighted_size, second.max_depth];
    let mut bytes: Vec<u8> = numbers.iter().flat_map(|number| number.to_le_bytes()).collect();
    bytes.push(u8::from(better));
    bytes.extend([0; 4]);
    bytes
}

/// Both costs, the answer, and the records of both trees.
fn item(one: &ExprCost, other: &ExprCost, first: &Expr, second: &Expr) -> Vec<u8> {
    let (codes, others) = (codes(first), codes(second));
    let mut bytes = head(one, other, is_better(other, one));
    bytes.truncate(17);
    bytes.extend(number(codes.len()));
    bytes.extend(number(others.len()));
    bytes.extend(nibbles(&codes));
    bytes.extend(nibbles(&others));
    bytes
}
