//! Records what the original `anf_expr_cost` and `compute_cost` answer for trees that are built with its own constructors, in costs.bin, and
//! wrong answers in wrong_costs.bin. The format is in the README beside the recorded files. The trees come from a fixed sequence of numbers.

use std::fs;
use std::io;
use std::path::Path;
use std::sync::Arc;

use original::core::expr::Expr;
use original::core::expr_cost::compute_cost;
use original::ir::anf_cleanup::anf_expr_cost;

use crate::postfix::{codes, nibbles, number};
use crate::random::Random;

/// How many trees, of 1 to 385 records.
const TREES: usize = 3000;

pub fn record(folder: &Path) -> io::Result<()> {
    let mut random = Random::new(3);
    let mut bytes = Vec::new();
    for k in 0..TREES {
        let most = [6, 20, 60, 385][k % 4];
        let records = 1 + random.below(most);
        let tree = tree(records, 1 + k % 6, k % 3, &mut random);
        bytes.extend(item(&tree, answer(&tree)));
    }
    fs::write(folder.join("costs.bin"), bytes)?;
    fs::write(folder.join("wrong_costs.bin"), wrong())
}

/// A right answer, and then what differs from it in one number each.
fn wrong() -> Vec<u8> {
    let tree = Expr::or(Expr::or(Expr::variable(0), Expr::variable(1)), Expr::not(Expr::variable(2)));
    let [cost, size, depth] = answer(&tree);
    let answers = [[cost, size, depth], [cost + 1, size, depth], [cost, size + 1, depth], [cost, size, depth + 1], [cost, size, depth - 1]];
    answers.iter().flat_map(|&numbers| item(&tree, numbers)).collect()
}

/// Cost, size and depth.
fn answer(tree: &Expr) -> [usize; 3] {
    let costs = compute_cost(tree).cost;
    [anf_expr_cost(tree) as usize, costs.weighted_size as usize, costs.max_depth as usize]
}

fn item(tree: &Expr, answer: [usize; 3]) -> Vec<u8> {
    let list = codes(tree);
    let mut bytes: Vec<u8> = answer.iter().flat_map(|&value| number(value)).collect();
    bytes.extend(number(list.len()));
    bytes.extend(nibbles(&list));
    bytes
}

/// A tree of that many records over that many flags; of the kinds 0, 1, 2 the last is rich in ORs and the first in deep left sides.
pub fn tree(records: usize, flags: usize, kind: usize, random: &mut Random) -> Arc<Expr> {
    match records {
        1 if random.below(5) == 0 => Expr::constant(random.next() & 1),
        1 => Expr::variable(random.below(flags) as u32),
        2 => Expr::not(tree(1, flags, kind, random)),
        _ if random.below(6) == 0 => Expr::not(tree(records - 1, flags, kind, random)),
        _ => {
            let rest = records - 1;
            let left = match kind {
                0 => rest - 1 - random.below(rest.min(4) - 1).min(rest - 2),
                _ => 1 + random.below(rest - 1),
            };
            let first = tree(left, flags, kind, random);
            let second = tree(rest - left, flags, kind, random);
            match random.below(if kind == 2 { 6 } else { 3 }) {
                0 => Expr::and(first, second),
                1 => Expr::xor(first, second),
                _ => Expr::or(first, second),
            }
        }
    }
}
