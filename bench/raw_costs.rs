//! Raw costing of coefficients, beside the original's, which lists and sorts the monomials and then adds up their costs. The original's `raw_anf_cost`
//! is private and takes such a list, so its sum stands here again. It rests on the benchmark's measure and on the library's calls.

use std::hint::black_box;

use original::ir::anf_cleanup::{anf_expr_cost, emit_raw_anf, AnfForm};
use original::ir::anf_transform::compute_anf;
use original::ir::packed_anf::PackedAnf;

use crate::{calls, mean, measure, slowest, table, Random};

fn sum(form: &AnfForm) -> u32 {
    let terms = form.monomials.len() as u32 + u32::from(form.constant_bit);
    if terms == 0 {
        return 1;
    }
    u32::from(form.constant_bit) + form.monomials.iter().map(|m| 2 * m.count_ones() - 1).sum::<u32>() + terms - 1
}

fn row(n: usize, random: &mut Random) {
    let inputs: Vec<PackedAnf> = (0..60).map(|_| compute_anf(&table(n, "random", random), n as u32)).collect();
    let forms: Vec<AnfForm> = inputs.iter().map(|c| AnfForm::from_anf_coeffs(c, n as u32)).collect();
    for (coefficients, form) in inputs.iter().zip(&forms) {
        let cost = anf_expr_cost(&emit_raw_anf(form));
        assert_eq!(sum(form), cost, "the sum that stands here is not the original's raw cost");
        assert_eq!(calls::raw_cost(n, coefficients.words()), u64::from(cost), "the library's raw cost is not the original's");
    }
    let ours = |i: usize| {
        black_box(calls::raw_cost(n, black_box(inputs[i].words())));
    };
    let listed = |i: usize| {
        black_box(sum(&AnfForm::from_anf_coeffs(black_box(&inputs[i]), n as u32)));
    };
    let added = |i: usize| {
        black_box(sum(black_box(&forms[i])));
    };
    let repeat = 400;
    let (whole, call) = measure(inputs.len(), repeat, listed, ours);
    // The library's call is run in turn with the sums too; the time printed is the one beside the lists.
    let (alone, _) = measure(inputs.len(), repeat, added, ours);
    println!(
        "| {n} | {:.1} | {:.1} | {:.1} | {:.1} | {:.1} |",
        mean(&whole),
        mean(&alone),
        mean(&call),
        mean(&whole) / mean(&call),
        slowest(&whole) / slowest(&call)
    );
}

pub fn print(random: &mut Random) {
    println!("| Flags | Original, list and sum, ns | Original, sum alone, ns | Ours, ns | Original over ours | Slowest tenths |");
    println!("|---|---|---|---|---|---|");
    for n in 0..=6 {
        row(n, random);
    }
}
