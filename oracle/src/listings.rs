//! Records what the original `AnfForm::from_anf_coeffs` lists: forms of up to 16 flags in listings.bin, with the constant, the number of
//! monomials and every mask in the original's order; and forms with a wrong answer in wrong_listings.bin. The format is in the README beside
//! the recorded files.

use std::fs;
use std::io;
use std::path::Path;

use original::ir::anf_cleanup::AnfForm;
use original::ir::packed_anf::PackedAnf;

use crate::postfix::number;
use crate::random::Random;

pub fn record(folder: &Path) -> io::Result<()> {
    fs::write(folder.join("listings.bin"), listings())?;
    fs::write(folder.join("wrong_listings.bin"), wrong())
}

fn listings() -> Vec<u8> {
    let mut random = Random::new(4);
    let mut bytes = Vec::new();
    for n in 0..=16usize {
        let samples = if n < 9 { 60 } else { 6 };
        for k in 0..samples {
            let size = 1usize << n;
            let coefficients = packed(size, |m| match k % 4 {
                0 => random.next() & 1 == 1,
                1 => random.below(16) == 0,
                2 => random.below(16) != 0,
                _ => k % 8 == 3 || m == random.below(size),
            });
            let form = AnfForm::from_anf_coeffs(&coefficients, n as u32);
            bytes.extend(item(n, &coefficients, form.constant_bit, &form.monomials));
        }
    }
    bytes
}

/// The original's answer to a form of 4 flags, and then what differs from it in one thing each: the constant, a mask, two masks changed over, the
/// last mask left out, one mask more.
fn wrong() -> Vec<u8> {
    let coefficients = packed(16, |m| m % 3 != 0);
    let form = AnfForm::from_anf_coeffs(&coefficients, 4);
    let answer = |constant, masks: &[u32]| item(4, &coefficients, constant, masks);
    let masks = &form.monomials;
    let mut another = masks.clone();
    another[2] ^= 8;
    let mut turned = masks.clone();
    turned.swap(3, 4);
    let more: Vec<u32> = masks.iter().copied().chain([15]).collect();
    [
        answer(form.constant_bit, masks),
        answer(1 - form.constant_bit, masks),
        answer(form.constant_bit, &another),
        answer(form.constant_bit, &turned),
        answer(form.constant_bit, &masks[..masks.len() - 1]),
        answer(form.constant_bit, &more),
    ]
    .concat()
}

fn packed(size: usize, mut bit: impl FnMut(usize) -> bool) -> PackedAnf {
    let mut coefficients = PackedAnf::new(size);
    for m in 0..size {
        if bit(m) {
            coefficients.set(m);
        }
    }
    coefficients
}

fn item(n: usize, coefficients: &PackedAnf, constant: u8, masks: &[u32]) -> Vec<u8> {
    let size = 1usize << n;
    let mut bytes = vec![n as u8, constant];
    bytes.extend(number(masks.len()));
    bytes.extend((0..size.div_ceil(8)).map(|b| (0..8).filter(|i| b * 8 + i < size && coefficients.get(b * 8 + i) != 0).fold(0u8, |x, i| x | 1 << i)));
    bytes.extend(masks.iter().flat_map(|&mask| number(mask as usize)));
    bytes
}
