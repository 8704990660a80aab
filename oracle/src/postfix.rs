//! A tree of the original as document 01's records, and its answers about it.
//! The four-bit codes of the recorded files: 0 and 1 are CO 0 and CO 1, 2 to 9 are VA 0 to VA 7, 10 AN, 11 OR, 12 XO, 13 NO.

use original::core::expr::{Expr, Kind};

/// Each node's operands, first to last, and then the node.
pub fn codes(tree: &Expr) -> Vec<u8> {
    let mut out: Vec<u8> = tree.children.iter().flat_map(|child| codes(child)).collect();
    out.push(match &tree.kind {
        Kind::Constant(value) => *value as u8,
        Kind::Variable(index) => 2 + *index as u8,
        Kind::And => 10,
        Kind::Or => 11,
        Kind::Xor => 12,
        Kind::Not => 13,
        other => panic!("a rule has no {other:?}"),
    });
    out
}

/// Two codes a byte, the earlier one low; the last byte of an odd number has 0 high.
pub fn nibbles(codes: &[u8]) -> Vec<u8> {
    codes.chunks(2).map(|pair| pair[0] | pair.get(1).unwrap_or(&0) << 4).collect()
}

pub fn number(value: usize) -> [u8; 2] {
    [value as u8, (value >> 8) as u8]
}
