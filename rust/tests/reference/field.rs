//! The two fields. Addition is XOR in both.

use std::sync::OnceLock;

#[derive(Clone, Copy, Debug, PartialEq, Eq)]
pub enum Field {
    Gf2,
    Gf256,
}

/// The product of GF(2^8): shift and add, modulo x^8 + x^4 + x^3 + x^2 + 1 (285).
pub fn product(a: u8, b: u8) -> u8 {
    let mut sum: u32 = 0;
    for digit in 0..8 {
        if b >> digit & 1 == 1 {
            sum ^= u32::from(a) << digit;
        }
    }
    for degree in (8..16).rev() {
        if sum >> degree & 1 == 1 {
            sum ^= 285 << (degree - 8);
        }
    }
    sum as u8
}

/// The inverse of GF(2^8), by trying all elements.
pub fn inverse(a: u8) -> u8 {
    (1..=255).find(|&b| product(a, b) == 1).expect("zero has no inverse")
}

/// All products, computed once.
fn products() -> &'static [[u8; 256]] {
    static PRODUCTS: OnceLock<Vec<[u8; 256]>> = OnceLock::new();
    PRODUCTS.get_or_init(|| (0..=255).map(|a| std::array::from_fn(|b| product(a, b as u8))).collect())
}

impl Field {
    /// The product of two elements; in GF(2), AND.
    pub fn times(self, a: u8, b: u8) -> u8 {
        match self {
            Field::Gf2 => a & b,
            Field::Gf256 => products()[usize::from(a)][usize::from(b)],
        }
    }

    /// The inverse of an element other than zero.
    pub fn invert(self, a: u8) -> u8 {
        match self {
            Field::Gf2 => a,
            Field::Gf256 => inverse(a),
        }
    }

    /// Adds coefficient times symbol. In GF(2) a coefficient keeps or drops the symbol whole (RFC 8681, 3.7.2).
    pub fn add(self, sum: &mut [u8], coefficient: u8, symbol: &[u8]) {
        assert_eq!(sum.len(), symbol.len());
        match self {
            Field::Gf2 if coefficient == 0 => {}
            Field::Gf2 => sum.iter_mut().zip(symbol).for_each(|(s, b)| *s ^= b),
            Field::Gf256 => {
                let row = &products()[usize::from(coefficient)];
                sum.iter_mut().zip(symbol).for_each(|(s, b)| *s ^= row[usize::from(*b)]);
            }
        }
    }
}
