//! The coefficients of a repair symbol (RFC 8681, 3.6), with document 01's refusal 10.

use super::generator::Generator;
use super::Field;

/// The `count` coefficients of a key and the draws that they took, or refusal 10.
pub fn drawn_list(field: Field, key: u16, dt: u8, count: usize) -> Result<(Vec<u8>, u64), u32> {
    if field == Field::Gf2 && dt == 15 {
        return Ok((vec![1; count], 0));
    }
    let mut generator = Generator::new(u32::from(key));
    let mut list = Vec::new();
    for _ in 0..count {
        list.push(match field {
            Field::Gf2 => u8::from(generator.rand16() <= dt),
            Field::Gf256 if dt < 15 && generator.rand16() > dt => 0,
            Field::Gf256 => (0..16).map(|_| generator.rand256()).find(|&byte| byte != 0).ok_or(10u32)?,
        });
    }
    Ok((list, generator.draws))
}

/// The `count` coefficients of a key, or refusal 10.
pub fn coefficients(field: Field, key: u16, dt: u8, count: usize) -> Result<Vec<u8>, u32> {
    drawn_list(field, key, dt, count).map(|(list, _)| list)
}

/// The keys of `count` repair symbols: they count up modulo 65,536.
pub fn keys(first: u16, count: usize) -> impl Iterator<Item = u16> {
    (0..count).map(move |i| ((usize::from(first) + i) % 65_536) as u16)
}

/// The combination of symbols, or refusal 10.
pub fn combination(field: Field, key: u16, dt: u8, symbols: &[Vec<u8>], symbol_size: usize) -> Result<Vec<u8>, u32> {
    let mut sum = vec![0; symbol_size];
    for (coefficient, symbol) in coefficients(field, key, dt, symbols.len())?.into_iter().zip(symbols) {
        field.add(&mut sum, coefficient, symbol);
    }
    Ok(sum)
}
