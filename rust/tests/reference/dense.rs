//! The same question answered from nothing: plain elimination on one dense matrix of all equations of a history. It is slow, and holds up
//! `equations` in a test of its own.

use super::equations::Equation;
use super::Field;
use std::collections::{BTreeMap, BTreeSet};

/// The known positions of a history with their bytes, or none where no filling satisfies it.
pub fn known(field: Field, equations: &[Equation]) -> Option<BTreeMap<u64, Vec<u8>>> {
    let positions: BTreeSet<u64> = equations.iter().flat_map(|e| e.terms.keys().copied()).collect();
    let positions: Vec<u64> = positions.into_iter().collect();
    let columns = positions.len();
    let mut matrix: Vec<Vec<u8>> = equations
        .iter()
        .map(|e| {
            let mut row: Vec<u8> = positions.iter().map(|p| e.terms.get(p).copied().unwrap_or(0)).collect();
            row.extend_from_slice(&e.sum);
            row
        })
        .collect();
    let mut rank = 0;
    let mut pivots = Vec::new();
    for column in 0..columns {
        let Some(found) = (rank..matrix.len()).find(|&r| matrix[r][column] != 0) else { continue };
        matrix.swap(rank, found);
        let inverse = field.invert(matrix[rank][column]);
        let mut pivot_row = vec![0; matrix[rank].len()];
        field.add(&mut pivot_row, inverse, &matrix[rank]);
        for (r, row) in matrix.iter_mut().enumerate() {
            if r != rank && row[column] != 0 {
                let coefficient = row[column];
                field.add(row, coefficient, &pivot_row);
            }
        }
        matrix[rank] = pivot_row;
        pivots.push(column);
        rank += 1;
    }
    if matrix[rank..].iter().any(|row| row.iter().any(|&b| b != 0)) {
        return None;
    }
    let single = |row: &Vec<u8>| row[..columns].iter().filter(|&&c| c != 0).count() == 1;
    let solved = matrix[..rank].iter().zip(pivots).filter(|(row, _)| single(row));
    Some(solved.map(|(row, column)| (positions[column], row[columns..].to_vec())).collect())
}
