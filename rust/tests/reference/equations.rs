//! All equations of the accepted packets, over all positions that they name, in reduced form. No equation is ever dropped, wherever the
//! window stands.
//!
//! Why this is exact. Three things hold of a [`System`] at all times:
//!
//! 1. its rows and its known positions have the same fillings as the equations admitted so far, since admitting adds multiples of rows to
//!    rows, scales a row by an element other than zero, and adds the new equation;
//! 2. every row has coefficient 1 at its pivot, and neither a pivot nor a known position stands in another row;
//! 3. a row with a single coefficient is a known position with its bytes.
//!
//! An equation that reduces to no coefficients therefore is implied (sum zero) or contradicts (sum not zero), and one that keeps a
//! coefficient can be met by choosing the byte there. A position in a row of two or more coefficients, or in none, is not known: by 2 all
//! positions but the pivots are free, and each row's pivot changes with the free positions of its row.

use super::Field;
use std::collections::{BTreeMap, HashMap};

/// The sum of coefficient times symbol over the terms is `sum`. No coefficient is zero.
#[derive(Clone, Debug, PartialEq, Eq)]
pub struct Equation {
    pub terms: BTreeMap<u64, u8>,
    pub sum: Vec<u8>,
}

impl Equation {
    pub fn new(first: u64, coefficients: &[u8], sum: &[u8]) -> Equation {
        let terms = (first..).zip(coefficients.iter().copied()).filter(|&(_, c)| c != 0).collect();
        Equation { terms, sum: sum.to_vec() }
    }

    /// Adds coefficient times the other equation.
    fn add(&mut self, field: Field, coefficient: u8, other: &Equation) {
        for (&position, &c) in &other.terms {
            let term = self.terms.entry(position).or_insert(0);
            *term ^= field.times(coefficient, c);
            if *term == 0 {
                self.terms.remove(&position);
            }
        }
        field.add(&mut self.sum, coefficient, &other.sum);
    }

    /// The equation divided by an element other than zero.
    fn divided(&self, field: Field, element: u8) -> Equation {
        let mut scaled = Equation { terms: BTreeMap::new(), sum: vec![0; self.sum.len()] };
        scaled.add(field, field.invert(element), self);
        scaled
    }
}

#[derive(Debug, PartialEq, Eq)]
pub struct Contradicts;

#[derive(Clone)]
pub struct System {
    field: Field,
    /// The known positions with their bytes.
    known: HashMap<u64, Vec<u8>>,
    /// Rows with two or more coefficients, by pivot: the newest position of the equation when it came.
    rows: BTreeMap<u64, Equation>,
}

impl System {
    pub fn new(field: Field) -> System {
        System { field, known: HashMap::new(), rows: BTreeMap::new() }
    }

    pub fn known(&self, position: u64) -> Option<&[u8]> {
        self.known.get(&position).map(Vec::as_slice)
    }

    pub fn known_count(&self) -> usize {
        self.known.len()
    }

    pub fn row_count(&self) -> usize {
        self.rows.len()
    }

    /// The equation without known positions and pivots. One pass is enough: rows hold neither, but for their own pivot.
    pub fn reduced(&self, mut equation: Equation) -> Equation {
        let positions: Vec<u64> = equation.terms.keys().copied().collect();
        for position in positions {
            if let Some(bytes) = self.known.get(&position) {
                let coefficient = equation.terms.remove(&position).expect("no row names a known position");
                self.field.add(&mut equation.sum, coefficient, bytes);
            } else if let Some(row) = self.rows.get(&position) {
                let coefficient = equation.terms[&position];
                equation.add(self.field, coefficient, row);
            }
        }
        equation
    }

    /// Admits an equation, and gives the positions that it makes known.
    pub fn admit(&mut self, equation: Equation) -> Result<Vec<u64>, Contradicts> {
        let equation = self.reduced(equation);
        let Some((&pivot, &coefficient)) = equation.terms.last_key_value() else {
            return if equation.sum.iter().all(|&b| b == 0) { Ok(Vec::new()) } else { Err(Contradicts) };
        };
        let equation = equation.divided(self.field, coefficient);
        for row in self.rows.values_mut() {
            if let Some(&c) = row.terms.get(&pivot) {
                row.add(self.field, c, &equation);
            }
        }
        self.rows.insert(pivot, equation);
        let solved: Vec<u64> = self.rows.iter().filter(|(_, row)| row.terms.len() == 1).map(|(&p, _)| p).collect();
        for position in &solved {
            let row = self.rows.remove(position).expect("a solved row");
            self.known.insert(*position, row.sum);
        }
        Ok(solved)
    }

    /// Admits all equations of a packet or none. The reduced equations name no pivot and no known position, so together with the system
    /// they contradict exactly when they contradict each other.
    pub fn admit_all(&mut self, equations: Vec<Equation>) -> Result<Vec<u64>, Contradicts> {
        let mut packet = System::new(self.field);
        for equation in &equations {
            packet.admit(self.reduced(equation.clone()))?;
        }
        let mut solved = Vec::new();
        for equation in equations {
            solved.extend(self.admit(equation).expect("the packet agrees with the system"));
        }
        Ok(solved)
    }
}
