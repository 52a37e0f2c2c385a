//! Expressions brought to constant and coefficients, or refused by 17.

use super::expression::{Expression, Factor, Product, Sign};
use crate::refusal::Refusal;
use crate::table::{Record, Term, MAX_LENGTH};

/// A part of an expression: a constant and a coefficient for each position, in
/// signed 32 bits, "a product or sum as far as it is read included".
#[derive(Clone, Copy)]
pub struct Part {
    constant: i32,
    coefficients: [i32; MAX_LENGTH],
}

impl Part {
    /// A part without coefficients.
    fn number(constant: i32) -> Part {
        Part {
            constant,
            coefficients: [0; MAX_LENGTH],
        }
    }

    /// The character at a position.
    fn character(position: usize) -> Part {
        let mut part = Part::number(0);
        part.coefficients[position] = 1;
        part
    }

    /// What an expression comes to, "read from the left".
    pub fn of(expression: &Expression) -> Result<Part, Refusal> {
        let mut products = expression.products.iter();
        products.try_fold(Part::number(0), |sum, (sign, product)| {
            let product = Part::of_product(product)?;
            match sign {
                Sign::Plus => sum.with(&product, i32::checked_add),
                Sign::Minus => sum.with(&product, i32::checked_sub),
            }
        })
    }

    /// What a product comes to, from the left.
    fn of_product(product: &Product) -> Result<Part, Refusal> {
        let first = Part::of_factor(&product.first)?;
        let mut others = product.others.iter();
        others.try_fold(first, |so_far, factor| {
            so_far.times(Part::of_factor(factor)?)
        })
    }

    /// What a factor comes to.
    fn of_factor(factor: &Factor) -> Result<Part, Refusal> {
        match factor {
            Factor::Number(number) => Ok(Part::number(i32::from(*number))),
            Factor::Character(position) => Ok(Part::character(*position)),
            Factor::Parentheses(expression) => Part::of(expression),
        }
    }

    /// The product: 17 where both factors "then have a coefficient other than 0".
    fn times(self, other: Part) -> Result<Part, Refusal> {
        let (number, part) = match (self.is_number(), other.is_number()) {
            (true, _) => (self.constant, other),
            (_, true) => (other.constant, self),
            _ => return Err(Refusal::Expression),
        };
        let numbers = Part {
            constant: number,
            coefficients: [number; MAX_LENGTH],
        };
        part.with(&numbers, i32::checked_mul)
    }

    /// Whether every coefficient is 0.
    fn is_number(&self) -> bool {
        self.coefficients
            .iter()
            .all(|&coefficient| coefficient == 0)
    }

    /// Constant with constant and coefficient with coefficient; 17 for one that
    /// comes to lie "outside signed 32 bits".
    fn with(
        mut self,
        other: &Part,
        operation: fn(i32, i32) -> Option<i32>,
    ) -> Result<Part, Refusal> {
        let combined = |one, other| operation(one, other).ok_or(Refusal::Expression);
        self.constant = combined(self.constant, other.constant)?;
        for (one, &other) in self.coefficients.iter_mut().zip(&other.coefficients) {
            *one = combined(*one, other)?;
        }
        Ok(self)
    }

    /// Kind 3, and kind 4 for each coefficient by position, "a final coefficient
    /// of 0 giving no record"; 17 for one "outside signed 16 bits".
    pub fn records(&self) -> Result<Vec<Record>, Refusal> {
        let mut records = vec![Record::Output {
            constant: self.constant,
        }];
        for (position, &coefficient) in self.coefficients.iter().enumerate() {
            let coefficient = i16::try_from(coefficient).map_err(|_| Refusal::Expression)?;
            if coefficient != 0 {
                records.push(Record::Term(Term {
                    position,
                    coefficient,
                }));
            }
        }
        Ok(records)
    }
}
