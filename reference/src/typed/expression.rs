//! Expressions, as they are typed.

use super::cursor::Cursor;
use crate::refusal::Refusal;

/// "Nested at most 16 deep."
const MAX_OPEN: usize = 16;

/// "An expression is a sum or difference of products", each with the sign before
/// it; the first, which has none, is added.
pub struct Expression {
    /// The products, from the left.
    pub products: Vec<(Sign, Product)>,
}

/// A sign before a product.
#[derive(Clone, Copy)]
pub enum Sign {
    /// `+`
    Plus,
    /// `-`
    Minus,
}

/// A product: one or more factors.
pub struct Product {
    /// The first factor.
    pub first: Factor,
    /// The others, from the left.
    pub others: Vec<Factor>,
}

/// "A factor is a decimal number up to 65535, `x` with a digit 0 to 7, or an
/// expression in parentheses."
pub enum Factor {
    /// A number.
    Number(u16),
    /// The character at a position.
    Character(usize),
    /// An expression in parentheses.
    Parentheses(Expression),
}

impl Expression {
    /// Reads an expression.
    pub fn read(cursor: &mut Cursor) -> Result<Expression, Refusal> {
        Expression::read_within(cursor, 0)
    }

    /// Reads an expression within so many open parentheses.
    fn read_within(cursor: &mut Cursor, open: usize) -> Result<Expression, Refusal> {
        let mut products = vec![(Sign::Plus, Product::read(cursor, open)?)];
        while let Some(sign) = Sign::read(cursor) {
            products.push((sign, Product::read(cursor, open)?));
        }
        Ok(Expression { products })
    }
}

impl Sign {
    /// Takes a sign, if one comes next.
    fn read(cursor: &mut Cursor) -> Option<Sign> {
        if cursor.takes("+") {
            Some(Sign::Plus)
        } else if cursor.takes("-") {
            Some(Sign::Minus)
        } else {
            None
        }
    }
}

impl Product {
    /// Reads a product.
    fn read(cursor: &mut Cursor, open: usize) -> Result<Product, Refusal> {
        let first = Factor::read(cursor, open)?;
        let mut others = Vec::new();
        while cursor.takes("*") {
            others.push(Factor::read(cursor, open)?);
        }
        Ok(Product { first, others })
    }
}

impl Factor {
    /// Reads a factor. "A number and `x` with its digit are one each": no blank
    /// stands within.
    fn read(cursor: &mut Cursor, open: usize) -> Result<Factor, Refusal> {
        if cursor.takes("(") {
            if open == MAX_OPEN {
                return Err(Refusal::Grammar);
            }
            let expression = Expression::read_within(cursor, open + 1)?;
            cursor.expects(")")?;
            return Ok(Factor::Parentheses(expression));
        }
        if cursor.takes("x") {
            let position = digit(cursor.character()?).filter(|&digit| digit < 8);
            let position = position.ok_or(Refusal::Grammar)?;
            return Ok(Factor::Character(usize::from(position)));
        }
        number(cursor).map(Factor::Number)
    }
}

/// Takes a decimal number up to 65535, of one or more digits; zeros may lead.
fn number(cursor: &mut Cursor) -> Result<u16, Refusal> {
    cursor.skip_blanks();
    let digits = cursor.run_of(|character| digit(character).is_some());
    if digits.is_empty() {
        return Err(Refusal::Grammar);
    }
    let mut digits = digits.iter().filter_map(|&character| digit(character));
    let number = digits.try_fold(0_u16, |number, digit| {
        number.checked_mul(10)?.checked_add(digit)
    });
    number.ok_or(Refusal::Grammar)
}

/// The value of a decimal digit, 48 to 57.
fn digit(character: u16) -> Option<u16> {
    character.checked_sub(48).filter(|&digit| digit < 10)
}
