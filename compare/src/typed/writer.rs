//! Lines written as text, in random forms.

use reference::random::Random;
use reference::table::{Range, Sum, MAX_LENGTH};

use super::{Line, Pattern, Typed};

/// The text of lines, in a random form.
pub fn written(random: &mut Random, lines: &[Line]) -> Vec<u16> {
    let mut writer = Writer {
        random,
        text: Vec::new(),
    };
    for line in lines {
        writer.line(line);
    }
    writer.blanks();
    writer.text
}

/// A product: a sign before it, and its factors.
struct Product {
    minus: bool,
    factors: Vec<Factor>,
}

/// A factor.
#[derive(Clone, Copy)]
enum Factor {
    /// A number.
    Number(u16),
    /// `x` with a digit.
    Character(usize),
}

/// A text being written.
struct Writer<'r> {
    random: &'r mut Random,
    text: Vec<u16>,
}

impl Writer<'_> {
    /// Sometimes blanks and line ends.
    fn blanks(&mut self) {
        while self.random.one_in(6) {
            let blank = *self.random.pick(&[32, 32, 32, 10, 13]);
            self.text.push(blank);
        }
    }

    /// A symbol, after any blanks.
    fn symbol(&mut self, symbol: &str) {
        self.blanks();
        self.text.extend(symbol.encode_utf16());
    }

    /// A line.
    fn line(&mut self, line: &Line) {
        match &line.pattern {
            Some(pattern) => self.pattern(pattern),
            None => self.symbol("else"),
        }
        self.symbol("==>");
        self.symbol("[");
        for (place, output) in line.outputs.iter().enumerate() {
            if place > 0 {
                self.symbol(",");
            }
            match output {
                Typed::Sum(sum) => self.sum(sum),
                Typed::Any => self.any(),
            }
        }
        self.symbol("]");
        self.symbol(";");
    }

    /// A pattern, items of one character with brackets or without.
    fn pattern(&mut self, pattern: &Pattern) {
        self.symbol("\"");
        for item in &pattern.items {
            match item[..] {
                [Range { low, high }] if low == high && !self.random.one_in(4) => {
                    self.character(low, "\"\\[]$");
                }
                _ => self.brackets(item),
            }
        }
        let end = if pattern.anchored { "$\"" } else { "\"" };
        self.text.extend(end.encode_utf16());
    }

    /// Ranges in brackets, those of one character with `-` or without.
    fn brackets(&mut self, ranges: &[Range]) {
        let marks = "\"\\[]$-";
        self.text.push(u16::from(b'['));
        for range in ranges {
            self.character(range.low, marks);
            if range.low != range.high || self.random.one_in(8) {
                self.text.push(u16::from(b'-'));
                self.character(range.high, marks);
            }
        }
        self.text.push(u16::from(b']'));
    }

    /// A character in quotes, with a backslash where it needs one, and sometimes
    /// where it doesn't.
    fn character(&mut self, character: u16, marks: &str) {
        let is_mark = marks.encode_utf16().any(|mark| mark == character);
        if is_mark || self.random.one_in(16) {
            self.text.push(u16::from(b'\\'));
        }
        self.text.push(character);
    }

    /// An expression that comes to a sum.
    fn sum(&mut self, sum: &Sum) {
        let mut products = self.products(sum);
        self.random.shuffle(&mut products);
        self.signed(&products, false);
    }

    /// Products that add up to a sum, some of which cancel out or are 0.
    fn products(&mut self, sum: &Sum) -> Vec<Product> {
        let mut products = Vec::new();
        let mut add = |minus, factors: &[Factor]| {
            products.push(Product {
                minus,
                factors: factors.to_vec(),
            });
        };
        let (minus, constant) = (sum.constant < 0, sum.constant.unsigned_abs());
        let (times, rest) = (constant / 65535, constant % 65535);
        if times > 0 {
            let times = Factor::Number(times as u16);
            add(minus, &[times, Factor::Number(65535)]);
        }
        if rest > 0 || times == 0 {
            add(minus, &[Factor::Number(rest as u16)]);
        }
        for term in &sum.terms {
            let character = Factor::Character(term.position);
            let number = Factor::Number(term.coefficient.unsigned_abs());
            let minus = term.coefficient < 0;
            match term.coefficient {
                -1 | 1 => add(minus, &[character]),
                _ => add(minus, &[number, character]),
            }
        }
        let character = Factor::Character(self.random.below(MAX_LENGTH));
        let number = Factor::Number(self.random.character());
        match self.random.below(8) {
            0 => {
                add(false, &[number, character]);
                add(true, &[number, character]);
            }
            1 => add(false, &[Factor::Number(0), character, Factor::Number(7)]),
            _ => (),
        }
        products
    }

    /// Products with their signs, or with the others; sometimes those from one on
    /// in parentheses.
    fn signed(&mut self, products: &[Product], reversed: bool) {
        for (place, product) in products.iter().enumerate() {
            if place > 0 && self.random.one_in(8) {
                self.symbol("-");
                self.symbol("(");
                self.signed(&products[place..], !reversed);
                self.symbol(")");
                return;
            }
            match (place, product.minus != reversed) {
                (0, false) => (),
                (0, true) => {
                    self.symbol("0");
                    self.symbol("-");
                }
                (_, false) => self.symbol("+"),
                (_, true) => self.symbol("-"),
            }
            self.product(&product.factors);
        }
    }

    /// A product of factors in any order.
    fn product(&mut self, factors: &[Factor]) {
        let mut factors = factors.to_vec();
        self.random.shuffle(&mut factors);
        for (place, &factor) in factors.iter().enumerate() {
            if place > 0 {
                self.symbol("*");
            }
            self.factor(factor);
        }
    }

    /// A factor, sometimes in parentheses.
    fn factor(&mut self, factor: Factor) {
        let parentheses = match self.random.below(10) {
            0 => self.random.between(1, 3) as usize,
            _ => 0,
        };
        (0..parentheses).for_each(|_| self.symbol("("));
        match factor {
            Factor::Number(number) => {
                let zeros = if self.random.one_in(8) { "00" } else { "" };
                self.symbol(&format!("{zeros}{number}"));
            }
            Factor::Character(position) => self.symbol(&format!("x{position}")),
        }
        (0..parentheses).for_each(|_| self.symbol(")"));
    }

    /// Any expression, of which some are at a limit.
    fn any(&mut self) {
        match self.random.below(8) {
            0 => self.nested(),
            1 => self.large(),
            _ => self.any_sum(3),
        }
    }

    /// A factor in about 16 parentheses.
    fn nested(&mut self) {
        let depth = self.random.between(15, 17) as usize;
        self.text.extend("(".repeat(depth).encode_utf16());
        self.any_sum(0);
        self.text.extend(")".repeat(depth).encode_utf16());
    }

    /// A sum that comes to about 2147483648 or -2147483648, or to a coefficient that
    /// does, and from there back to 0.
    fn large(&mut self) {
        let part = *self.random.pick(&["1", "x0", "x1", "x7"]);
        let most = self.random.between(32_766, 32_770);
        let [away, back] = *self.random.pick(&[["+", "-"], ["-", "+"]]);
        self.symbol("0");
        for sign in [away, back] {
            self.symbol(&format!("{sign}65535*32768*{part}{sign}{most}*{part}"));
        }
    }

    /// Any expression with so many parentheses within each other.
    fn any_sum(&mut self, depth: usize) {
        self.any_product(depth);
        while self.random.one_in(2) {
            let sign = *self.random.pick(&["+", "+", "-"]);
            self.symbol(sign);
            self.any_product(depth);
        }
    }

    /// Any product.
    fn any_product(&mut self, depth: usize) {
        self.any_factor(depth);
        while self.random.one_in(3) {
            self.symbol("*");
            self.any_factor(depth);
        }
    }

    /// Any factor.
    fn any_factor(&mut self, depth: usize) {
        match self.random.below(8) {
            0..=3 => {
                let any = self.random.character();
                let number = *self.random.pick(&[0, 1, 2, 3, 10, 32768, 65535, any]);
                self.factor(Factor::Number(number));
            }
            4..=5 => {
                let position = *self.random.pick(&[0, 0, 0, 1, 1, 2, 7]);
                self.factor(Factor::Character(position));
            }
            6 if depth > 0 => {
                self.symbol("(");
                self.any_sum(depth - 1);
                self.symbol(")");
            }
            _ => self.factor(Factor::Number(1)),
        }
    }
}
