//! Every equation that is printed holds, by an arithmetic of its own.

use super::text;
use crate::by_hand;
use crate::by_hand::tests::{Random, honest};
use dimkhoros::{EXPONENT, ROOT};

/// What is left to read of a formula, and the modulus, without which it is computed in integers.
struct Formula<'a> {
    rest: &'a str,
    modulus: Option<i128>,
}

impl Formula<'_> {
    /// Takes these characters, where they come next.
    fn take(&mut self, word: &str) -> bool {
        let rest = self.rest.strip_prefix(word);
        self.rest = rest.unwrap_or(self.rest);
        rest.is_some()
    }

    /// A value modulo the modulus, if there is one.
    fn reduced(&self, value: i128) -> i128 {
        self.modulus.map_or(value, |modulus| value.rem_euclid(modulus))
    }

    /// A sum.
    fn sum(&mut self) -> Option<i128> {
        let mut sum = self.product()?;
        while let Some(sign) = self.sign() {
            let next = self.product()?;
            sum = self.reduced(sum.checked_add(sign * next)?);
        }
        Some(sum)
    }

    /// The sign between two terms, where one comes next.
    fn sign(&mut self) -> Option<i128> {
        let plus = self.take(" + ");
        let minus = !plus && self.take(" - ");
        (plus || minus).then_some(if plus { 1 } else { -1 })
    }

    /// A product.
    fn product(&mut self) -> Option<i128> {
        let mut product = self.power()?;
        while self.take(" · ") || self.take("·") {
            let next = self.power()?;
            product = self.reduced(product.checked_mul(next)?);
        }
        Some(product)
    }

    /// A power, by multiplying again and again.
    fn power(&mut self) -> Option<i128> {
        let base = self.number()?;
        if !self.take("^") {
            return Some(base);
        }
        let exponent = self.number()?;
        let base = if exponent < 0 { self.inverse(base)? } else { self.reduced(base) };
        (0..exponent.abs())
            .try_fold(1, |power: i128, _| Some(self.reduced(power.checked_mul(base)?)))
    }

    /// The inverse, by trying all.
    fn inverse(&self, value: i128) -> Option<i128> {
        let modulus = self.modulus?;
        (1..modulus).find(|inverse| (inverse * value).rem_euclid(modulus) == 1)
    }

    /// A number, or a sum in brackets.
    fn number(&mut self) -> Option<i128> {
        if self.take("(") {
            let sum = self.sum();
            return sum.filter(|_| self.take(")"));
        }
        let sign = if self.take("-") { -1 } else { 1 };
        let end = self.rest.find(|next: char| !next.is_ascii_digit()).unwrap_or(self.rest.len());
        let (digits, rest) = self.rest.split_at(end);
        self.rest = rest;
        Some(sign * digits.parse::<i128>().ok()?)
    }
}

/// The value of a formula that has no letters.
fn value(formula: &str, modulus: Option<i128>) -> Option<i128> {
    let mut formula = Formula { rest: formula.trim(), modulus };
    let value = formula.sum()?;
    formula.rest.is_empty().then(|| formula.reduced(value))
}

/// Whether both sides of an equation are numbers, which are then equal: modulo the modulus where the sign is ≡ or an inverse stands
/// there, else as integers.
fn holds(sides: &[&str], sign: char, modulus: u32) -> bool {
    let congruent = sign == '≡' || sides.concat().contains("^(-");
    let modulus = congruent.then_some(modulus.into());
    let [left, right] = [0, 1].map(|side| value(sides[side], modulus));
    let known = left.is_some() && right.is_some();
    assert!(!known || left == right, "{} {sign} {} does not hold", sides[0], sides[1]);
    known
}

/// How many equations of numbers a piece of text has, all of which hold.
fn equations(piece: &str, modulus: u32) -> usize {
    let sides: Vec<&str> = piece.split(['=', '≡']).collect();
    let signs = piece.chars().filter(|sign| matches!(sign, '=' | '≡'));
    sides.windows(2).zip(signs).filter(|(sides, sign)| holds(sides, *sign, modulus)).count()
}

/// The pieces of a text between which no equation goes on.
fn pieces(text: &str) -> Vec<String> {
    let mut text = text.replace("=  ", "= ");
    while text.contains("  + ") {
        text = text.replace("  + ", " + ");
    }
    let ends = ["  ", ", since ", ", and ", "; ", ": ", " and ", " will do", ", "];
    let text = ends.iter().fold(text, |text, end| text.replace(end, "\n"));
    text.lines().map(str::to_string).collect()
}

#[test]
fn every_equation_of_the_steps_holds() {
    let mut random = Random(11);
    let mut count = 0;
    for kind in [EXPONENT, ROOT].repeat(300) {
        let (sheet, first, second) = honest(kind, &mut random);
        let text = text(&sheet, [0, 1], &by_hand::steps(&sheet, &first, &second).unwrap());
        let modulus = sheet.values().header.modulus;
        let found: usize = pieces(&text).iter().map(|piece| equations(piece, modulus)).sum();
        assert!(found > 8, "{found} equations were found in\n{text}");
        count += found;
    }
    assert!(count > 15_000, "{count} equations");
}

#[test]
fn an_equation_that_does_not_hold_is_found() {
    assert_eq!(pieces("  x =  2·3  + 1  7 - 1").len(), 3);
    assert_eq!(equations("x = 6·(4 - 1) = 6·3 = 18", 11), 2);
    assert_eq!(equations("32^(-1) = 23^1 = 23 ≡ 58", 35), 3);
    for wrong in ["6·(-3) = 18", "2^7 = 128 ≡ 12", "32^(-1) = 22^1", "11·(-1) + 2·6 = 2"] {
        assert!(std::panic::catch_unwind(|| equations(wrong, 35)).is_err(), "{wrong}");
    }
}
