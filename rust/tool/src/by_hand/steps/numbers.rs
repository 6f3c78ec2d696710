//! Numbers, powers and products as they stand in the steps.

use super::INDENT;
use crate::by_hand::{CALCULATOR, Power};

/// A number as it stands within a product.
pub fn signed(number: impl Into<i128>) -> String {
    match number.into() {
        number if number < 0 => format!("({number})"),
        number => number.to_string(),
    }
}

/// The product of powers and what it leaves. Powers of 1 are left out.
pub fn powers_text(powers: &[Power], rest: u32, modulus: u32) -> String {
    let factors: Vec<&Power> = powers.iter().filter(|power| power.base != 1).collect();
    let written: Vec<String> = factors.iter().map(|power| written(power)).collect();
    match factors[..] {
        [] => "1".to_string(),
        [power] => power_text(power, modulus),
        _ => {
            let rests: Vec<u32> = factors.iter().map(|power| power.rest).collect();
            format!("{} ≡ {}", written.join(" · "), product(&rests, rest))
        }
    }
}

/// A power before it is computed.
fn written(power: &Power) -> String {
    format!("{}^{}", power.base, power.exponent)
}

/// A power and what it leaves, with the whole of it between where a calculator shows it.
pub fn power_text(power: &Power, modulus: u32) -> String {
    let (written, rest) = (written(power), power.rest);
    match power.whole() {
        Some(whole) if whole < modulus.into() => format!("{written} = {whole}"),
        Some(whole) => format!("{written} = {whole} ≡ {rest}"),
        None => format!("{written} ≡ {rest}"),
    }
}

/// A product and what it leaves, with the whole of it between where a calculator shows it.
pub fn product(factors: &[u32], rest: u32) -> String {
    let written: Vec<String> = factors.iter().map(u32::to_string).collect();
    let written = written.join(" · ");
    let whole = factors.iter().try_fold(1u64, |whole, factor| whole.checked_mul((*factor).into()));
    match whole.filter(|whole| *whole <= CALCULATOR) {
        Some(whole) if whole == rest.into() => format!("{written} = {whole}"),
        Some(whole) => format!("{written} = {whole} ≡ {rest}"),
        None => format!("{written} ≡ {rest}"),
    }
}

/// Whether a calculator shows the squares of all numbers below a modulus.
pub fn shows_squares(modulus: u32) -> bool {
    u64::from(modulus).pow(2) <= CALCULATOR
}

/// How the powers are had that a calculator does not show, where it shows squares.
pub fn by_squaring(powers: impl Iterator<Item = Power>, modulus: u32) -> String {
    let mut large: Vec<Power> = Vec::new();
    for power in powers.filter(|power| power.whole().is_none()) {
        if !large.contains(&power) && shows_squares(modulus) {
            large.push(power);
        }
    }
    large.iter().map(|power| squares(power, modulus)).collect()
}

/// How a power is had by squaring.
fn squares(power: &Power, modulus: u32) -> String {
    let squares = power.squares(modulus);
    let first = Power { exponent: 1, rest: power.base % modulus, ..*power };
    let factors: Vec<Power> = std::iter::once(first)
        .chain(squares.iter().copied())
        .filter(|square| power.exponent & square.exponent != 0)
        .collect();
    let chain: Vec<String> =
        squares.iter().map(|square| format!("{} ≡ {}", written(square), square.rest)).collect();
    let sum: Vec<String> = factors.iter().map(|factor| factor.exponent.to_string()).collect();
    let rests: Vec<String> = factors.iter().map(|factor| factor.rest.to_string()).collect();
    format!(
        "{INDENT}{} by squares: {}; {} = {}, {} ≡ {}\n",
        written(power),
        chain.join(", "),
        power.exponent,
        sum.join(" + "),
        rests.join(" · "),
        power.rest
    )
}
