//! A row of a statement over generators, as Maurer's paper writes it, such as `h1^x3 h2^x1` or `h1^(x1 + 2x2)`.

/// A generator or a secret by its number, from 1. The only one of its letter may have none.
pub type Name = Option<u32>;

/// A power of a generator.
#[derive(Clone, Debug, PartialEq)]
pub struct Power {
    /// The generator.
    pub generator: Name,
    /// The exponent, a linear form of the secrets.
    pub form: Vec<Term>,
}

/// A multiple of a secret.
#[derive(Clone, Copy, Debug, PartialEq)]
pub struct Term {
    /// Whether a minus stands before it.
    pub minus: bool,
    /// The number before the secret, 1 where none is written.
    pub factor: u32,
    /// The secret.
    pub secret: Name,
}

const SIGNS: [char; 3] = ['+', '-', '−'];
const TIMES: [char; 2] = ['*', '·'];

/// The place of a generator or a secret, from 0.
pub fn place(name: Name) -> usize {
    name.map_or(0, |number| number as usize - 1)
}

/// The powers of a row, none for `1`, or what is wrong with it.
pub fn read(text: &str) -> Result<Vec<Power>, String> {
    let mut reader = Reader { rest: text };
    if text.trim() == "1" {
        return Ok(Vec::new());
    }
    let mut powers = vec![reader.power()?];
    while reader.take(&TIMES).is_some() || !reader.is_at_end() {
        powers.push(reader.power()?);
    }
    Ok(powers)
}

/// What is still to be read of a row.
struct Reader<'a> {
    rest: &'a str,
}

impl Reader<'_> {
    /// Takes one of these characters, if it comes next. Spaces before it do not count.
    fn take(&mut self, any: &[char]) -> Option<char> {
        self.rest = self.rest.trim_start();
        let found = self.rest.chars().next().filter(|next| any.contains(next))?;
        self.rest = &self.rest[found.len_utf8()..];
        Some(found)
    }

    /// Takes this character, or says what comes in the place of what is wanted.
    fn need(&mut self, character: char, wanted: &str) -> Result<(), String> {
        match self.take(&[character]) {
            Some(_) => Ok(()),
            None if self.rest.is_empty() => Err(format!("{wanted} is missing at the end")),
            None => Err(format!("`{}` stands in the place of {wanted}", self.rest)),
        }
    }

    /// Whether nothing but spaces comes.
    fn is_at_end(&self) -> bool {
        self.rest.trim_start().is_empty()
    }

    /// Takes the digits that come next, if any do.
    fn number(&mut self) -> Result<Option<u32>, String> {
        let count = self.rest.bytes().take_while(u8::is_ascii_digit).count();
        let (digits, rest) = self.rest.split_at(count);
        self.rest = rest;
        match digits {
            "" => Ok(None),
            _ => digits.parse().map(Some).map_err(|_| format!("{digits} has more than 32 bits")),
        }
    }

    /// Takes the name of a generator or a secret.
    fn name(&mut self, letter: char, wanted: &str) -> Result<Name, String> {
        self.need(letter, wanted)?;
        match self.number()? {
            Some(0) => Err(format!("{letter}0 is there; the first is {letter}1")),
            number => Ok(number),
        }
    }

    /// Takes a power of a generator.
    fn power(&mut self) -> Result<Power, String> {
        let generator = self.name('h', "a power such as h1^x3")?;
        self.need('^', "^")?;
        Ok(Power { generator, form: self.exponent()? })
    }

    /// Takes a secret, or a linear form in brackets.
    fn exponent(&mut self) -> Result<Vec<Term>, String> {
        if self.take(&['(']).is_none() {
            let secret = self.name('x', "a secret such as x3, or a form such as (x1 + 2x3),")?;
            return Ok(vec![Term { minus: false, factor: 1, secret }]);
        }
        let first = self.take(&SIGNS).unwrap_or('+');
        let mut form = vec![self.term(first)?];
        while let Some(sign) = self.take(&SIGNS) {
            form.push(self.term(sign)?);
        }
        self.need(')', "+, - or )")?;
        Ok(form)
    }

    /// Takes a multiple of a secret, before which this sign stands.
    fn term(&mut self, sign: char) -> Result<Term, String> {
        self.rest = self.rest.trim_start();
        let factor = self.number()?;
        if factor.is_some() {
            self.take(&TIMES);
        }
        let secret = self.name('x', "a secret such as x3")?;
        Ok(Term { minus: sign != '+', factor: factor.unwrap_or(1), secret })
    }
}

#[cfg(test)]
mod tests {
    use super::{Power, Term, read};

    /// A term with a plus.
    fn term(factor: u32, secret: u32) -> Term {
        Term { minus: false, factor, secret: Some(secret) }
    }

    #[test]
    fn rows_are_read_with_and_without_spaces_and_signs_of_multiplication() {
        let product = vec![
            Power { generator: Some(1), form: vec![term(1, 3)] },
            Power { generator: Some(2), form: vec![term(1, 1)] },
        ];
        for text in ["h1^x3 h2^x1", "h1^x3*h2^x1", " h1 ^ x3 · h2^(x1) ", "h1^x3h2^x1"] {
            assert_eq!(read(text).unwrap(), product);
        }
        let form = vec![term(2, 1), Term { minus: true, ..term(1, 2) }, term(10, 3)];
        for text in ["h1^(2x1-x2+10x3)", "h1^( + 2 x1 − x2 + 10*x3 )", "h1^(2·x1-1x2+10x3)"] {
            assert_eq!(read(text), Ok(vec![Power { generator: Some(1), form: form.clone() }]));
        }
        let only = Term { minus: false, factor: 1, secret: None };
        assert_eq!(read("h^x"), Ok(vec![Power { generator: None, form: vec![only] }]));
        assert_eq!(read(" 1 "), Ok(Vec::new()));
    }

    #[test]
    fn what_is_no_row_is_told_and_nothing_else_happens() {
        for text in
            ["", " ", "*", "11", "h", "h1", "h1^", "h1^(", "h1^()", "h1^(x1", "h1^2x1", "h1^3"]
        {
            assert!(read(text).is_err(), "{text}");
        }
        for text in ["h1^x1 *", "h1^(x1 x2)", "h1^(x1+)", "h1^(x1++x2)", "h0^x1", "h1^x0", "g1^x1"]
        {
            assert!(read(text).is_err(), "{text}");
        }
        for text in ["h4294967296^x1", "h1^(99999999999999999999x1)", "h1^x1)", "h 1^x1", "0 0 1 0"]
        {
            assert!(read(text).is_err(), "{text}");
        }
    }

    #[test]
    fn any_text_of_the_characters_of_rows_is_read_or_told() {
        let characters: Vec<char> = "h1^x2(+-−*· )0".chars().collect();
        let mut taken = 0;
        for number in 0..characters.len().pow(5) {
            let place = |at: u32| characters[number / characters.len().pow(at) % characters.len()];
            let text: String = (0..5).map(place).collect();
            taken += usize::from(read(&text).is_ok());
        }
        assert!(taken > 10, "{taken} texts are rows");
    }
}
