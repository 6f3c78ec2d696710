//! Lines that fit a width and break between words alone.

/// The most columns of a line on standard error.
pub const WIDEST: usize = 100;

/// The columns to which a line is wrapped in a terminal that has fewer.
pub const NARROWEST: usize = 40;

/// The most columns of a help.
pub const HELP: usize = 80;

/// A text in lines of at most so many columns, of which all but the first begin with so many spaces. A word that is longer than
/// a line stays whole.
pub fn lines(text: &str, indent: usize, width: usize) -> String {
    let (mut lines, mut used) = (String::new(), 0);
    for word in text.split(' ') {
        let length = word.chars().count();
        if used > 0 && used + 1 + length > width {
            lines += &format!("\n{}", " ".repeat(indent));
            used = indent;
        } else if used > 0 {
            lines.push(' ');
            used += 1;
        }
        lines += word;
        used += length;
    }
    lines
}

#[cfg(test)]
mod tests {
    use super::lines;

    #[test]
    fn lines_fit_and_no_word_is_cut() {
        assert_eq!(lines("one two three four", 2, 9), "one two\n  three\n  four");
        assert_eq!(lines("one twothreefour five", 0, 8), "one\ntwothreefour\nfive");
        assert_eq!(lines("", 4, 8), "");
    }

    #[test]
    fn a_text_that_fits_is_one_line() {
        assert_eq!(lines("a  b c", 4, 6), "a  b c");
    }
}
