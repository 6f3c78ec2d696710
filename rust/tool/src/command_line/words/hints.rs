//! What is wrong with a word, and what to write in its place.

use super::Grammar;
use crate::command_line::failure::{Failure, Outcome};
use crate::sheets::notation::enumerated;
use std::ffi::{OsStr, OsString};

/// The number of a decimal text.
pub fn number(text: &str) -> Result<u32, String> {
    if text.is_empty() {
        return Err("a number is missing; values have no spaces in them, as in x=1,2".to_string());
    }
    if !text.bytes().all(|byte| byte.is_ascii_digit()) {
        return Err(format!("`{text}` is not a number here: a number is 0 or more, in digits"));
    }
    text.parse().map_err(|_| format!("{text} has more than 32 bits"))
}

/// Fails where a word looks like a value or an option that was typed in another way.
pub fn check_typed(word: &str) -> Outcome {
    if word.starts_with('=') {
        return Err(Failure::words("a value has no spaces in it, as in c=3"));
    }
    if word.starts_with(['‐', '‑', '‒', '–', '—', '−']) {
        Err(Failure::words(format!("{word} begins with a long dash; write -")))
    } else {
        Ok(())
    }
}

/// Says that a letter is none of the grammar's.
pub fn no_letter(letter: &str, grammar: &Grammar) -> Failure {
    let same = grammar.letters.iter().find(|other| other.eq_ignore_ascii_case(letter));
    let letters: Vec<String> = grammar.letters.iter().map(|letter| format!("{letter}=")).collect();
    Failure::words(match same {
        Some(same) => format!("there is no value {letter}= here; write {same}="),
        None if letters.is_empty() => format!("there is no value {letter}= here"),
        None => format!("there is no value {letter}= here; the values are {}", letters.join(", ")),
    })
}

/// Fails if what comes after an option is an option itself.
pub fn check_value(option: &str, value: &OsStr, grammar: &Grammar) -> Outcome {
    match grammar.options.iter().chain(grammar.flags).find(|other| value == **other) {
        Some(other) => {
            Err(Failure::words(format!("a word is missing between {option} and {other}")))
        }
        None => Ok(()),
    }
}

/// Says that an option is none of the grammar's, and what to write, of which the next word may be a part.
pub fn no_option(option: &str, next: Option<OsString>, grammar: &Grammar) -> Failure {
    let (name, value) = option.split_once('=').unwrap_or((option, ""));
    if let Some(letter) = grammar.letters.iter().find(|letter| name.trim_matches('-') == **letter) {
        let next = next.unwrap_or_default();
        let value = if value.is_empty() { next.to_string_lossy() } else { value.into() };
        return Failure::words(format!("there is no option {name} here; write {letter}={value}"));
    }
    let all: Vec<&str> = grammar.options.iter().chain(grammar.flags).copied().collect();
    let meant = meant(name, all.iter().copied());
    Failure::words(match (all.is_empty(), meant.is_empty()) {
        (true, _) => format!("there is no option {name} here"),
        (_, false) => format!("there is no option {name} here{meant}"),
        _ => format!("there is no option {name} here; the options are {}", all.join(", ")),
    })
}

/// Says that the first of these plain words is one too many.
pub fn one_too_many(words: &[OsString], grammar: &Grammar) -> Failure {
    let texts: Vec<String> = words.iter().map(|word| word.to_string_lossy().into()).collect();
    let (word, next) = (&texts[0], texts.get(1).map_or("", String::as_str));
    let is_value = word.bytes().all(|byte| byte.is_ascii_digit() || b",/".contains(&byte));
    let hint = match grammar.letters.first() {
        _ if grammar.letters.contains(&word.as_str()) => format!("; write {word}={next}"),
        Some(letter) if is_value => {
            format!("; a value comes after its letter, as in {letter}={word}")
        }
        _ if grammar.letters.contains(&"row") && word.contains('^') => {
            "; a row has quotes around it, as in row='h1^x3 h2^x1'".to_string()
        }
        _ if grammar.options.contains(&"-o") => "; a file to write comes after -o".to_string(),
        _ => String::new(),
    };
    Failure::words(format!("the word {word} is one too many{hint}"))
}

/// Says that a letter or an option is there twice.
pub fn twice(name: &str) -> Failure {
    Failure::words(format!("{name} is there twice"))
}

/// What a command is to do, which is its first word and one of these, and the other words.
pub fn deed(
    command: &str,
    deeds: &[&'static str],
    words: Vec<OsString>,
) -> Outcome<(&'static str, Vec<OsString>)> {
    let mut words = words.into_iter();
    let all = enumerated(deeds, "or");
    let Some(first) = words.next() else {
        return Err(Failure::words(format!("the word after {command} is missing: {all}")));
    };
    match deeds.iter().find(|deed| first == **deed) {
        Some(deed) => Ok((deed, words.collect())),
        None => {
            let first = first.to_string_lossy();
            let meant = meant(&first, deeds.iter().copied());
            Err(Failure::words(format!(
                "the word after {command} must be {all}, and not {first}{meant}"
            )))
        }
    }
}

/// A question whether a word stands for the name that is most like it, if one is like it.
pub fn meant<'a>(word: &str, names: impl Iterator<Item = &'a str>) -> String {
    let length = word.chars().count();
    // A name that is longer or shorter by more is not like the word, however long that is.
    let names = names.filter(|name| name.len().abs_diff(length) <= 2);
    let near = names.map(|name| (steps_between(word, name), name)).min();
    match near {
        Some((steps, name)) if steps <= 2 && steps < name.len() && steps < length => {
            format!("; did you mean {name}?")
        }
        _ => String::new(),
    }
}

/// How many letters are to be left out, put in or changed, or neighbours swapped, to make one word of another.
fn steps_between(one: &str, other: &str) -> usize {
    let [one, other] = [one, other].map(|word| word.chars().collect::<Vec<char>>());
    // The steps between the beginnings of the words, by the lengths of these.
    let mut steps: Vec<Vec<usize>> = vec![(0..=other.len()).collect()];
    for (i, letter) in one.iter().enumerate() {
        let mut row = vec![i + 1];
        for (j, wanted) in other.iter().enumerate() {
            let changed = steps[i][j] + usize::from(letter != wanted);
            let swapped = if i > 0 && j > 0 && *letter == other[j - 1] && one[i - 1] == *wanted {
                steps[i - 1][j - 1] + 1
            } else {
                usize::MAX
            };
            row.push(changed.min(swapped).min(row[j] + 1).min(steps[i][j + 1] + 1));
        }
        steps.push(row);
    }
    steps[one.len()][other.len()]
}

#[cfg(test)]
mod tests {
    use super::meant;

    #[test]
    fn a_word_stands_for_the_name_that_is_most_like_it() {
        let names = || ["make", "mark", "rounds", "or"].into_iter();
        assert_eq!(meant("mrak", names()), "; did you mean mark?");
        assert_eq!(meant("round", names()), "; did you mean rounds?");
        assert_eq!(meant("maek", names()), "; did you mean make?");
        assert_eq!(meant("lecture", names()), "");
        assert_eq!(meant("x", names()), "");
        assert_eq!(meant("é", names()), "");
    }
}
