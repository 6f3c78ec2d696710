//! Completions for shells, made of the helps.

use super::help::Help;

/// A command with what can follow it.
pub struct Offered {
    /// Its name.
    pub name: &'static str,
    /// What it does.
    pub summary: &'static str,
    /// The words in small letters that its usage names, which come first.
    pub deeds: Vec<String>,
    /// Its options and its letters with =.
    pub words: Vec<String>,
}

/// What can stand in the place of a command.
const OTHERS: &str = "help --help --version";

/// What can follow a command, by its help.
pub fn offered(name: &'static str, summary: &'static str, help: &Help) -> Offered {
    let called = help.usage.iter().flat_map(|call| call.split(' ').skip(2).take(1));
    let explained = help.words().flat_map(|(word, _)| word.split(' '));
    let in_usage = help.usage.iter().flat_map(|call| call.split(' '));
    let words = called.chain(explained).chain(in_usage.filter(|word| word.contains(['-', '='])));
    let mut words: Vec<String> = words.filter_map(word).collect();
    words.sort();
    words.dedup();
    let (words, deeds) = words.into_iter().partition(|word| word.contains(['-', '=']));
    Offered { name, summary, deeds, words }
}

impl Offered {
    /// Its letters with = after which a value comes, and all other words.
    fn letters(&self) -> [String; 2] {
        let (letters, others): (Vec<&str>, Vec<&str>) =
            self.words.iter().map(String::as_str).partition(|word| word.ends_with('='));
        [letters.join(" "), others.join(" ")]
    }
}

/// The names of commands, with a space between them.
fn names(commands: &[Offered]) -> String {
    commands.iter().map(|command| command.name).collect::<Vec<&str>>().join(" ")
}

/// What is typed of a word in a help: an option, a letter with its =, or a word in small letters.
fn word(word: &str) -> Option<String> {
    let word = word.trim_matches(['[', ']', '(', ')', '.', ',']);
    let plain =
        |text: &str| !text.is_empty() && text.bytes().all(|byte| byte.is_ascii_alphanumeric());
    if let Some((letter, value)) = word.split_once('=') {
        let whole = if value == "random" { word.to_string() } else { format!("{letter}=") };
        return plain(letter).then_some(whole);
    }
    let option = word.trim_start_matches('-');
    let is_option = option.len() < word.len() && plain(option);
    let is_deed =
        option == word && plain(word) && word.bytes().all(|byte| byte.is_ascii_lowercase());
    (is_option || is_deed).then(|| word.to_string())
}

/// The completions of bash. It ends a word at =, so that a value after a letter is a word of its own, a file's name.
pub fn bash(commands: &[Offered]) -> String {
    let names = names(commands);
    let case = |Offered { name, deeds, words, .. }: &Offered| {
        let (deeds, words) = (deeds.join(" "), words.join(" "));
        format!("    {name}) first=\"{deeds}\" words=\"{words}\" ;;\n")
    };
    let cases: String = commands.iter().map(case).collect();
    format!(
        "_dimkhoros() {{\n    local first words\n    if [ \"$COMP_CWORD\" -eq 1 ]; then\n        COMPREPLY=($(compgen -W \
         \"{names} {OTHERS}\" -- \"$2\"))\n        return\n    fi\n    case ${{COMP_WORDS[1]}} in\n    help) first=\"{names}\" ;;\n\
         {cases}    esac\n    [ \"$COMP_CWORD\" -eq 2 ] || first=\n    COMPREPLY=($(compgen -W \"$first $words\" -f -- \"$2\"))\n    \
         case ${{COMPREPLY[0]}} in *=) compopt -o nospace ;; esac\n}}\ncomplete -F _dimkhoros dimkhoros\n"
    )
}

/// The completions of zsh. No space comes after a letter's =.
pub fn zsh(commands: &[Offered]) -> String {
    let described = |command: &Offered| {
        let summary = command.summary.replace('\'', "'\\''").replace(':', "\\:");
        format!("        '{}:{summary}'\n", command.name)
    };
    let list: String = commands.iter().map(described).collect();
    let case = |offered: &Offered| {
        let ([letters, others], deeds) = (offered.letters(), offered.deeds.join(" "));
        format!("    {}) first=({deeds}) letters=({letters}) others=({others}) ;;\n", offered.name)
    };
    let cases: String = commands.iter().map(case).collect();
    format!(
        "#compdef dimkhoros\n_dimkhoros() {{\n    local -a commands first letters others\n    commands=(\n{list}    )\n    \
         if (( CURRENT == 2 )); then\n        _describe command commands\n        compadd -- {OTHERS}\n        return\n    fi\n    \
         case $words[2] in\n    help) first=({}) ;;\n{cases}    esac\n    (( CURRENT == 3 )) && compadd -a first\n    \
         compadd -S '' -a letters\n    compadd -a others\n    _files\n}}\n_dimkhoros \"$@\"\n",
        names(commands)
    )
}

/// The completions of fish. A command is the second word, and what comes first stands just after it.
pub fn fish(commands: &[Offered]) -> String {
    let command = |Offered { name, summary, deeds, words }: &Offered| {
        let summary = summary.replace('\'', "\\'");
        format!(
            "complete -c dimkhoros -n '__dimkhoros_after 1' -a {name} -d '{summary}'\n\
             complete -c dimkhoros -n '__dimkhoros_after 2 {name}' -a '{}'\n\
             complete -c dimkhoros -n '__dimkhoros_in {name}' -a '{}'\n",
            deeds.join(" "),
            words.join(" ")
        )
    };
    let lines: String = commands.iter().map(command).collect();
    format!(
        "function __dimkhoros_in\n    set -l words (commandline -opc)\n    test \"$words[2]\" = $argv[1]\nend\n\
         function __dimkhoros_after\n    set -l words (commandline -opc)\n    test (count $words) -eq $argv[1]\n    \
         and test \"$words[2]\" = \"$argv[2]\"\nend\n\
         complete -c dimkhoros -n '__dimkhoros_after 1' -f -a '{OTHERS}'\n\
         complete -c dimkhoros -n '__dimkhoros_after 2 help' -f -a '{}'\n{lines}",
        names(commands)
    )
}

#[cfg(test)]
mod tests {
    use super::word;

    #[test]
    fn what_is_typed_is_found_in_a_help() {
        let typed = |text: &str| word(text).unwrap_or_default();
        assert_eq!(typed("[--csv"), "--csv");
        assert_eq!(typed("x=VALUE,..."), "x=");
        assert_eq!(typed("x=random"), "x=random");
        assert_eq!(typed("-o"), "-o");
        assert_eq!(typed("make"), "make");
        assert_eq!(typed("SHEET"), "");
        assert_eq!(typed("-"), "");
    }
}
