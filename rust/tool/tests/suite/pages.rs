//! The man pages and completions, which are made of the helps.

use crate::desk::Desk;
use std::fs;
use std::io::{self, Write};

/// A desk with the pages, and their names.
fn desk(name: &str) -> (Desk, Vec<String>) {
    let desk = Desk::new(name);
    let names = desk.print("dimkhoros --pages pages");
    let names = names.lines().map(str::to_string).collect();
    (desk, names)
}

#[test]
fn every_command_has_a_man_page_that_troff_reads() {
    let (desk, names) = desk("man pages");
    let pages: Vec<&String> = names.iter().filter(|name| name.ends_with(".1")).collect();
    let has_groff = desk.print("command -v groff") != "[127]\n"
        && desk.print("groff --version").contains("groff");
    for name in &pages {
        let text = fs::read_to_string(desk.folder.join("pages").join(name)).unwrap();
        assert!(text.starts_with(".TH ") && text.contains(".SH SYNOPSIS"), "{name}");
        if has_groff {
            let said =
                desk.print(&format!("groff -man -Tutf8 -K utf8 -ww pages/{name} > /dev/null"));
            assert_eq!(said, "", "{name}");
        }
    }
    for command in ["make", "mark", "course", "watch"] {
        assert!(pages.contains(&&format!("dimkhoros-{command}.1")), "{pages:?}");
    }
    assert!(pages.contains(&&"dimkhoros.1".to_string()), "{pages:?}");
}

/// Whether a shell is installed. If it is not, a line on standard error names what is not tried.
fn has(desk: &Desk, shell: &str) -> bool {
    let found = desk.print(&format!("{shell} -c 'echo there'")).contains("there");
    if !found {
        // The harness keeps back what a macro prints.
        let line = format!("{shell} is not installed: not tried: that it completes words\n");
        io::stderr().write_all(line.as_bytes()).unwrap();
    }
    found
}

#[test]
fn bash_completes_commands_and_their_words() {
    let (desk, _) = desk("completions of bash");
    if !has(&desk, "bash") {
        return;
    }
    let completed = |words: &str, count: usize, last: &str| {
        let program = format!(
            ". pages/dimkhoros.bash; compopt() {{ :; }}; COMP_WORDS=({words}); COMP_CWORD={count}; _dimkhoros dimkhoros '{last}'; echo ${{COMPREPLY[@]}}"
        );
        fs::write(desk.folder.join("z.sh"), program).unwrap();
        desk.print("bash z.sh").trim_end().to_string()
    };
    assert_eq!(completed("dimkhoros sh", 1, "sh"), "show");
    assert_eq!(completed("dimkhoros ma", 1, "ma"), "make mark");
    assert_eq!(completed("dimkhoros rounds co", 2, "co"), "convert");
    assert_eq!(completed("dimkhoros mark --cs", 2, "--cs"), "--csv");
    assert_eq!(completed("dimkhoros make x", 2, "x"), "x= x=random");
    assert_eq!(completed("dimkhoros help gr", 2, "gr"), "grid");
    assert_eq!(completed("dimkhoros rounds make co", 3, "co"), "");
    assert_eq!(completed("dimkhoros show p", 2, "p"), "pages");
}

#[test]
fn fish_completes_commands_and_their_words() {
    let (desk, _) = desk("completions of fish");
    if !has(&desk, "fish") {
        return;
    }
    let completed = |words: &str| {
        let program = format!("source pages/dimkhoros.fish; complete -C '{words}'");
        let printed = desk.print(&format!("HOME=. fish --no-config -c \"{program}\""));
        let words = printed.lines().map(|line| line.split('\t').next().unwrap().to_string());
        words.collect::<Vec<String>>().join(" ")
    };
    assert_eq!(completed("dimkhoros ma"), "make mark");
    assert_eq!(completed("dimkhoros --"), "--help --version");
    assert_eq!(completed("dimkhoros help gr"), "grid");
    assert_eq!(completed("dimkhoros rounds co"), "convert");
    assert_eq!(completed("dimkhoros rounds make co"), "");
    assert_eq!(completed("dimkhoros mark --cs"), "--csv");
    assert_eq!(completed("dimkhoros make x"), "x= x=random");
    assert_eq!(completed("dimkhoros show pa"), "pages/");
    // A command has its own words alone.
    assert_eq!(completed("dimkhoros rounds make --p"), "");
}

/// What a shell of its own is typed in, which completes each line at a tab and then runs a function in the place of the program.
const ZSH: &str = "\
zmodload zsh/zpty
zpty shell zsh -f -i
zpty -w shell 'PS1= fpath=($PWD/pages $fpath); autoload -Uz compinit && compinit -u -D'
zpty -w shell 'dimkhoros() { print -r -- \"$*\" >> got }'
for typed in mar 'rounds co' 'mark --cs' 'numbers b' 'show z.z' 'help gri' --vers 'rounds make app'; do
    zpty -w -n shell \"dimkhoros $typed\"$'\\t'
    zpty -w shell ';'
done
zpty -w shell exit
while zpty -r shell line; do :; done
";

#[test]
fn zsh_completes_commands_and_their_words() {
    let (desk, _) = desk("completions of zsh");
    if !has(&desk, "zsh") {
        return;
    }
    fs::write(desk.folder.join("z.zsh"), ZSH).unwrap();
    assert_eq!(desk.print("timeout 60 zsh -f z.zsh"), "");
    // What is whole has a space after it, and no word ends at a letter's =.
    let completed = fs::read_to_string(desk.folder.join("got")).unwrap();
    let expected = "mark\nrounds convert\nmark --csv\nnumbers bits=\nshow z.zsh\nhelp grid\n--version\nrounds make app\n";
    assert_eq!(completed, expected);
}

#[test]
fn every_shell_knows_every_command() {
    let (desk, names) = desk("shells");
    let commands =
        names.iter().filter_map(|name| name.strip_prefix("dimkhoros-")?.strip_suffix(".1"));
    let commands: Vec<&str> = commands.collect();
    assert!(commands.len() > 15, "{commands:?}");
    for file in ["dimkhoros.bash", "_dimkhoros", "dimkhoros.fish"] {
        let text = fs::read_to_string(desk.folder.join("pages").join(file)).unwrap();
        let words: Vec<&str> = text.split([' ', '\'', ':', ')', '"', '\n']).collect();
        assert!(commands.iter().all(|command| words.contains(command)), "{file}");
    }
}
