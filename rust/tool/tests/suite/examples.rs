//! The example in each help works as it is printed.

use crate::desk::Desk;

/// The lines of a help's example, without their indent.
fn example(help: &str) -> String {
    let (_, example) = help.split_once("\nExample:\n").expect("the help has no example");
    example
        .lines()
        .map(|line| line.strip_prefix("    ").unwrap_or(line).to_string() + "\n")
        .collect()
}

/// The names of the commands, which the help of the whole tool lists.
fn names(help: &str) -> Vec<String> {
    let list = help.split("\nExample:").next().unwrap();
    let lines = list.lines().filter_map(|line| line.strip_prefix("    "));
    let names = lines.filter(|line| line.starts_with(|first: char| first.is_ascii_lowercase()));
    names.map(|line| line.split_whitespace().next().unwrap().to_string()).collect()
}

#[test]
fn every_example_prints_what_the_help_says() {
    let desk = Desk::new("examples of helps");
    let overview = desk.print("dimkhoros --help");
    let names = names(&overview);
    assert!(names.contains(&"check".to_string()), "the list of commands is not found: {names:?}");
    for name in names {
        let help = desk.print(&format!("dimkhoros {name} --help"));
        assert!(help.starts_with(&format!("usage: dimkhoros {name}")), "{help}");
        assert_eq!(desk.print(&format!("dimkhoros help {name}")), help);
        let example = example(&help);
        let printed = Desk::new(&format!("example of {name}")).replay(&example);
        assert_eq!(printed, example, "the example of {name} prints something else");
    }
}

#[test]
fn the_example_of_the_whole_tool_prints_what_its_help_says() {
    let desk = Desk::new("example of the tool");
    let example = example(&desk.print("dimkhoros --help"));
    assert_eq!(desk.replay(&example), example);
}

/// The texts behind the words in a help's table, each with the column in which it begins.
fn columns(help: &str) -> Vec<usize> {
    let head = help.split("\nExample:").next().unwrap();
    let lines = head.lines().filter(|line| line.starts_with("    ") && !line.starts_with("     "));
    let column = |line: &str| {
        let (word, text) = line.trim_start().split_once("  ").expect("a word without a text");
        4 + word.len() + 2 + (text.len() - text.trim_start().len())
    };
    lines.map(column).collect()
}

#[test]
fn every_help_has_one_form() {
    let desk = Desk::new("form of helps");
    let overview = desk.print("dimkhoros --help");
    let helps =
        names(&overview).into_iter().map(|name| desk.print(&format!("dimkhoros {name} -h")));
    for help in helps.chain([overview.clone()]) {
        let widest = help.lines().max_by_key(|line| line.chars().count()).unwrap();
        assert!(widest.chars().count() <= 80, "this line is too wide:\n{widest}");
        let columns = columns(&help);
        assert!(columns.windows(2).all(|pair| pair[0] == pair[1]), "{columns:?} in\n{help}");
        assert!(help.starts_with("usage: dimkhoros ") && help.contains("\n\nExample:\n"), "{help}");
        let hard = HARD.iter().find(|hard| help.split_whitespace().any(|word| word == **hard));
        assert_eq!(hard, None, "a plainer word is wanted in\n{help}");
    }
}

/// Words for conditions and order in whose place a help has `if` and `after`.
const HARD: [&str; 4] = ["where", "Where", "behind", "whereas"];
