//! What the READMEs and the pages for authors and lecturers show of the tool works as it is printed.

use crate::desk::Desk;
use std::fs;
use std::path::Path;

/// A file of the repository.
fn file(name: &str) -> String {
    fs::read_to_string(Path::new(env!("CARGO_MANIFEST_DIR")).join("../..").join(name)).unwrap()
}

/// The blocks of a page that show commands, one after the other.
fn shown(page: &str) -> String {
    let text = file(page);
    let blocks = text.split("```console\n").skip(1);
    blocks.filter_map(|block| block.split("```").next()).collect()
}

#[test]
fn every_command_on_the_pages_prints_what_they_say() {
    for page in ["README.md", "docs/AUTHORS.md", "docs/LECTURE.md", "rust/tool/README.md"] {
        let shown = shown(page);
        assert!(!shown.is_empty(), "{page} shows no command");
        let printed = Desk::new(page).replay(&shown);
        assert_eq!(printed, shown, "what {page} shows prints something else");
    }
}

/// The lines of the drawing of a run, without its first, which has the size, and its last.
fn run_drawing(text: &str) -> &str {
    let start = text.find("<title id=\"run-picture-title\">").unwrap();
    text[start..].split("</svg>").next().unwrap()
}

#[test]
fn the_picture_of_the_readme_is_what_the_tool_draws() {
    let desk = Desk::new("picture");
    desk.print("dimkhoros make schnorr m=23 q=11 h=2 z=13 -o a.bin");
    desk.print("dimkhoros lecture a.bin --show-witness -o page-a.html");
    let page = fs::read_to_string(desk.folder.join("page-a.html")).unwrap();
    let picture = "docs/lecture/run.svg";
    assert_eq!(run_drawing(&file(picture)), run_drawing(&page));
    assert!(file("README.md").contains(&format!("]({picture})")));
}
