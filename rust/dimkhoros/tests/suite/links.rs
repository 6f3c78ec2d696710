//! The pages hold together: each link leads to a file that is there and to a place in it, docs/README.md lists all pages, and the
//! README stays short.

use crate::cc;

use std::fs;
use std::path::{Path, PathBuf};

/// The most lines that the README may have.
const LONGEST_README: usize = 150;

/// The pages in a folder and in the folders below it.
fn pages_below(folder: &Path) -> Vec<PathBuf> {
    let entries = fs::read_dir(folder).unwrap().map(|entry| entry.unwrap().path());
    let found =
        entries.flat_map(|path| if path.is_dir() { pages_below(&path) } else { vec![path] });
    found.filter(|path| path.extension().is_some_and(|end| end == "md")).collect()
}

/// All pages of the repository.
fn pages() -> Vec<PathBuf> {
    let root = cc::root();
    let apart = ["README.md", "CHANGELOG.md", "examples/README.md", "python/README.md"];
    let crates = ["dimkhoros", "sys", "tool"].map(|name| format!("rust/{name}/README.md"));
    let apart = apart.map(String::from).into_iter().chain(crates).map(|page| root.join(page));
    apart.chain(pages_below(&root.join("docs"))).collect()
}

/// A page without its blocks of code.
fn prose(page: &Path) -> String {
    fs::read_to_string(page).unwrap().split("```").step_by(2).collect()
}

/// The links of a page to files, and to places in itself.
fn links(prose: &str) -> Vec<&str> {
    let targets = prose.split("](").skip(1).filter_map(|rest| rest.split(')').next());
    targets.filter(|target| !target.contains("://")).collect()
}

/// The name by which a link leads to a heading.
fn heading_name(heading: &str) -> String {
    let lower = heading.trim_start_matches('#').trim().to_lowercase();
    let kept = lower.chars().filter(|sign| sign.is_alphanumeric() || " -_".contains(*sign));
    kept.collect::<String>().replace(' ', "-")
}

/// Whether a page has a heading or a mark of this name.
fn has_place(page: &Path, name: &str) -> bool {
    let prose = prose(page);
    let mut headings = prose.lines().filter(|line| line.starts_with('#'));
    headings.any(|heading| heading_name(heading) == name)
        || prose.contains(&format!("<a id=\"{name}\"></a>"))
}

/// Whether a link on a page leads to a file or folder that is there, and to a place in it if it names one.
fn leads(page: &Path, link: &str) -> bool {
    let (file, place) = link.split_once('#').unwrap_or((link, ""));
    let target =
        if file.is_empty() { page.to_path_buf() } else { page.parent().unwrap().join(file) };
    target.exists() && (place.is_empty() || has_place(&target, place))
}

#[test]
fn every_link_leads_to_its_place() {
    let mut count = 0;
    for page in pages() {
        let prose = prose(&page);
        let links = links(&prose);
        count += links.len();
        let lost: Vec<_> = links.into_iter().filter(|link| !leads(&page, link)).collect();
        assert!(lost.is_empty(), "{} has links that lead nowhere: {lost:?}", page.display());
    }
    assert!(count > 100, "{count} links");
}

#[test]
fn a_link_that_leads_nowhere_is_seen() {
    let scope = cc::root().join("docs/SCOPE.md");
    assert!(leads(&scope, "#refusal-8") && leads(&scope, "FORMATS.md#the-sheet"));
    for link in ["#refusal-0", "FORMATS.md#no-such-heading", "NONE.md", "../docs/NONE.md#the-sheet"]
    {
        assert!(!leads(&scope, link), "{link}");
    }
}

#[test]
fn the_list_has_every_page() {
    let docs = cc::root().join("docs");
    let list = fs::read_to_string(docs.join("README.md")).unwrap();
    for page in pages() {
        let name = page.strip_prefix(&docs).ok().filter(|page| page.components().count() == 1);
        let Some(name) = name.and_then(Path::to_str).filter(|name| *name != "README.md") else {
            continue;
        };
        assert!(list.contains(&format!("]({name})")), "docs/README.md does not list {name}");
    }
}

#[test]
fn the_readme_is_short() {
    let lines = fs::read_to_string(cc::root().join("README.md")).unwrap().lines().count();
    assert!(lines <= LONGEST_README, "README.md has {lines} lines");
}
