//! The links of the pages lead somewhere, those to a line lead to the name that they show, and README stays short.

use std::fs;
use std::path::{Path, PathBuf};

/// The most bytes of README.md.
const MOST_BYTES: usize = 6_000;

/// The repository's folder.
fn top() -> &'static Path {
    Path::new(concat!(env!("CARGO_MANIFEST_DIR"), "/.."))
}

/// The pages: those at the top and those in docs.
fn pages() -> Vec<PathBuf> {
    let folders = [top().to_path_buf(), top().join("docs")];
    let entries = folders
        .iter()
        .flat_map(|folder| fs::read_dir(folder).expect("the folder is there"));
    let paths = entries.map(|entry| entry.expect("the folder can be read").path());
    paths
        .filter(|path| path.extension().is_some_and(|end| end == "md"))
        .collect()
}

/// The links of a text within the repository: what each shows, and where it leads.
fn links(text: &str) -> Vec<(&str, &str)> {
    let pieces = text.split("](");
    let shown = pieces.clone().map(|piece| piece.rsplit('[').next());
    let targets = pieces.skip(1).map(|piece| piece.split(')').next());
    let links = shown.zip(targets);
    let links = links.map(|(shown, target)| (shown.unwrap_or(""), target.unwrap_or("")));
    links
        .filter(|(_, target)| !target.contains("://"))
        .collect()
}

/// The anchors of a page: its headings in lower case, with hyphens for spaces and without other signs.
fn anchors(text: &str) -> Vec<String> {
    let headings = text.lines().filter_map(|line| line.strip_prefix('#'));
    let headings = headings.map(|line| line.trim_start_matches('#').trim().to_lowercase());
    let kept = |c: &char| c.is_alphanumeric() || matches!(c, ' ' | '-' | '_');
    let plain = headings.map(|line| line.chars().filter(kept).collect::<String>());
    plain.map(|line| line.replace(' ', "-")).collect()
}

/// Checks one link of a page in a folder.
fn check(folder: &Path, page: &str, shown: &str, target: &str) {
    let (path, place) = target.split_once('#').unwrap_or((target, ""));
    let file = folder.join(path);
    assert!(file.exists(), "{target} is missing");
    if place.is_empty() {
        return;
    }
    let text = match path {
        "" => page.to_string(),
        _ => fs::read_to_string(file).expect("the file is a text"),
    };
    match place.strip_prefix('L') {
        Some(number) => {
            let number: usize = number.parse().expect("a line number follows");
            let line = text.lines().nth(number - 1).unwrap_or("");
            let name = shown.trim_matches('`');
            let mut words = line.split(|c: char| !c.is_alphanumeric() && c != '_');
            assert!(words.any(|word| word == name), "{target}: {line}");
        }
        None => assert!(
            anchors(&text).iter().any(|anchor| anchor == place),
            "{target}"
        ),
    }
}

#[test]
fn links_lead_to_what_they_show() {
    let mut count = 0;
    for path in pages() {
        let text = fs::read_to_string(&path).expect("the page is a text");
        let folder = path.parent().expect("the page lies in a folder");
        for (shown, target) in links(&text) {
            check(folder, &text, shown, target);
            count += 1;
        }
    }
    assert!(count > 100, "{count}");
}

#[test]
fn readme_is_short() {
    let text = fs::read(top().join("README.md")).expect("README.md is there");
    assert!(text.len() <= MOST_BYTES, "{}", text.len());
}
