//! Every name that docs/TRACE.md, PROMISES.md, NEXT.md, DECISIONS.md and SIZE.md cite is declared in the tree; every
//! must-fail edit is cited, and every public function is in PROMISES.md.

use std::fs;
use std::path::{Path, PathBuf};

fn root() -> PathBuf {
    Path::new(env!("CARGO_MANIFEST_DIR")).join("../..")
}

/// The text of every file below a folder.
fn text_below(folder: &Path) -> String {
    let mut text = String::new();
    let Ok(entries) = fs::read_dir(folder) else {
        return text;
    };
    for entry in entries.flatten() {
        let path = entry.path();
        if path.is_dir() {
            text.push_str(&text_below(&path));
        } else if let Ok(more) = fs::read_to_string(&path) {
            text.push_str(&more);
        }
    }
    text
}

/// The line declares the name: a definition, a theorem or a field of antt's, or an item of Rattle's.
fn declares(line: &str, name: &str) -> bool {
    let mut rest = line.trim_start();
    for word in [
        "abbrev ",
        "unfoldable ",
        "pub(crate) ",
        "pub ",
        "extern \"C\" ",
        "record ",
        "data ",
        "struct ",
        "enum ",
        "const ",
        "fn ",
    ] {
        rest = rest.strip_prefix(word).unwrap_or(rest);
    }
    let Some(after) = rest.strip_prefix(name) else {
        return false;
    };
    let part = |c: char| c.is_alphanumeric() || c == '_' || c == '-' || c == '\'';
    let at_end = !after.starts_with(part);
    at_end && (rest.len() < line.trim_start().len() || after.starts_with(" :"))
}

/// A citation is `crate:name`, `crate:must-fail/label`, `second:test` or `programs:test`.
fn is_there(citation: &str) -> bool {
    let Some((home, name)) = citation.split_once(':') else {
        return true;
    };
    if let Some(label) = name.strip_prefix("must-fail/") {
        return root().join(format!("crates/{home}/must-fail/{label}.edit")).exists();
    }
    if home == "second" || home == "programs" {
        return ["tests", "src"].iter().any(|part| is_tested(&format!("tests/{home}/{part}"), name));
    }
    ["specs", "src", "proofs"].iter().any(|part| declared_below(&format!("crates/{home}/{part}"), name))
}

/// A test of that name stands in the folder.
fn is_tested(folder: &str, name: &str) -> bool {
    let text = text_below(&root().join(folder));
    let lines: Vec<&str> = text.lines().map(str::trim).collect();
    lines.windows(2).any(|pair| pair[0] == "#[test]" && pair[1] == format!("fn {name}() {{"))
}

fn declared_below(folder: &str, name: &str) -> bool {
    text_below(&root().join(folder)).lines().any(|line| declares(line, name))
}

/// What stands between backquotes and is a citation, and not the form of one.
fn cited(text: &str) -> Vec<&str> {
    let forms = ["crate:name", "crate:must-fail/label", "second:name", "programs:name"];
    let is_name = |c: &str| !c.contains(' ') && c.contains(':') && !c.contains("::") && !forms.contains(&c);
    text.split('`').skip(1).step_by(2).filter(|c| is_name(c)).collect()
}

fn holds(document: &str, at_least: usize) {
    let text = fs::read_to_string(root().join("docs").join(document)).expect(document);
    let cited = cited(&text);
    assert!(cited.len() > at_least, "{document} cites only {} names", cited.len());
    let missing: Vec<&str> = cited.into_iter().filter(|c| !is_there(c)).collect();
    assert!(missing.is_empty(), "{document}: not in the tree: {missing:?}");
}

#[test]
fn every_name_that_trace_cites_is_declared() {
    holds("TRACE.md", 200);
}

#[test]
fn every_name_that_promises_cites_is_declared() {
    holds("PROMISES.md", 100);
}

#[test]
fn every_name_that_next_cites_is_declared() {
    holds("NEXT.md", 100);
}

#[test]
fn every_name_that_decisions_cites_is_declared() {
    holds("DECISIONS.md", 10);
}

#[test]
fn every_name_that_size_cites_is_declared() {
    holds("SIZE.md", 10);
}

/// The edits that no document cites: each is to be laid beside what it tries.
#[test]
fn every_must_fail_edit_is_cited() {
    let trace = fs::read_to_string(root().join("docs/TRACE.md")).expect("TRACE.md");
    let promises = fs::read_to_string(root().join("docs/PROMISES.md")).expect("PROMISES.md");
    let crates = fs::read_dir(root().join("crates")).expect("crates");
    let mut lost = Vec::new();
    for home in crates.flatten() {
        let Ok(edits) = fs::read_dir(home.path().join("must-fail")) else {
            continue;
        };
        for edit in edits.flatten() {
            let label = edit.path().file_stem().expect("a label").to_string_lossy().into_owned();
            let citation = format!("`{}:must-fail/{label}`", home.file_name().to_string_lossy());
            if !trace.contains(&citation) && !promises.contains(&citation) {
                lost.push(citation);
            }
        }
    }
    assert!(lost.is_empty(), "cited nowhere: {lost:?}");
}

/// The name of the public function that the line declares.
fn public_function(line: &str) -> Option<&str> {
    let rest = line.strip_prefix("pub ")?;
    let rest = rest.strip_prefix("extern \"C\" ").unwrap_or(rest).strip_prefix("fn ")?;
    rest.split(['(', '<']).next()
}

#[test]
fn promises_has_every_public_function() {
    let promises = fs::read_to_string(root().join("docs/PROMISES.md")).expect("PROMISES.md");
    let crates = fs::read_dir(root().join("crates")).expect("crates");
    let mut count = 0;
    let mut lost = Vec::new();
    for home in crates.flatten() {
        let crate_name = home.file_name().to_string_lossy().into_owned();
        for name in text_below(&home.path().join("src")).lines().filter_map(public_function) {
            count += 1;
            let citation = format!("`{crate_name}:{name}`");
            if !promises.contains(&citation) {
                lost.push(citation);
            }
        }
    }
    assert!(count > 50, "only {count} public functions were found");
    assert!(lost.is_empty(), "not in PROMISES.md: {lost:?}");
}
