//! docs/NUMBERS.md has every refusal in the words that the program prints, and every field by the name that it prints: those
//! of crates/text and crates/lamps. Its fields and widths are the second engine's too.

use second::word::LAYOUT;
use std::fs;
use std::path::Path;

fn read(path: &str) -> String {
    fs::read_to_string(Path::new(env!("CARGO_MANIFEST_DIR")).join("../..").join(path)).expect(path)
}

/// The strings of a list in a specification, in its order.
fn listed(specs: &str, list: &str) -> Vec<String> {
    let (_, after) = specs.split_once(&format!("\n{list} =\n")).expect("the list");
    let end = after.find("[]").expect("the list's end");
    after[..end].split('"').skip(1).step_by(2).map(str::to_owned).collect()
}

/// The rows of a table of the page, below its heading, each by its cells.
fn rows<'a>(page: &'a str, heading: &str) -> Vec<Vec<&'a str>> {
    let (_, after) = page.split_once(&format!("\n## {heading}\n")).expect("the heading");
    let section = after.split("\n## ").next().expect("a section");
    let table = section.lines().filter(|line| line.starts_with('|')).skip(2);
    table.map(|line| line.trim_matches('|').split('|').map(str::trim).collect()).collect()
}

/// The numbers from 1 on, each with its text.
fn numbered(texts: &[String]) -> Vec<(String, String)> {
    texts.iter().enumerate().skip(1).map(|(number, text)| (number.to_string(), text.trim().to_owned())).collect()
}

/// The first two cells of each row.
fn first_two(rows: &[Vec<&str>]) -> Vec<(String, String)> {
    rows.iter().map(|row| (row[0].to_owned(), row[1].to_owned())).collect()
}

#[test]
fn every_refusal_is_told_in_its_words() {
    let page = read("docs/NUMBERS.md");
    let specs = read("crates/text/specs/Words.antt");
    let words = listed(&specs, "refusal_words");
    assert_eq!(words.len(), 34, "0 to 33");
    for (number, text) in words.iter().enumerate() {
        assert!(specs.contains(&format!("\"{text}\" ∷  -- {number}\n")), "the number beside {text:?}");
    }
    let given: Vec<_> = numbered(&words).into_iter().filter(|(_, text)| *text != words[0]).collect();
    assert_eq!(first_two(&rows(&page, "Refusals")), given);
    assert!(page.contains(&format!("`{}`", words[0])), "no words for other numbers");
}

#[test]
fn every_refusal_says_what_it_means_and_who_asks() {
    for row in rows(&read("docs/NUMBERS.md"), "Refusals") {
        assert_eq!(row.len(), 4, "{row:?}");
        assert!(row[2].ends_with('.') && !row[3].is_empty(), "{row:?}");
    }
}

#[test]
fn every_field_is_told_by_its_name() {
    let page = read("docs/NUMBERS.md");
    let names = listed(&read("crates/lamps/specs/Ending.antt"), "field_names");
    let fields = rows(&page, "Fields");
    assert_eq!(first_two(&fields), numbered(&names));
    let widths: Vec<_> = fields.iter().map(|row| (row[1], row[2].parse::<u32>().expect("bits"))).collect();
    assert_eq!(widths, LAYOUT);
    assert!(fields.iter().all(|row| row.len() == 4 && !row[3].is_empty()));
}
