//! include/panel.h declares what crates/panel exports: the same functions, in the same order, each with the same parameters
//! by name and type. Its records are the lists of crates/channels.

use std::fs;
use std::path::Path;

/// A parameter's C type and its name. The length after a pointer has any name in the header, and none here.
type Parameter = (String, String);

/// A function's name, its parameters, and the C type of its result.
type Signature = (String, Vec<Parameter>, String);

const LENGTH: &str = "size_t";

fn read(path: &str) -> String {
    fs::read_to_string(Path::new(env!("CARGO_MANIFEST_DIR")).join("../..").join(path)).expect(path)
}

/// The text without its comments.
fn bare(header: &str) -> String {
    let mut text = String::new();
    for (k, part) in header.split("/*").enumerate() {
        text.push_str(if k == 0 { part } else { part.split_once("*/").expect("the end of a comment").1 });
    }
    text
}

/// `const uint8_t *deck` is `deck` of the type `const uint8_t *`.
fn declared_parameter(parameter: &str) -> Parameter {
    let name_at = parameter.rfind(|c: char| !c.is_alphanumeric() && c != '_').expect("a type before the name");
    let (front, name) = parameter.split_at(name_at + 1);
    (front.split_whitespace().collect::<Vec<_>>().join(" "), name.into())
}

/// The length after a pointer loses its name.
fn declared_parameters(list: &str) -> Vec<Parameter> {
    let mut found: Vec<Parameter> = list.split(',').map(|parameter| declared_parameter(parameter.trim())).collect();
    for place in 1..found.len() {
        if found[place - 1].0.ends_with('*') && found[place].0 == LENGTH {
            found[place].1.clear();
        }
    }
    found
}

fn declared(header: &str) -> Vec<Signature> {
    let mut found = Vec::new();
    for statement in bare(header).split(';') {
        let Some((front, parameters)) = statement.split_once('(') else {
            continue;
        };
        let words: Vec<&str> = front.split_whitespace().collect();
        let [.., result, name] = words[..] else {
            continue;
        };
        let parameters = declared_parameters(parameters.trim_end().trim_end_matches(')'));
        found.push((name.into(), parameters, result.into()));
    }
    found
}

fn number(rattle: &str) -> &'static str {
    match rattle {
        "u8" => "uint8_t",
        "u16" => "uint16_t",
        "u32" => "uint32_t",
        "u64" => "uint64_t",
        "i64" => "int64_t",
        "usize" => "size_t",
        other => panic!("a type that the header does not know: {other}"),
    }
}

/// A slice passes as a pointer and then a length. The header says which carry it is.
fn passed(parameter: &str) -> Vec<Parameter> {
    let (name, rattle) = parameter.split_once(": ").expect("a type");
    let name = if name == "carry" { "carry_in" } else { name };
    let slice = |constant: &str, element: &str| {
        let pointer = format!("{constant}{} *", number(element.trim_end_matches(']')));
        vec![(pointer, name.into()), (LENGTH.into(), String::new())]
    };
    if let Some(element) = rattle.strip_prefix("&mut [") {
        return slice("", element);
    }
    if let Some(element) = rattle.strip_prefix("&[") {
        return slice("const ", element);
    }
    vec![(number(rattle).into(), name.into())]
}

fn exported(source: &str) -> Vec<Signature> {
    let mut found = Vec::new();
    for part in source.split("#[unsafe(no_mangle)]\npub extern \"C\" fn ").skip(1) {
        let (name, rest) = part.split_once('(').expect("parameters");
        let (parameters, rest) = rest.split_once(") -> ").expect("a result");
        let result = rest.split_whitespace().next().expect("the result's type");
        let parameters = parameters.split(',').map(str::trim).filter(|p| !p.is_empty());
        found.push((name.into(), parameters.flat_map(passed).collect(), number(result).into()));
    }
    found
}

#[test]
fn the_header_declares_what_the_panel_exports() {
    let declared = declared(&read("include/panel.h"));
    assert_eq!(declared.len(), 20);
    assert_eq!(declared, exported(&read("crates/panel/src/lib.rt")));
}

/// The names of an enum's constants.
fn constants(header: &str, name: &str) -> Vec<String> {
    let body = bare(header);
    let body =
        body.split(&format!("enum {name} {{")).nth(1).expect("the enum").split('}').next().expect("its end").to_owned();
    body.split(',').map(|c| c.split('=').next().expect("a name").trim().to_owned()).filter(|c| !c.is_empty()).collect()
}

/// The constants of a channel, as `latch_of "AC" "AC" (λ s. s.ac)`: by the field that it shows.
fn named(channel: &str) -> Vec<String> {
    let shown = channel.split("(λ ").nth(1).expect("what it shows").split(')').next().expect("its end");
    let (_, field) = shown.rsplit_once('.').expect("a field");
    let name = match field.trim_matches(['«', '»']) {
        "one_bc" => "PANEL_1BC".to_owned(),
        "local_selected" => "PANEL_LOCAL".to_owned(),
        field => format!("PANEL_{}", field.to_uppercase()),
    };
    if channel.trim_start().starts_with("pair_of ") {
        return vec![format!("{name}_HIGH"), format!("{name}_LOW")];
    }
    vec![name]
}

/// The constants of a list of channels in the specification, in its order.
fn listed(list: &str) -> Vec<String> {
    let specs = read("crates/channels/specs/Channels.antt");
    let (_, after) = specs.split_once(&format!("\n{list} =\n")).expect("the list");
    after.lines().take_while(|line| line.trim() != "[]").flat_map(named).collect()
}

/// An enum of the header has the constants of a list, and then its length, which the code has by the same name.
fn has_the_channels(name: &str, list: &str, length: &str) {
    let mut expected = listed(list);
    let constant = format!("const {length}: usize = {};", expected.len());
    assert!(read("crates/panel/src/lib.rt").contains(&constant), "not in the code: {constant}");
    expected.push(format!("PANEL_{length}"));
    assert_eq!(constants(&read("include/panel.h"), name), expected);
}

#[test]
fn the_channels_are_those_of_the_record() {
    has_the_channels("panel_channel", "channels", "STATE");
}

/// A row of the page's channels: its first and last byte, and the constants between.
fn page_row(line: &str) -> Option<(usize, usize, Vec<String>)> {
    let mut cells = line.trim_matches('|').split('|').map(str::trim);
    let bytes = cells.next()?;
    let (first, last) = bytes.split_once(" to ").unwrap_or((bytes, bytes));
    let constants = cells.next()?.split(' ').map(|name| name.trim_matches('`').to_owned()).collect();
    Some((first.parse().ok()?, last.parse().ok()?, constants))
}

#[test]
fn the_page_lists_the_channels() {
    let page = read("docs/BOARD.md");
    let (_, section) = page.split_once("\n## The lamp channels\n").expect("the section");
    let (section, _) = section.split_once("\n## ").expect("its end");
    let mut found = Vec::new();
    for (first, last, constants) in section.lines().filter_map(page_row) {
        assert_eq!((first, last + 1), (found.len(), found.len() + constants.len()), "{constants:?}");
        found.extend(constants);
    }
    assert!(section.contains(&format!("`PANEL_STATE` bytes, {},", found.len())), "its length");
    assert_eq!(found, listed("channels"));
}

#[test]
fn the_work_is_that_of_the_record() {
    has_the_channels("panel_work", "work_channels", "WORK");
}

#[test]
fn the_kinds_are_those_of_the_code() {
    let source = read("crates/panel/src/lib.rt");
    for (value, kind) in constants(&read("include/panel.h"), "panel_kind").iter().enumerate() {
        let constant = format!("const {}: u8 = {value};", kind.trim_start_matches("PANEL_"));
        assert!(source.contains(&constant), "not in the code: {constant}");
    }
}
