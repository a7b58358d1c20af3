//! No public function of a library has a `requires`: an entry point tests its own input. The proofs do not notice one, since
//! a function is proved under what it requires. And every public function has a whole promise, with a theorem that no second
//! answer fits, but for those named here: each makes a system call or serves one, or serves the comparison programs alone.

use std::collections::BTreeSet;
use std::fs;
use std::path::{Path, PathBuf};

/// What promises less than the whole answer; docs/PROMISES.md says why.
const NOT_WHOLE: [&str; 68] = [
    "input:read",
    "input:arg",
    "input:arg_count",
    "board:begin",
    "board:end",
    "board:go",
    "board:broken_run",
    "board:turns",
    "board:flush",
    "board:ready",
    "board:put",
    "board:text",
    "board:line",
    "board:wrong",
    "board:refused",
    "board:refused_field",
    "board:refused_fences",
    "board:missed",
    "board:asked",
    "board:next",
    "board:signed",
    "board:enough",
    "board:no_more",
    "board:read",
    "board:add",
    "board:run",
    "board:two",
    "agree:draw",
    "agree:fill",
    "agree:mix",
    "agree:mix_bytes",
    "agree:mix_words",
    "agree:mix_state",
    "agree:mix_finished",
    "agree:mix_added",
    "agree:number_of",
    "agree:mix_ends",
    "agree:print",
    "agree:print_every",
    "agree:print_with",
    "agree:print_each",
    "agree:print_count",
    "agree:print_name",
    "agree:of",
    "agree:ran",
    "agree:code",
    "agree:new",
    "agree:add",
    "agree:tally",
    "agree:tally_if",
    "agree:drawn",
    "agree:put",
    "agree:seldom_wrong",
    "agree:fill_store",
    "agree:drawn_rate",
    "agree:two_digits",
    "agree:put_byte",
    "agree:part",
    "agree:high",
    "agree:drawn_fields",
    "agree:drawn_state",
    "agree:near",
    "agree:reading_of",
    "agree:modelled",
    "agree:raw",
    "agree:with_right_pk",
    "agree:packed",
    "agree:word_for",
];

/// What the program `board` promises of all that it shows but the buffer, each by the definition that its contract cites.
const SHOWN: [(&str, &str); 7] = [
    ("go", "≡ run_of budget "),
    ("broken_run", "BrokenInto budget "),
    ("turns", "≡ after_turns (turns_of rules.turns "),
    ("answered", "≡ from_run done (run_of (bound size) "),
    ("summed", "≡ answer_of operation "),
    ("lay_out", "≡ laid_out size "),
    ("say", "≡ put_of (said_of operation "),
];

fn root() -> PathBuf {
    Path::new(env!("CARGO_MANIFEST_DIR")).join("../..")
}

/// The files below a folder.
fn files_below(folder: &Path) -> Vec<PathBuf> {
    let Ok(entries) = fs::read_dir(folder) else {
        return Vec::new();
    };
    let paths = entries.flatten().map(|entry| entry.path());
    paths.flat_map(|path| if path.is_dir() { files_below(&path) } else { vec![path] }).collect()
}

/// The text of each file below a folder.
fn texts_below(folder: &Path) -> Vec<String> {
    files_below(folder).iter().map(|file| fs::read_to_string(file).expect("a text")).collect()
}

/// The crates by name.
fn crates() -> Vec<(String, PathBuf)> {
    let homes = fs::read_dir(root().join("crates")).expect("crates").flatten();
    homes.map(|home| (home.file_name().to_string_lossy().into_owned(), home.path())).collect()
}

/// A function, a method too, as a source declares it: with the lines before its body.
#[derive(Debug)]
struct Function<'a> {
    name: &'a str,
    public: bool,
    contract: Vec<&'a str>,
}

impl Function<'_> {
    /// Its contract has a clause of that kind.
    fn has(&self, clause: &str) -> bool {
        self.contract.iter().any(|line| line.trim_start().starts_with(clause))
    }
}

/// The name of the function that a line declares, and whether it is public.
fn declared(line: &str) -> Option<(&str, bool)> {
    let line = line.trim_start();
    let public = line.strip_prefix("pub ");
    let rest = public.unwrap_or_else(|| line.strip_prefix("pub(crate) ").unwrap_or(line));
    let rest = rest.strip_prefix("extern \"C\" ").unwrap_or(rest).strip_prefix("fn ")?;
    Some((rest.split(['(', '<']).next()?, public.is_some()))
}

/// The functions of a source.
fn functions(source: &str) -> Vec<Function<'_>> {
    let mut all = Vec::new();
    let mut lines = source.lines();
    while let Some(line) = lines.next() {
        let Some((name, public)) = declared(line) else {
            continue;
        };
        let body =
            |line: &&str| line.trim() == "{" || line.ends_with(") {") || line.contains(" -> ") && line.ends_with(" {");
        let contract = std::iter::once(line).chain(lines.clone()).take_while(|line| !body(line)).collect();
        all.push(Function { name, public, contract });
    }
    all
}

/// The public functions of a source, and those of them that have such a clause before their body.
fn public<'a>(source: &'a str, clause: &str) -> (Vec<&'a str>, Vec<&'a str>) {
    let functions = functions(source);
    let all = functions.iter().filter(|f| f.public);
    (all.clone().map(|f| f.name).collect(), all.filter(|f| f.has(clause)).map(|f| f.name).collect())
}

#[test]
fn no_public_function_of_a_library_has_a_requires() {
    let (mut libraries, mut count) = (0, 0);
    for (_, home) in crates() {
        let source = home.join("src");
        if !source.join("lib.rt").exists() {
            continue;
        }
        libraries += 1;
        for file in files_below(&source) {
            let text = fs::read_to_string(&file).expect("a source");
            let (all, requiring) = public(&text, "requires");
            count += all.len();
            assert!(requiring.is_empty(), "{}: {requiring:?}", file.display());
        }
    }
    assert!(libraries >= 15 && count >= 80, "only {count} functions of {libraries} libraries were found");
}

/// The theorem that no second answer fits a function's contract, by the generated reading of that contract.
fn sole(crate_name: &str, function: &str, proofs: &str) -> Option<String> {
    let front = format!("use Rattle.{crate_name}.proofs.");
    let of_it =
        |line: &&str| line.rsplit_once(".Reads as ").is_some_and(|(path, _)| path.rsplit('.').next() == Some(function));
    let used = proofs.lines().filter(|line| line.starts_with(&front)).find(of_it)?;
    let post = format!(" {}.Post ", used.rsplit_once(" as ")?.1);
    let theorems = proofs.lines().filter_map(|line| line.strip_prefix("pub ")?.split_once(" : "));
    // what a generic function is generic in stands before its arguments
    let at_args = |call: &str| call.split(" → ").next().is_some_and(|call| format!(" {call}").contains(" κs args "));
    let twice = |text: &str| text.matches(&post).count() == 2 && text.split(&post).skip(1).all(at_args);
    let mut fitting = theorems.filter(|(name, text)| name.ends_with("_sole") && twice(text));
    fitting.next().map(|(name, _)| format!("{crate_name}:{name}"))
}

/// What a function's row in docs/PROMISES.md says of a second answer.
fn second_answer<'a>(promises: &'a str, function: &str) -> &'a str {
    let front = format!("| `{function}` | ");
    let row = promises.lines().find_map(|line| line.strip_prefix(&front)).unwrap_or("");
    row.split(" | ").nth(1).unwrap_or("no row")
}

/// What is wrong with a public function's promise: nothing, where it is whole and said to be, or listed and said not to be.
fn fault(crate_name: &str, function: &Function, proofs: &[String], promises: &str) -> Option<String> {
    let name = format!("{crate_name}:{}", function.name);
    let said = second_answer(promises, &name);
    if NOT_WHOLE.contains(&name.as_str()) {
        return (!said.starts_with("none")).then(|| format!("{name} is not whole, and PROMISES.md says {said:?}"));
    }
    if !function.has("ensures") {
        return Some(format!("{name} has no ensures"));
    }
    let Some(theorem) = proofs.iter().find_map(|proofs| sole(crate_name, function.name, proofs)) else {
        return Some(format!("{name} has no theorem that no second answer fits"));
    };
    (!said.contains(&format!("`{theorem}`"))).then(|| format!("{name} has {theorem}, and PROMISES.md says {said:?}"))
}

#[test]
fn every_public_function_has_a_whole_promise_or_is_listed() {
    let promises = fs::read_to_string(root().join("docs/PROMISES.md")).expect("PROMISES.md");
    let (mut seen, mut faults) = (BTreeSet::new(), Vec::new());
    for (crate_name, home) in crates() {
        let proofs = texts_below(&home.join("proofs"));
        for source in texts_below(&home.join("src")) {
            for function in functions(&source).iter().filter(|function| function.public) {
                seen.insert(format!("{crate_name}:{}", function.name));
                faults.extend(fault(&crate_name, function, &proofs, &promises));
            }
        }
    }
    let gone: Vec<_> = NOT_WHOLE.iter().filter(|name| !seen.contains(**name)).collect();
    assert!(faults.is_empty() && gone.is_empty(), "{faults:#?}, listed and not there: {gone:?}");
    assert!(seen.len() >= 90, "only {} functions were found", seen.len());
}

#[test]
fn what_the_board_shows_is_promised() {
    let sources = texts_below(&root().join("crates/board/src"));
    for (name, cited) in SHOWN {
        let mut found = sources.iter().flat_map(|source| functions(source)).filter(|function| function.name == name);
        let function = found.next().expect(name);
        let cites = |line: &&str| line.trim_start().starts_with("ensures") && line.contains(cited);
        assert!(function.contract.iter().any(cites), "{name} does not promise {cited}: {:?}", function.contract);
    }
}

const SOURCE: &str = "pub fn a() -> u8 {
    0
}

pub fn b(x: u8)
    requires { x < 2 }
{
}

fn private(x: u8)
    requires { x < 2 }
{
}

#[unsafe(no_mangle)]
pub extern \"C\" fn c(
    x: u8,
) -> u32
    ensures { result ≡ 0 }
    requires { x < 2 }
{
    0
}

impl S {
    pub fn d(self) -> u8
        requires { self.x < 2 }
    {
        0
    }
}
";

#[test]
fn a_requires_is_seen_wherever_it_stands() {
    assert_eq!(public(SOURCE, "requires"), (vec!["a", "b", "c", "d"], vec!["b", "c", "d"]));
}

#[test]
fn a_promise_that_is_not_whole_is_seen() {
    assert_eq!(public(SOURCE, "ensures").1, ["c"]);
    let all = functions(SOURCE);
    let used = "use Rattle.k.proofs.m.c.Reads as c-of\n";
    let theorem = "pub c_sole : (κs : _) (args : _) → c-of.Post κs args r x → c-of.Post κs args s y → r ≡ s\n";
    let row = "| `k:c` | 0. | `k:c_sole` | none |";
    let tried = |function: usize, proofs: &str, row: &str| fault("k", &all[function], &[proofs.to_owned()], row);
    assert_eq!(tried(3, &format!("{used}{theorem}"), row), None);
    assert!(tried(3, theorem, row).is_some(), "a theorem of another contract");
    assert!(tried(3, used, row).is_some(), "no theorem");
    assert!(tried(3, &format!("{used}{theorem}"), "| `k:c` | 0. | none | none |").is_some(), "another row");
    assert!(tried(3, &format!("{used}{theorem}"), "").is_some(), "no row");
    assert!(tried(0, &format!("{used}{theorem}"), row).is_some(), "no ensures");
    let read = Function { name: "read", public: true, contract: Vec::new() };
    assert_eq!(fault("input", &read, &[], "| `input:read` | The count. | none | none |"), None);
    assert!(fault("input", &read, &[], "| `input:read` | The bytes. | `input:read_sole` | none |").is_some());
}
