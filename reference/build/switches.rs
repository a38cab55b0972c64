//! Writes modules of the library anew, each fault of `faults/` in them as a switch: `match crate::faults::on() { .. }` in the
//! place of an expression. The sources themselves know of no fault.
//!
//! A file of faults has paragraphs of lines `word: text`. `file` names the source for all faults that follow, `fault` says
//! what is wrong, `in` an earlier text after which `old` is looked for, `old` the expression, and `new` what stands for
//! it where the fault is on. Of an `old` with `<<` and `>>` only what they enclose is replaced.

use std::collections::BTreeMap;
use std::fmt::Write;
use std::fs;
use std::path::Path;

/// The modules that are written anew.
const MODULES: [&str; 2] = ["plain", "replay"];

struct Fault {
    title: String,
    file: String,
    after: String,
    old: String,
    new: String,
}

/// Where an expression stands in its source, and the faults that replace it.
type Places<'a> = BTreeMap<(usize, usize), Vec<(usize, &'a str)>>;

/// Writes `faulty.rs` with the modules, and `titles.rs` with the list of what is wrong. Faults are numbered from 1.
pub fn write(target: &Path) {
    let faults = faults();
    let mut text = String::new();
    for module in MODULES {
        let folder = Path::new("src").join(module);
        let body = with_modules(&folder, &faults);
        writeln!(text, "#[allow(warnings)]\npub mod {module} {{\n{body}\n}}").unwrap();
    }
    let titles: Vec<&str> = faults.iter().map(|fault| fault.title.as_str()).collect();
    fs::write(target.join("faulty.rs"), text).expect("the folder for what is built");
    fs::write(target.join("titles.rs"), format!("&{titles:#?}")).unwrap();
}

/// The faults of every file, in the order of the numbers that the files' names begin with.
fn faults() -> Vec<Fault> {
    let folder = fs::read_dir("faults").expect("the folder of faults");
    let mut paths: Vec<_> = folder.map(|entry| entry.unwrap().path()).collect();
    paths.sort_by_key(|path| number_of(path));
    paths.iter().flat_map(|path| faults_of(path)).collect()
}

fn number_of(path: &Path) -> u32 {
    let name = path.file_name().unwrap().to_string_lossy();
    let number = name.split('_').next().unwrap();
    number.parse().expect("a number before the name")
}

fn faults_of(path: &Path) -> Vec<Fault> {
    let text = fs::read_to_string(path).unwrap();
    let mut file = String::new();
    let mut faults: Vec<Fault> = Vec::new();
    for line in text.lines() {
        let Some((word, rest)) = line.split_once(": ") else {
            assert!(line.is_empty() || line.starts_with('#'), "{line}");
            continue;
        };
        let rest = rest.to_string();
        if word == "file" {
            file = rest;
        } else if word == "fault" {
            faults.push(Fault {
                title: rest,
                file: file.clone(),
                after: String::new(),
                old: String::new(),
                new: String::new(),
            });
        } else {
            let fault = faults.last_mut().expect("a title comes first");
            match word {
                "in" => fault.after = rest,
                "old" => fault.old = rest,
                "new" => fault.new = rest,
                _ => panic!("{line}"),
            }
        }
    }
    faults
}

/// The module of a folder with its parts written in place of `pub mod part;`.
fn with_modules(folder: &Path, faults: &[Fault]) -> String {
    let text = switched(&folder.join("mod.rs"), faults);
    let mut whole = String::new();
    for line in text.lines() {
        let part = line.strip_prefix("pub mod ");
        match part.and_then(|part| part.strip_suffix(';')) {
            Some(part) => {
                let body = switched(&folder.join(format!("{part}.rs")), faults);
                writeln!(whole, "pub mod {part} {{\n{body}\n}}").unwrap();
            }
            None => writeln!(whole, "{line}").unwrap(),
        }
    }
    whole
}

/// The text of a source with its switches.
fn switched(path: &Path, faults: &[Fault]) -> String {
    let source = fs::read_to_string(path).unwrap();
    let mut places = Places::new();
    for (fault, number) in faults.iter().zip(1..) {
        if Path::new("src").join(&fault.file) == path {
            let place = place_of(&source, fault);
            places.entry(place).or_default().push((number, &fault.new));
        }
    }
    let mut text = String::new();
    let mut done = 0;
    for ((start, end), news) in &places {
        assert!(
            done <= *start,
            "two faults overlap: {}",
            &source[*start..*end]
        );
        text += &source[done..*start];
        text += &switch(&source[*start..*end], news);
        done = *end;
    }
    text + &source[done..]
}

fn switch(old: &str, news: &[(usize, &str)]) -> String {
    let arm = |(number, new): &(usize, &str)| format!("{number} => {{ {new} }} ");
    let arms: String = news.iter().map(arm).collect();
    format!("(match crate::faults::on() {{ {arms}_ => {{ {old} }} }})")
}

/// Where a fault's expression starts and ends. After the text that `in` names it is the first such.
fn place_of(source: &str, fault: &Fault) -> (usize, usize) {
    let title = &fault.title;
    let from = match fault.after.as_str() {
        "" => 0,
        after => source.find(after).unwrap_or_else(|| panic!("{title}: in")),
    };
    let plain = fault.old.replace("<<", "").replace(">>", "");
    let found = source[from..].find(&plain);
    let start = from + found.unwrap_or_else(|| panic!("{title}: old"));
    let again = source[start + 1..].contains(&plain);
    assert!(!again || from > 0, "{title}: old stands more than once");
    let opening = fault.old.find("<<").unwrap_or(0);
    let closing = fault.old.find(">>").map(|end| end - 2);
    let closing = closing.unwrap_or(plain.len());
    (start + opening, start + closing)
}
