//! The house's measures, which every Rattle source keeps: a line has at most 200 characters; a function's body at most 40 lines, from the
//! line of the `{` that opens it to the line of its `}`, both counted; a function at most 10 parameters.

mod source;

use source::{file, functions, root, Function, Read};
use std::path::Path;

const LINE: usize = 200;
const BODY: usize = 40;
const PARAMETERS: usize = 10;

/// Functions with more parameters, each with the reason.
const MANY_PARAMETERS: [(&str, &str); 3] = [
    ("planner_c::sessions::planner_run", "document 01 fixes the slices that a session is lent"),
    ("session::run::run", "document 01 fixes the slices that a session is lent"),
    ("session::run::write", "it fills the slices that a session is lent"),
];

/// `crates/a/src/b.rt` is `a::b`, and the root `crates/a/src/lib.rt` is `a`.
fn module(path: &str) -> String {
    let parts: Vec<&str> = path.strip_suffix(".rt").unwrap().split('/').collect();
    match parts[3..] {
        ["lib" | "main"] => parts[1].into(),
        _ => format!("{}::{}", parts[1], parts[3..].join("::")),
    }
}

/// What in a file is over its measure, and who is excepted without need.
fn violations(path: &str, source: &str) -> Read<Vec<String>> {
    let long = source.lines().map(|line| line.chars().count()).enumerate().filter(|&(_, length)| length > LINE);
    let mut told: Vec<String> =
        long.map(|(i, length)| format!("{path}:{}: a line of {length} characters, more than {LINE}", i + 1)).collect();
    for Function { line, name, parameters, lines, .. } in functions(path, source)? {
        let name = format!("{}::{name}", module(path));
        if lines > BODY {
            told.push(format!("{path}:{line}: {name} has a body of {lines} lines, more than {BODY}"));
        }
        let is_excepted = MANY_PARAMETERS.iter().any(|(excepted, _)| *excepted == name);
        match (parameters > PARAMETERS, is_excepted) {
            (true, false) => told.push(format!("{path}:{line}: {name} has {parameters} parameters, more than {PARAMETERS}")),
            (false, true) => told.push(format!("{path}:{line}: {name} is excepted and has only {parameters} parameters")),
            _ => {}
        }
    }
    Ok(told)
}

/// Every Rattle source of the repository, by its path.
fn sources() -> Vec<String> {
    let names = |folder: &Path| -> Vec<String> {
        let entries = std::fs::read_dir(folder).unwrap_or_else(|e| panic!("{}: {e}", folder.display()));
        let mut names: Vec<String> = entries.map(|entry| entry.unwrap().file_name().into_string().unwrap()).collect();
        names.sort();
        names
    };
    let crates = names(&root().join("crates"));
    let files = |name: &String| {
        let folder = format!("crates/{name}/src");
        names(&root().join(&folder)).into_iter().map(move |file| format!("{folder}/{file}"))
    };
    crates.iter().flat_map(files).collect()
}

#[test]
fn every_source() {
    let sources = sources();
    let told: Vec<String> = sources.iter().flat_map(|path| violations(path, &file(path)).unwrap()).collect();
    let names = |path: &String| functions(path, &file(path)).unwrap().into_iter().map(|f| format!("{}::{}", module(path), f.name)).collect();
    let named: Vec<String> = sources.iter().flat_map::<Vec<String>, _>(names).collect();
    println!("{} sources with {} functions are measured", sources.len(), named.len());
    for (name, reason) in MANY_PARAMETERS {
        assert!(named.iter().any(|known| known == name), "{name} is excepted ({reason}) and is no function");
    }
    assert!(told.is_empty(), "{} over the measure:\n{}", told.len(), told.join("\n"));
}

/// A function of so many parameters and lines, and a line of so many characters: at the measure nothing is told, one above it each is.
#[test]
fn measures() {
    let source = |parameters: usize, body: usize, line: usize| {
        let list: Vec<String> = (0..parameters).map(|i| format!("p{i}: &mut [u16; 4]")).collect();
        let inside = "    if x == b'}' { y(1, 2); }\n".repeat(body - 2);
        let tail = format!("// {}\n", "≡".repeat(line - 3));
        format!("fn f<'a, 'b>(\n{},\n) -> [u8; 3]\n    requires {{ a }}\n    ensures b {{ cond {{ }} }}\n{{\n{inside}}}\n{tail}", list.join(",\n"))
    };
    let told = |parameters, body, line| violations("crates/a/src/b.rt", &source(parameters, body, line)).unwrap();
    assert_eq!(told(10, 40, 200), [""; 0]);
    assert_eq!(told(11, 40, 200), ["crates/a/src/b.rt:1: a::b::f has 11 parameters, more than 10"]);
    assert_eq!(told(10, 41, 200), ["crates/a/src/b.rt:1: a::b::f has a body of 41 lines, more than 40"]);
    assert_eq!(told(10, 40, 201), ["crates/a/src/b.rt:55: a line of 201 characters, more than 200"]);
    let excepted = violations("crates/session/src/run.rt", "pub fn run(a: u8, b: u8) -> u8\n{\n    a\n}\n").unwrap();
    assert_eq!(excepted, ["crates/session/src/run.rt:1: session::run::run is excepted and has only 2 parameters"]);
}
